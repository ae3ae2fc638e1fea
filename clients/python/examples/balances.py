"""Balances under invariants: no account is ever below zero, and all money comes from the bank."""

import tmem

SHAPE = {
    "vars": 3,
    "slots": 16,
    "invariants": [
        {"name": "alicesolvent", "sum": [[1, 0]], "least": 0, "always": True},
        {"name": "bobsolvent", "sum": [[1, 1]], "least": 0, "always": True},
        {"name": "balanced", "sum": [[1, 0], [1, 1], [-1, 2]], "least": 0, "most": 0, "always": True},
    ],
    "names": {"alice": 0, "bob": 1, "issued": 2},
}


@tmem.transaction
def deposit(t, account, amount):
    t[account] += amount
    t["issued"] += amount


@tmem.transaction
def move(t, source, to, amount):
    t[source] -= amount
    t[to] += amount
    return t[source], t[to]


@tmem.transaction
def bonus(t):
    deposit(t, "alice", 5)
    deposit(t, "bob", 5)
    return move(t, "alice", "bob", 1)


tmem.create("balances.store", SHAPE, exist_ok=True)
with tmem.open("balances.store") as store:
    store.run(deposit, "alice", 100)
    print("moved:", *store.run(move, "alice", "bob", 30))
    for attempt in (lambda t: move(t, "bob", "alice", t["bob"] + 1), lambda t: t.__setitem__("alice", 1_000_000)):
        try:
            store.run(attempt)
        except tmem.Refused as refused:
            print("refused:", refused.name)
    print("bonus:", *store.run(bonus))
    print("accounts:", *store.get("alice", "bob", "issued"))
