"""Leases with waiting: whoever finds both taken waits, without polling, until one is given back."""

import threading

import tmem


@tmem.transaction
def take(t, me):
    for lease in ("lease1", "lease2"):
        if t[lease] == 0:
            t[lease] = me
            t["held"] += 1
            return lease
    t.retry()


@tmem.transaction
def give_back(t, lease, me):
    if t[lease] != me:
        raise ValueError(f"{me} does not hold {lease}")
    t[lease] = 0
    t["held"] -= 1


tmem.create("leases.store", {"vars": 3, "slots": 16, "invariants": [], "names": {"lease1": 0, "lease2": 1, "held": 2}}, exist_ok=True)
with tmem.open("leases.store") as store:
    print("client 7 has", store.run(take, 7))
    taken = store.run_numbered(take, 8)
    print("client 8 has", taken.result, "and fencing token", taken.number)
    try:
        store.run(take, 9, timeout=0.1)
    except tmem.Timeout:
        print("client 9 would have to wait")

    waiting = threading.Thread(target=lambda: print("client 9 has", store.run(take, 9, timeout=60)))
    waiting.start()
    try:
        store.run(give_back, "lease2", 7)
    except ValueError as error:
        print("no:", error)
    store.run(give_back, "lease2", 8)
    waiting.join()
    print("held:", store.get("held"), "by", *store.get("lease1", "lease2"))
    store.run(give_back, "lease1", 7)
    store.run(give_back, "lease2", 9)
