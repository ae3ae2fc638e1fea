"""A counter with group commit: many additions are on their way at once, and share flushes."""

import tmem

tmem.create("counter.store", {"vars": 1, "slots": 64, "invariants": [], "names": {"hits": 0}}, exist_ok=True)
with tmem.open("counter.store") as store:
    # This transaction the store runs by itself: it adds the number of its Put to the counter.
    hits = store.number("hits")
    add = {"seq": [{"put": [1, 1]}, {"read": [hits, 0]}, {"step": ["add", [0, 1], 0]}, {"write": [hits, 0]}]}

    # One at a time: each call returns once its addition is durable, after two syncs.
    for _ in range(3):
        print("hit", store.do(add).registers[0])

    # A thousand at once: each answer still comes once its addition is durable, but up to 64 of them share a flush.
    answers = [store.submit({"do": add}) for _ in range(1000)]
    numbers = [answer.result()["committed"] for answer in answers]
    print("transactions", numbers[0], "to", numbers[-1])

    # An addition as a function: it reads, computes and writes, and is run again if the counter has changed meanwhile.
    @tmem.transaction
    def double(t):
        t["hits"] *= 2
        return t["hits"]

    print("doubled", store.run(double))

with tmem.open("counter.store") as store:
    print("found", store.get("hits"), "after", store.opened, "transactions")
