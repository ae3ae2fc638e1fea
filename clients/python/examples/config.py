"""Configuration: its readers never see it half changed, and wait for the next version without polling."""

import threading

import tmem

NAMES = {"version": 0, "rate": 1, "burst": 2}


@tmem.transaction
def change(t, rate):
    t["version"] += 1
    t["rate"] = rate
    t["burst"] = 2 * rate


@tmem.transaction
def look(t):
    return t["version"], t["rate"], t["burst"]


@tmem.transaction
def later(t, than):
    if t["version"] <= than:
        t.retry()
    return look(t)


tmem.create("config.store", {"vars": 3, "slots": 16, "invariants": [], "names": NAMES}, exist_ok=True)
with tmem.open("config.store") as store:
    seen, first = [], store.get("version")

    def follow():
        version = first
        while version < first + 50:
            version, rate, burst = store.run(later, version)
            seen.append((rate, burst))

    followers = [threading.Thread(target=follow) for _ in range(3)]
    for it in followers:
        it.start()
    for rate in range(1, 51):
        store.run(change, rate)
    for it in followers:
        it.join()
    print("half changed:", sum(burst != 2 * rate for rate, burst in seen))
    print("last seen by all:", seen.count((50, 100)))
    print("version, rate and burst:", *store.run(look))
