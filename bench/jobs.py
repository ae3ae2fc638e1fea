"""The jobs, and how each peer is asked to do them. A `Slice` is what a round runs once: one job of one peer, for a part of a second.

The callers of a peer share 16 variables. Durable jobs and openings are in files of one file system; the others are in memory."""
import json
import subprocess
from dataclasses import dataclass

VARS, MANY_VARS, SLOTS = 16, 1024, 64
ADD, MANY, TRANSFER, WIDE, READS, OPEN = "add", "many", "transfer", "wide", "reads", "open"
NAMES = {
    ADD: "add, each awaited",
    MANY: "add, each 64th awaited",
    TRANSFER: "transfer, each awaited",
    WIDE: "transfer, invariant over 16",
    READS: "two reads",
    OPEN: "open 1024 variables, 4096 records",
}
# where nothing is awaited from a disk, and where 64 requests are on their way
OTHER_NAMES = {
    "memory": {ADD: "add", TRANSFER: "transfer, invariant over 2"},
    "variables": {MANY: "add, 64 at once"},
    "invariants": {TRANSFER: "transfer"},
    "slots": {MANY: "add, 64 at once, 1024 variables"},
}
# what is measured under a name, where a peer has no such job
FORMS = {
    "tmem": "tmem bench: threads over the library, beside a flusher; one caller flushes itself. Its invariant is over both accounts, or "
    "over all 16 variables. In memory each 64th waits until it is on a device in memory",
    "tmem core": "tmem bench: one thread on the core alone, which a program without threads uses",
    "tmem serve": "one client over pipes: a caller is a request on its way. Two invariants",
    "redis": "connections over a Unix socket. Each 64th: 64 commands sent at once. Transfer: a Lua script that tests first; no invariants",
    "lmdb": "threads. Each 64th: 64 adds in one transaction, all or nothing. Transfer: tested in the transaction; no invariants",
    "sqlite": "threads. Each 64th: the other commits do not sync. Transfer: a CHECK of the table, tested at each row",
    "postgres": "connections over a Unix socket, serializable. Each 64th: synchronous_commit off for the others. Transfer: a deferred trigger",
    "stm": "threads, in memory alone, and awaits nothing. Transfer: the transaction tests the variables itself; no invariants",
}
SYNCS = "two syncs"
# the peers, in the order of tables and plots, as these call them
LABELS = {
    "tmem": "tmem",
    "tmem core": "tmem core",
    "tmem serve": "tmem serve",
    "redis": "Redis",
    "lmdb": "LMDB",
    "sqlite": "SQLite",
    "postgres": "PostgreSQL",
    "stm": "GHC stm",
    SYNCS: SYNCS,
}
ORDER = list(LABELS)
# what grows, a plot each; these stores are in memory
GROWN = ["variables", "invariants", "slots"]


def name_of(part, job):
    """What a table or a plot calls a job."""
    return OTHER_NAMES.get(part, {}).get(job) or NAMES.get(job, job)


@dataclass(frozen=True)
class Slice:
    """One job of one peer. `part` says which table or plot it is for, and `at` where it stands in a growth."""

    part: str
    job: str
    peer: str
    callers: int
    at: int = 0
    line: int = 0  # of what `tmem bench` prints
    size: int = VARS
    slots: int = SLOTS
    invariants: int = 0


# the lines of `tmem bench` below its head: what each begins with, which is the device, the job, the callers and the flushers
TMEM_NAMES = {ADD: "add, each awaited", MANY: "add, each 64th awaited", TRANSFER: "transfer, each awaited", READS: "two reads"}
LOOSE_NAMES = {TRANSFER: "transfer, each 64th", WIDE: "wide transfer, each 64th"}
ALONE = ("1", "none")
CALLERS = [ALONE, *((str(count), "one") for count in [1, 2, 4, 16])]
LINES = [
    *(("core", name, *ALONE) for name in ["add", "transfer", "wide transfer"]),
    *(("memory", name, *callers) for name in TMEM_NAMES.values() for callers in CALLERS),
    *(("memory", name, *callers) for name in LOOSE_NAMES.values() for callers in [ALONE, ("4", "one")]),
    *(("file", name, *callers) for name in TMEM_NAMES.values() for callers in CALLERS),
    ("file", "open 1024 variables", *ALONE),
]


def line_of(device, name, count):
    """Which line it is, from 1; one caller flushes itself."""
    return 1 + LINES.index((device, name, *(ALONE if count == 1 else (str(count), "one"))))


def of_tmem():
    """What is asked of `tmem bench`. What is awaited in memory is compared with what awaits nothing, so each 64th alone is."""
    for job, callers in [(ADD, 1), (ADD, 4), (ADD, 16), (MANY, 4), (TRANSFER, 1), (TRANSFER, 4)]:
        yield Slice("durable", job, "tmem", callers, line=line_of("file", TMEM_NAMES[job], callers))
    for job, name in [(ADD, TMEM_NAMES[MANY]), *LOOSE_NAMES.items(), (READS, TMEM_NAMES[READS])]:
        for callers in [1, 16 if job == READS else 4]:
            yield Slice("memory", job, "tmem", callers, line=line_of("memory", name, callers))
    for job, name in [(ADD, "add"), (TRANSFER, "transfer"), (WIDE, "wide transfer")]:
        yield Slice("memory", job, "tmem core", 1, line=line_of("core", name, 1))
    yield Slice("opening", OPEN, "tmem", 1, line=line_of("file", "open 1024 variables", 1))


def of_peers():
    """What is asked of the drivers, but for growths."""
    for peer in ["tmem serve", "redis", "lmdb", "sqlite", "postgres"]:
        for job, callers in [(ADD, 1), (ADD, 4), (ADD, 16), (MANY, 4), (TRANSFER, 1), (TRANSFER, 4)]:
            yield Slice("durable", job, peer, callers, invariants=2)
    for job, callers in [(ADD, 1), (ADD, 4), (TRANSFER, 1), (TRANSFER, 4), (WIDE, 1), (WIDE, 4), (READS, 1), (READS, 16)]:
        yield Slice("memory", job, "stm", callers, size=2 if job == TRANSFER else VARS, invariants=1)
    for callers in [1, 16]:
        yield Slice("memory", READS, "lmdb", callers)
    for peer in ["lmdb", "sqlite"]:
        yield Slice("opening", OPEN, peer, 1, size=MANY_VARS)


def of_growth():
    """What one transaction costs as a store grows, in files in memory, so that no sync takes time."""
    for size in [16, 64, 256, 1024]:
        for peer in ["tmem serve", "lmdb", "sqlite"]:
            yield Slice("variables", MANY, peer, 1, at=size, size=size)
    for count in [1, 4, 16, 64]:
        yield Slice("invariants", TRANSFER, "tmem serve", 64, at=count, invariants=count)
        yield Slice("invariants", TRANSFER, "stm", 1, at=count, invariants=count)
    for slots in [2, 8, 32, 64]:
        yield Slice("slots", MANY, "tmem serve", 1, at=slots, slots=slots, size=MANY_VARS)


def all_slices():
    """All of them, and the two syncs, six times a round."""
    syncs = [Slice("durable", SYNCS, SYNCS, 1, at=k) for k in range(6)]
    return [*syncs, *of_tmem(), *of_peers(), *of_growth()]


def letters(number):
    """A name for an invariant, of letters alone."""
    return "i" + "abcdefghijklmnopqrstuvwxyz"[number // 26] + "abcdefghijklmnopqrstuvwxyz"[number % 26]


def shape_of(it):
    """The shape of the store that a slice is served from. In a growth each invariant is over 16 variables, else over one account."""
    if it.part == "invariants":
        sums = [[[1, var] for var in range(VARS)]] * it.invariants
    else:
        sums = [[[1, 1 + number]] for number in range(it.invariants)]
    invariants = [{"name": letters(number), "sum": terms, "least": 0, "always": True} for number, terms in enumerate(sums)]
    return {"vars": it.size, "slots": it.slots, "invariants": invariants}


def new_store(it, program, folder):
    """Makes the store that a slice is served from, and answers its path."""
    store = f"{folder}/store"
    with open(f"{folder}/shape", "w", encoding="utf-8") as shape:
        json.dump(shape_of(it), shape)
    subprocess.run([program, "init", store, f"{folder}/shape"], check=True, stdin=subprocess.DEVNULL, stdout=subprocess.DEVNULL)
    return store


def command_of(it, seconds, where):
    """The command of a driver. `where` has the drivers, the servers' places, the program and a new folder for this slice."""
    if it.peer == SYNCS:
        return [where.drivers["syncs"], f"{seconds / 2}", where.folder]
    driver, place, more = where.drivers[{"tmem serve": "serve"}.get(it.peer, it.peer)], where.folder, []
    if it.peer == "tmem serve":
        place, more = new_store(it, where.program, where.folder), [where.program]
    elif it.peer in where.servers:
        place = where.servers[it.peer]
    elif it.peer == "stm":
        more = [str(it.invariants)]
    return [driver, TRANSFER if it.job == WIDE else it.job, str(it.callers), f"{seconds}", place, str(it.size), *more]
