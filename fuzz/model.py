"""A plain model of the program: the bytes of docs/FORMAT.md, in both versions, and the scripts of docs/USE.md.

Which refusal comes first is from docs/USE.md and crates/tmem_world/specs/WorldModel.antt. It keeps the whole content of a device as bytes,
and reads it anew at each opening. Memory and the device never fail here."""
import re
import struct

OPEN = 0xA5
# The version of the format that is written; and what the last byte of an image's header is in each version.
NEWEST = 2
VERSION_BYTES = {1: 0, 2: 2}
MOST = 2**64 - 1
# Those that the program has, in its order: the variables that they are about, and what they say of their values.
TABLE = {
    "nonneg": ([0], lambda a: a >= 0),
    "sum": ([0, 1], lambda a, b: a + b == 100),
    "ordered": ([2, 3], lambda a, b: a <= b),
}
STEPS = {"add": lambda a, b: a + b, "sub": lambda a, b: a - b, "need": lambda a, b: a if a >= b else "retry"}


def known(vars):
    """The invariants of a store of so many variables."""
    return [name for name, (over, _) in TABLE.items() if over[-1] < vars]


def holds(name, value_of):
    over, test = TABLE[name]
    return test(*(value_of(var) for var in over))


class Refused(Exception):
    """A refusal, by the text of its fault."""


class Layout:
    def __init__(self, vars, slots):
        self.vars, self.slots = vars, slots
        self.pages = (vars + 63) // 64
        self.size = 2048 + 512 * self.pages
        self.end = self.slot(slots)

    def image(self, copy):
        return 512 + copy * self.size

    def slot(self, k):
        return 512 + 2 * self.size + 4096 * k

    def is_allowed(self):
        return 1 <= self.vars <= 1024 and 2 <= self.slots <= 64


def block(layout, version=NEWEST):
    return (bytes([OPEN]) + b"TMEM" + struct.pack("<BHH", version, layout.vars, layout.slots)).ljust(512, b"\0")


def spelled(names):
    return b"".join(bytes([len(it)]) + it.encode() for it in names)


def header(generation, count, names, version=NEWEST):
    """An image's header behind its gate."""
    return (struct.pack("<QQB", generation, count, len(names)) + spelled(names)).ljust(2046, b"\0") + bytes([VERSION_BYTES[version]])


def pages(layout, values):
    return struct.pack(f"<{layout.vars}q", *values).ljust(512 * layout.pages, b"\0")


def record(writes, names, retired=(), version=NEWEST):
    found = bytes([len(writes)]) + b"".join(struct.pack("<Hq", var, value) for var, value in writes)
    found += bytes([len(names)]) + spelled(names)
    return found if version == 1 else found + bytes([len(retired)]) + spelled(retired)


def batch(generation, first, records):
    """A batch behind its gate, of records that are spelled."""
    return struct.pack("<QQH", generation, first, len(records)) + b"".join(records)


def formatted(layout):
    image = bytes([OPEN]) + header(1, 0, []) + pages(layout, [0] * layout.vars)
    return bytearray((block(layout) + image).ljust(layout.end, b"\0"))


class Reader:
    """Reads numbers and names off bytes, and is refused where they end or a name is none."""

    def __init__(self, data):
        self.data, self.at = data, 0

    def number(self, form):
        if self.at + struct.calcsize(form) > len(self.data):
            raise Refused("fault 9 damaged")
        (found,) = struct.unpack_from(form, self.data, self.at)
        self.at += struct.calcsize(form)
        return found

    def names(self, count):
        found = []
        for _ in range(count):
            length = self.number("<B")
            name = bytes(self.data[self.at : self.at + length])
            if not re.fullmatch(rb"[a-z]{1,16}", name) or len(name) != length:
                raise Refused("fault 9 damaged")
            found.append(name.decode())
            self.at += length
        return found


def after(registered, names, retired):
    """The registered names after an effect that checks some and retires others."""
    return sorted({*registered} - {*retired} | {*names})


def damaged_unless(condition):
    if not condition:
        raise Refused("fault 9 damaged")


class Opened:
    """What an opening finds on a content: the chosen copy, its generation, how many slots are used, the count, the names and the
    values. It closes stale gates in the content, and writes an image of version 2 where the chosen one is of version 1, also where a
    name of the state is missing or an invariant is false. With `newest` 1 it is an opening by a program that knows version 1 alone."""

    def __init__(self, content, layout, newest=NEWEST):
        self.content, self.layout = content, layout
        if not layout.is_allowed() or len(content) < layout.end:
            raise Refused("fault 17 geometry")
        if content[:5] != bytes([OPEN]) + b"TMEM":
            raise Refused("fault 8 notformatted")
        theirs = Layout(*struct.unpack_from("<HH", content, 6))
        damaged_unless(theirs.is_allowed() and 1 <= content[5] <= newest and content[:512] == block(theirs, content[5]))
        if (theirs.vars, theirs.slots) != (layout.vars, layout.slots):
            raise Refused("fault 17 geometry")
        self.read_image(newest)
        self.read_log()
        for k in range(self.used, layout.slots):
            if content[layout.slot(k)] == OPEN:
                content[layout.slot(k)] = 0
        if self.version < newest:
            self.next_image()
        self.look_at_names()

    def look_at_names(self):
        """Refuses a state with a registered name that the program lacks, or one whose invariant is false."""
        for name in sorted(self.names):
            if name not in known(self.layout.vars):
                raise Refused(f"fault 10 missing {name}")
        broken = self.broken(self.names, self.values)
        if broken:
            raise Refused(f"fault 11 broken {broken}")

    def generation_at(self, at):
        """The generation in a cell, if its gate is open."""
        return struct.unpack_from("<Q", self.content, at + 1)[0] if self.content[at] == OPEN else None

    def read_image(self, newest):
        layout = self.layout
        found = [self.generation_at(layout.image(copy)) for copy in (0, 1)]
        damaged_unless(found[0] != found[1])
        self.copy = 0 if found[1] is None or (found[0] is not None and found[0] > found[1]) else 1
        self.generation = found[self.copy]
        damaged_unless(self.generation >= 1)
        at = layout.image(self.copy)
        found = [version for version, byte in VERSION_BYTES.items() if byte == self.content[at + 2047]]
        damaged_unless(found and self.content[5] <= found[0] <= newest)
        self.version = found[0]
        reader = Reader(self.content[at + 9 : at + 2047])
        self.count = reader.number("<Q")
        count = reader.number("<B")
        damaged_unless(count <= 64)
        self.names = reader.names(count)
        damaged_unless(all(a < b for a, b in zip(self.names, self.names[1:])))
        self.values = list(struct.unpack_from(f"<{layout.vars}q", self.content, at + 2048))
        # (an image has one encoding, so what is not spelled is 0)
        damaged_unless(self.content[at + 1 : at + 2048] == header(self.generation, self.count, self.names, self.version))
        damaged_unless(self.content[at + 2048 : at + layout.size] == pages(layout, self.values))

    def read_log(self):
        layout = self.layout
        found = [self.generation_at(layout.slot(k)) for k in range(layout.slots)]
        self.used = 0
        while self.used < layout.slots and found[self.used] == self.generation:
            self.read_batch(layout.slot(self.used))
            self.used += 1
        damaged_unless(all(it is None or it < self.generation for it in found[self.used :]))

    def read_batch(self, at):
        reader = Reader(self.content[at + 9 : at + 4096])
        damaged_unless(reader.number("<Q") == self.count)
        records = reader.number("<H")
        damaged_unless(1 <= records <= 64)
        for _ in range(records):
            count = reader.number("<B")
            damaged_unless(count <= 64)
            writes = [(reader.number("<H"), reader.number("<q")) for _ in range(count)]
            damaged_unless(len({var for var, _ in writes}) == count and all(var < self.layout.vars for var, _ in writes))
            names = self.some_names(reader)
            retired = self.some_names(reader) if self.version == 2 else []
            damaged_unless((writes or names or retired) and not {*names} & {*retired})
            self.apply(writes, names, retired)
            damaged_unless(self.count <= MOST and len(self.names) <= 64)

    def some_names(self, reader):
        """The names of a record that it checks, or those that it retires."""
        count = reader.number("<B")
        damaged_unless(count <= 8)
        names = reader.names(count)
        damaged_unless(len({*names}) == count)
        return names

    def apply(self, writes, names, retired):
        self.count += 1
        self.names = after(self.names, names, retired)
        for var, value in writes:
            self.values[var] = value

    def next_image(self):
        """Writes the state as the next image, of the newest version, into the copy that is not chosen, and closes the log."""
        if self.generation == MOST:
            raise Refused("fault 15 spent")
        layout = self.layout
        self.generation, self.copy, self.used, self.version = self.generation + 1, 1 - self.copy, 0, NEWEST
        at = layout.image(self.copy)
        image = bytes([OPEN]) + header(self.generation, self.count, self.names) + pages(layout, self.values)
        self.content[at : at + layout.size] = image
        for k in range(layout.slots):
            if self.content[layout.slot(k)] == OPEN:
                self.content[layout.slot(k)] = 0

    def broken(self, names, values):
        """The first of these invariants that is false."""
        return next((it for it in TABLE if it in names and not holds(it, values.__getitem__)), None)


class Recovered(Opened):
    """What an opening finds that knows nothing of what the names mean."""

    def look_at_names(self):
        pass


def recovery(content):
    """What an opening of a content finds, by the numbers of its own block 0, as `tmem show --json` tells it: a state, or the number of a
    fault. The size is looked at first, and what is shorter than the shortest store is too short for any numbers."""
    if len(content) < Layout(1, 2).end:
        return {"fault": 17}
    if content[:5] != bytes([OPEN]) + b"TMEM":
        return {"fault": 8}
    layout, version = Layout(*struct.unpack_from("<HH", content, 6)), content[5]
    if not layout.is_allowed() or not 1 <= version <= NEWEST or content[:512] != block(layout, version):
        return {"fault": 9}
    try:
        found = Recovered(bytearray(content), layout)
    except Refused as refused:
        return {"fault": int(str(refused).split()[1])}
    return {"count": found.count, "names": found.names, "values": found.values}


class Run:
    """A session of the program on a content. Of each checkpoint, `images` has the numbers of pages that it writes and that it leaves
    out. The content is made of the state alone: a page that was left out has to be as if it was written."""

    def __init__(self, content, layout):
        self.content, self.layout, self.images = content, layout, []
        self.open()

    def open(self):
        self.stored = Opened(self.content, self.layout)
        # the present state, and what waits to be durable
        self.count, self.names, self.values = self.stored.count, self.stored.names, list(self.stored.values)
        self.waiting, self.attempts = [], {}
        # the pages of each copy that may differ from the durable state
        self.differing = [{*range(self.layout.pages)} for _ in range(2)]
        return f"opened {self.count}"

    def reopen(self):
        self.stored = None
        try:
            return self.open()
        except Refused as refused:
            return str(refused)

    def play(self, entry):
        """Plays an entry, and answers its line."""
        if entry == "reopen":
            return self.reopen()
        if self.stored is None:
            return "fault 3 closed"
        if entry == "show":
            return f"state count={self.count} names={','.join(self.names)} values={','.join(map(str, self.values))}"
        if entry == "look":
            return f"look {self.stored.count}"
        if entry in ("flush", "checkpoint"):
            return getattr(self, entry)()
        ((key, body),) = entry.items()
        return getattr(self, key)(*(body if key == "begin" else [body]))

    def begin(self, index, tx):
        cause = cause_of(tx, self.layout.vars)
        if cause:
            return f"fault 12 badplan {cause}"
        self.attempts[index] = Attempt(tx)
        return "begun"

    def turn(self, index):
        if index not in self.attempts:
            return "idle"
        return self.attempts[index].turn(self.values)

    def settle(self, index):
        attempt = self.attempts.get(index)
        if attempt is None or attempt.ending is None:
            return "idle"
        if any(self.values[var] != value for var, value in attempt.reads.items()):
            return "fault 7 conflict"
        line = self.settled(attempt)
        if not line.startswith("fault"):
            del self.attempts[index]
        return line

    def settled(self, attempt):
        if attempt.ending != "normal":
            return attempt.ending
        if not attempt.writes and not attempt.checks and not attempt.retired:
            return f"seen {self.count} {','.join(map(str, attempt.registers))}"
        values = list(self.values)
        for var, value in attempt.writes.items():
            values[var] = value
        names = after(self.names, attempt.checks, attempt.retired)
        broken = self.stored.broken(names, values)
        if broken:
            return f"refused {broken}"
        if len(self.waiting) == 256:
            return "fault 5 full"
        if self.count == MOST:
            return "fault 15 spent"
        self.waiting.append((list(attempt.writes.items()), attempt.checks, attempt.retired))
        self.values, self.names = values, names
        self.count += 1
        return f"committed {self.count - 1}"

    def flush(self):
        if not self.waiting:
            return f"durable {self.stored.count}"
        stored, layout = self.stored, self.layout
        if stored.used == layout.slots:
            return "fault 6 logfull"
        records = []
        while len(records) < min(64, len(self.waiting)) and len(b"".join(records)) + 915 <= 4077:
            records.append(record(*self.waiting[len(records)]))
        body = batch(stored.generation, stored.count, records)
        at = layout.slot(stored.used)
        self.content[at : at + 1 + len(body)] = bytes([OPEN]) + body
        for writes, names, retired in self.waiting[: len(records)]:
            stored.apply(writes, names, retired)
            for differing in self.differing:
                differing.update(var // 64 for var, _ in writes)
        del self.waiting[: len(records)]
        stored.used += 1
        return f"durable {stored.count}"

    def checkpoint(self):
        stored, layout = self.stored, self.layout
        try:
            stored.next_image()
        except Refused as refused:
            return str(refused)
        written = len(self.differing[stored.copy])
        self.images.append((written, layout.pages - written))
        self.differing[stored.copy] = set()
        return "checkpointed"


class Left(Exception):
    """The transaction was left: by retry, by an abort, by a check that is false, to read a variable, or to test an invariant."""


class Attempt:
    """One attempt: a transaction with the values that it has read, and the answers of its tests, in their order."""

    def __init__(self, tx):
        self.tx, self.reads, self.answers, self.ending = tx, {}, [], None

    def turn(self, values):
        if self.ending is None:
            self.registers, self.writes, self.checks, self.retired, self.tested = [0] * 16, {}, [], [], 0
            try:
                self.run(self.tx)
                self.ending = "normal"
            except Left as left:
                why = left.args[0]
                if isinstance(why, int):
                    self.reads[why] = values[why]
                    return f"read {why} {values[why]}"
                if isinstance(why, tuple):
                    name, held = why
                    self.answers.append(held)
                    return f"probe {name} {'yes' if held else 'no'}"
                self.ending = why
        return "ended"

    def value(self, var):
        if var in self.writes:
            return self.writes[var]
        if var not in self.reads:
            raise Left(var)
        return self.reads[var]

    def check(self, name):
        """Tests an invariant on the values so far, and proposes it. (A choice undoes neither its reads nor its answer.)"""
        held = holds(name, self.value)
        if self.tested == len(self.answers):
            raise Left((name, held))
        self.tested += 1
        if not self.answers[self.tested - 1]:
            raise Left(f"refused {name}")
        self.checks += [] if name in self.checks else [name]
        self.retired = [it for it in self.retired if it != name]

    def retire(self, name):
        """Proposes that an invariant is tested no more from the end of the transaction on."""
        self.retired += [] if name in self.retired else [name]
        self.checks = [it for it in self.checks if it != name]

    def run(self, tx):
        key, body = (tx, None) if isinstance(tx, str) else next(iter(tx.items()))
        if key == "seq":
            for it in body:
                self.run(it)
        elif key == "put":
            self.registers[body[0]] = body[1]
        elif key == "read":
            self.registers[body[1]] = self.value(body[0])
        elif key == "write":
            self.writes[body[0]] = self.registers[body[1]]
        elif key == "step":
            name, args, register = body
            value = STEPS[name](*(self.registers[it] for it in args))
            if value == "retry":
                raise Left("retry")
            if not -(2**63) <= value < 2**63:
                raise Left("aborted 65535")
            self.registers[register] = value
        elif key == "when":
            self.run(body[1] if self.registers[body[0]] != 0 else body[2])
        elif key == "orelse":
            kept = list(self.registers), dict(self.writes), list(self.checks), list(self.retired)
            try:
                self.run(body[0])
            except Left as left:
                if left.args[0] != "retry":
                    raise
                self.registers, self.writes, self.checks, self.retired = kept
                self.run(body[1])
        elif key == "retry":
            raise Left("retry")
        elif key == "abort":
            raise Left(f"aborted {body}")
        elif key == "check":
            self.check(body)
        elif key == "retire":
            self.retire(body)


def parts_of(tx):
    """The transactions in one."""
    key, body = (tx, None) if isinstance(tx, str) else next(iter(tx.items()))
    return body if key == "seq" else body[1:] if key == "when" else body if key == "orelse" else []


def cause_of(tx, vars):
    """The least limit that a transaction breaks, or None."""
    nodes, depth, level = [], 0, [tx]
    while level:
        nodes += level
        depth += 1
        level = [part for it in level for part in parts_of(it)]
    of = lambda key: [it[key] for it in nodes if isinstance(it, dict) and key in it]
    registers = [it[0] for it in of("put") + of("when")] + [it[1] for it in of("read") + of("write")]
    registers += [it for name, args, out in of("step") for it in [*args, out]]
    broken = [
        depth > 32,
        len(nodes) > 512,
        len(of("write")) > 64,
        len(of("check")) > 8,
        any(it > 15 for it in registers),
        any(it[0] >= vars for it in of("read") + of("write")),
        False,
        any(len(args) != 2 for name, args, out in of("step")),
        any(it not in known(vars) for it in of("check") + of("retire")),
        len(of("retire")) > 8,
    ]
    return broken.index(True) + 1 if True in broken else None
