"""A plain model of `tmem serve`: the store's shape, its transactions, and a desk that answers lines.

It is written from the description of the protocol and not from the program. The words of a refusal (`why`) and its place (`at`) are its
own."""

from __future__ import annotations

import json
import re

BIG = 2**63
MOST_LINE, MOST_WAITING, MOST_KEPT = 65536, 1024, 256
MOST_READS, MOST_WRITES, MOST_CHECKS, MOST_RETIRES = 500, 64, 8, 8
FAULTS = {2: "device", 3: "closed", 4: "unknown", 5: "full", 7: "conflict", 12: "badplan"}
CAUSES = ["it is deeper than 32", "it has more than 512 nodes", "it has more than 64 writes", "it has more than 8 checks"]
CAUSES += ["a register is not below 16", "the store has no such variable", "there is no such step"]
CAUSES += ["a step takes another number of registers", "the store has no invariant of this name", "it retires more than 8 names"]


class NoRequest(Exception):
    """What was wrong, and where."""

    def __init__(self, why, at):
        super().__init__(why, at)
        self.why, self.at = why, at


# JSON as the program reads it: integers of 64 bits are values, and what Python takes beyond JSON is none.


class NoInteger:
    pass


def _integer(text):
    return NoInteger if text == "-0" or len(text) > 20 or not -BIG <= int(text) < BIG else int(text)


def _number(_text):
    return NoInteger


def _constant(text):
    raise ValueError(f"{text} is no JSON")


def json_of(text):
    """The value of a JSON text in UTF-8, or NoRequest."""
    try:
        return json.loads(text.decode("utf-8"), parse_int=_integer, parse_float=_number, parse_constant=_constant)
    except (ValueError, RecursionError):
        raise NoRequest("this is not JSON (which may nest 127 levels deep)", "line 1 column 1") from None


def want(condition, why, at):
    if not condition:
        raise NoRequest(why, at)


def integer(value, at, least=-BIG, most=BIG - 1):
    want(isinstance(value, int) and not isinstance(value, bool) and least <= value <= most, "a number is wanted", at)
    return value


def items(value, at, count=None):
    want(isinstance(value, list) and count in (None, len(value)), "an array is wanted", at)
    return [(it, f"{at}/{k}") for k, it in enumerate(value)]


def text(value, at, pattern):
    want(isinstance(value, str) and re.fullmatch(pattern, value), "a word is wanted", at)
    return value


def distinct(values, at):
    want(len({*values}) == len(values), "twice the same", at)


# The shape.


class Shape:
    """{"vars":V,"slots":S,"invariants":[..],"names":{..}}"""

    def __init__(self, data):
        value = json_of(data)
        want(isinstance(value, dict), "an object is wanted", "")
        want({*value} <= {"vars", "slots", "invariants", "names"} and {"vars", "slots", "invariants"} <= {*value}, "other keys", "")
        self.vars = integer(value["vars"], "/vars", 1, 1024)
        self.slots = integer(value["slots"], "/slots", 2, 64)
        found = [Linear(it, at, self.vars) for it, at in items(value["invariants"], "/invariants")]
        want(len(found) <= 64, "at most 64 invariants", "/invariants")
        distinct([it.name for it in found], "/invariants")
        self.invariants = {it.name: it for it in found}
        self.names = value.get("names", {})
        want(isinstance(self.names, dict), "an object is wanted", "/names")
        for name, number in self.names.items():
            text(name, f"/names/{name}", "[a-z][a-z0-9_]{0,31}")
            integer(number, f"/names/{name}", 0, self.vars - 1)
        distinct([*self.names.values()], "/names")

    def first_broken(self, names, values):
        return next((it for it in self.invariants.values() if it.name in names and not it.holds(values.__getitem__)), None)


class Linear:
    """least <= the sum of the terms <= most, as whole numbers."""

    def __init__(self, value, at, vars):
        want(isinstance(value, dict) and {*value} <= {"name", "sum", "least", "most", "always"}, "other keys", at)
        want({"name", "sum"} <= {*value} and {"least", "most"} & {*value}, "a key is missing", at)
        self.name = text(value["name"], f"{at}/name", "[a-z]{1,16}")
        want(self.name not in ("nonneg", "sum", "ordered"), "this name means something else", f"{at}/name")
        self.terms = [self.term(*it, vars) for it in items(value["sum"], f"{at}/sum")]
        want(1 <= len(self.terms) <= 16, "1 to 16 terms", f"{at}/sum")
        distinct([var for _, var, _ in self.terms], f"{at}/sum")
        self.least = integer(value["least"], f"{at}/least") if "least" in value else None
        self.most = integer(value["most"], f"{at}/most") if "most" in value else None
        self.always = value.get("always", False)
        want(self.always is True or "always" not in value, "true is wanted", f"{at}/always")

    @staticmethod
    def term(value, at, vars):
        (times, here), (var, there), *more = items(value, at) if isinstance(value, list) and len(value) == 3 else items(value, at, 2)
        want(not more or more[0][0] == "nonzero", "nonzero is wanted", f"{at}/2")
        return integer(times, here, -(2**31), 2**31 - 1), integer(var, there, 0, vars - 1), bool(more)

    def holds(self, value_of):
        found = sum(times * ((value_of(var) != 0) if counts else value_of(var)) for times, var, counts in self.terms)
        return (self.least is None or self.least <= found) and (self.most is None or found <= self.most)

    def seen(self, value_of):
        return [[var, value_of(var)] for var in sorted(var for _, var, _ in self.terms)]


# Transactions as data.


def check_tx(value, at):
    """Refuses what is no form of a transaction."""
    if isinstance(value, str):
        return want(value in ("skip", "retry"), "no transaction", at)
    want(isinstance(value, dict) and len(value) == 1, "no transaction", at)
    ((key, body),) = value.items()
    at = f"{at}/{key}"
    if key == "seq":
        for it in items(body, at):
            check_tx(*it)
    elif key == "put":
        (register, here), (number, there) = items(body, at, 2)
        integer(register, here, 0, 255)
        integer(number, there)
    elif key in ("read", "write"):
        (var, here), (register, there) = items(body, at, 2)
        integer(var, here, 0, 65535)
        integer(register, there, 0, 255)
    elif key == "step":
        (name, here), (args, there), (register, last) = items(body, at, 3)
        want(name in ("add", "sub", "need"), "no step", here)
        for it in [*items(args, there), (register, last)]:
            integer(*it, 0, 255)
    elif key == "when":
        (register, here), first, second = items(body, at, 3)
        integer(register, here, 0, 255)
        check_tx(*first)
        check_tx(*second)
    elif key == "orelse":
        for it in items(body, at, 2):
            check_tx(*it)
    elif key == "abort":
        integer(body, at, 0, 65535)
    else:
        want(key in ("check", "retire"), "no transaction", at)
        text(body, at, "[a-z]{1,16}")


def parts(tx):
    """The key of a transaction, what stands below it, and the transactions within it."""
    if isinstance(tx, str):
        return tx, None, []
    ((key, body),) = tx.items()
    return key, body, {"seq": lambda: body, "when": lambda: body[1:], "orelse": lambda: body}.get(key, list)()


def cause_of(tx, shape):
    """The least cause for which a transaction is no plan, or None."""
    found, depth = set(), 0
    level, nodes = [tx], []
    while level:
        depth, nodes = depth + 1, nodes + level
        level = [inner for it in level for inner in parts(it)[2]]
    kinds = [parts(it)[0] for it in nodes]
    for cause, broken in ((1, depth > 32), (2, len(nodes) > 512), (3, kinds.count("write") > 64), (4, kinds.count("check") > 8)):
        found |= {cause} if broken else set()
    found |= {10} if kinds.count("retire") > 8 else set()
    for key, body, _ in map(parts, nodes):
        registers = {"put": lambda: body[:1], "read": lambda: body[1:], "write": lambda: body[1:], "when": lambda: body[:1]}
        registers["step"] = lambda: [*body[1], body[2]]
        found |= {5} if any(it > 15 for it in registers.get(key, list)()) else set()
        found |= {6} if key in ("read", "write") and body[0] >= shape.vars else set()
        found |= {8} if key == "step" and len(body[1]) != 2 else set()
        found |= {9} if key in ("check", "retire") and body not in shape.invariants else set()
    return min(found, default=None)


def leading_puts(tx):
    """The Puts that a transaction begins with, in their order."""
    key, body, inner = parts(tx)
    if key == "put":
        return [tx]
    found = []
    for it in inner if key == "seq" else []:
        puts = leading_puts(it)
        found += puts
        if not is_all_puts(it):
            break
    return found


def is_all_puts(tx):
    key, _, inner = parts(tx)
    return key == "put" or (key == "seq" and all(map(is_all_puts, inner)))


def with_numbers(tx, numbers):
    """The transaction with these numbers in place of the first ones of the Puts that it begins with."""
    copy = json.loads(json.dumps(tx))
    for put, number in zip(leading_puts(copy), numbers):
        put["put"][1] = number
    return copy


class Left(Exception):
    """A transaction was left, with what it is answered."""


class Running:
    """One evaluation of a transaction on the values of the present."""

    def __init__(self, shape, values):
        self.shape, self.values = shape, values
        self.registers, self.writes, self.rules = [0] * 16, {}, {}

    def value(self, var):
        return self.writes.get(var, self.values[var])

    def run(self, tx):
        key, body, _ = parts(tx)
        getattr(self, f"run_{key}")(body)

    def run_skip(self, _body):
        pass

    def run_retry(self, _body):
        raise Left({"retry": True})

    def run_abort(self, code):
        raise Left({"aborted": code})

    def run_seq(self, body):
        for it in body:
            self.run(it)

    def run_put(self, body):
        self.registers[body[0]] = body[1]

    def run_read(self, body):
        self.registers[body[1]] = self.value(body[0])

    def run_write(self, body):
        self.writes[body[0]] = self.registers[body[1]]

    def run_step(self, body):
        name, (a, b), to = body[0], [self.registers[it] for it in body[1]], body[2]
        if name == "need" and a < b:
            raise Left({"retry": True})
        found = {"add": a + b, "sub": a - b, "need": a}[name]
        if not -BIG <= found < BIG:
            raise Left({"aborted": 65535})
        self.registers[to] = found

    def run_when(self, body):
        self.run(body[1] if self.registers[body[0]] != 0 else body[2])

    def run_orelse(self, body):
        kept = list(self.registers), dict(self.writes), dict(self.rules)
        try:
            self.run(body[0])
        except Left as left:
            if "retry" not in left.args[0]:
                raise
            self.registers, self.writes, self.rules = kept
            self.run(body[1])

    def run_check(self, name):
        it = self.shape.invariants[name]
        if not it.holds(self.value):
            raise Left({"refused": name, "because": it.seen(self.value)})
        self.rules[name] = "check"

    def run_retire(self, name):
        self.rules[name] = "retire"


# The state.


class State:
    """The present state, and what was committed since `taken` was called."""

    def __init__(self, shape, count=0, names=(), values=None):
        self.shape, self.count = shape, count
        self.names, self.values = {*names}, list(values or [0] * shape.vars)
        self.committed = []

    def commit(self, writes, rules):
        """The answer to a transaction that writes, checks and retires so, but for its registers."""
        names = {*self.names, *(it for it, rule in rules.items() if rule == "check")}
        names -= {it for it, rule in rules.items() if rule == "retire"}
        values = list(self.values)
        for var, value in writes.items():
            values[var] = value
        broken = self.shape.first_broken(names, values)
        if broken:
            return {"refused": broken.name, "because": broken.seen(values.__getitem__)}
        self.names, self.values, self.count = names, values, self.count + 1
        self.committed.append([sorted(writes.items()), sorted(rules.items())])
        return {"committed": self.count - 1}

    def attempt(self, tx):
        running = Running(self.shape, self.values)
        try:
            running.run(tx)
        except Left as left:
            return left.args[0]
        answer = {"seen": self.count}
        if running.writes or running.rules:
            answer = self.commit(running.writes, running.rules)
        if "refused" not in answer:
            last = max((k + 1 for k, it in enumerate(running.registers) if it), default=0)
            answer["registers"] = running.registers[:last]
        return answer

    def settle(self, reads, writes, check, retire):
        if any(self.values[var] != value for var, value in reads):
            return fault(7)
        answer = {"seen": self.count}
        if writes or check or retire:
            answer = self.commit(dict(writes), {**dict.fromkeys(check, "check"), **dict.fromkeys(retire, "retire")})
        return answer if "refused" in answer else {**answer, "registers": []}

    def taken(self):
        found, self.committed = self.committed, []
        return found


def fault(number, **more):
    return {"fault": number, "word": FAULTS[number], **more}


# The desk.


class Desk:
    """Answers pieces of input. What is in `state.committed` behind a piece has to be durable before its answers are printed."""

    def __init__(self, state):
        self.shape, self.state = state.shape, state
        self.rest, self.lines = b"", 0
        self.waiting, self.kept, self.answers = [], {}, []
        self.counts = dict.fromkeys(["committed", "refused", "conflicts", "flushes", "checkpoints"], 0)

    def first_line(self):
        return spelled({"opened": self.state.count, "vars": self.shape.vars, "names": self.shape.names})

    def piece(self, data):
        """Answers every whole line, and then those that wait."""
        *lines, rest = (self.rest + data).split(b"\n")
        for line in lines:
            self.line(line)
        # (of a line that is too long only the beginning is kept)
        self.rest = rest[: MOST_LINE + 1]
        self.again()

    def end(self):
        """The end of the input: the last line may lack its break, and those that wait are answered."""
        if self.rest:
            self.line(self.rest)
        self.rest = b""
        self.again()
        for id, _ in self.waiting:
            self.answer(id, fault(3))
        self.waiting = []

    def given(self):
        """The lines of the answers so far, which are given once."""
        found, self.answers = "".join(self.answers), []
        return found.encode()

    def answer(self, id, answer):
        for key, count in (("committed", "committed"), ("refused", "refused")):
            self.counts[count] += key in answer
        self.counts["conflicts"] += answer.get("fault") == 7
        self.answers.append(spelled({"id": id, **answer}))

    def line(self, line):
        self.lines += 1
        try:
            want(len(line) <= MOST_LINE, f"the line is longer than {MOST_LINE} bytes", f"line 1 column {MOST_LINE + 1}")
            id, key, ask = self.request(json_of(line))
        except NoRequest as none:
            no = {"line": self.lines, "fault": 0, "word": "norequest", "why": none.why, "at": none.at}
            return self.answers.append(spelled(no))
        answer = getattr(self, f"run_{key}")(id, ask)
        if answer is not None:
            self.answer(id, answer)

    def request(self, value):
        want(isinstance(value, dict), "an object is wanted", "")
        want("id" in value, "there is no id", "")
        id = integer(value["id"], "/id")
        others = sorted({*value} - {"id"})
        if "run" in others:
            want({*others} <= {"run", "numbers"}, "other keys", "")
            return id, "run", self.read_run(value["run"], value.get("numbers", []))
        want(len(others) == 1, "one key beside the id is wanted", "")
        key = others[0]
        want(key in ("do", "try", "get", "settle", "changed", "cancel", "keep", "ask"), "no request", f"/{key}")
        return id, key, getattr(self, f"read_{key}")(value[key], f"/{key}")

    # What a request has to be.

    def read_do(self, value, at):
        check_tx(value, at)
        self.keeps_always(value, at)
        return value

    read_try = read_do

    def keeps_always(self, tx, at):
        key, body, inner = parts(tx)
        want(key != "retire" or not self.is_always(body), "it cannot be retired", at)
        for it in inner:
            self.keeps_always(it, at)

    def is_always(self, name):
        return name in self.shape.invariants and self.shape.invariants[name].always

    def read_get(self, value, at):
        return [integer(*it, 0, self.shape.vars - 1) for it in items(value, at)]

    def pairs(self, value, at):
        found = []
        for pair, here in items(value, at):
            (var, first), (number, second) = items(pair, here, 2)
            found.append((integer(var, first, 0, self.shape.vars - 1), integer(number, second)))
        return found

    def once(self, value, at, most):
        """Pairs, of which no two have the same variable."""
        found = self.pairs(value, at)
        want(len(found) <= most, "too many", at)
        distinct([var for var, _ in found], at)
        return found

    def read_changed(self, value, at):
        return self.pairs(value, at)

    def read_settle(self, value, at):
        want(isinstance(value, dict) and {*value} <= {"reads", "writes", "check", "retire"}, "other keys", at)
        reads = self.once(value.get("reads", []), f"{at}/reads", MOST_READS)
        writes = self.once(value.get("writes", []), f"{at}/writes", MOST_WRITES)
        names = {}
        for key, most in (("check", MOST_CHECKS), ("retire", MOST_RETIRES)):
            names[key] = [text(*it, "[a-z]{1,16}") for it in items(value.get(key, []), f"{at}/{key}")]
            want(len(names[key]) <= most, "too many", f"{at}/{key}")
            want({*names[key]} <= {*self.shape.invariants}, "no invariant", f"{at}/{key}")
        distinct(names["check"] + names["retire"], at)
        want(not any(map(self.is_always, names["retire"])), "it cannot be retired", f"{at}/retire")
        return reads, writes, names["check"], names["retire"]

    def read_cancel(self, value, at):
        return integer(value, at)

    def read_keep(self, value, at):
        (word, here), (tx, there) = items(value, at, 2)
        return text(word, here, "[a-z]{1,16}"), self.read_do(tx, there)

    def read_run(self, word, numbers):
        text(word, "/run", "[a-z]{1,16}")
        found = [integer(*it) for it in items(numbers, "/numbers")]
        if word not in self.kept or len(found) > len(leading_puts(self.kept[word])):
            return None
        return with_numbers(self.kept[word], found)

    def read_ask(self, value, at):
        want(value in ("look", "state", "checkpoint", "stats"), "no question", at)
        return value

    # What a request is answered: None where it waits.

    def plan_refusal(self, tx):
        cause = cause_of(tx, self.shape)
        return cause and fault(12, cause=cause, why=CAUSES[cause - 1])

    def attempt_or_wait(self, id, attempt):
        answer = attempt()
        if answer is None and len(self.waiting) == MOST_WAITING:
            return fault(5)
        if answer is None:
            self.waiting.append((id, attempt))
        return answer

    def run_do(self, id, tx):
        def attempt():
            answer = self.state.attempt(tx)
            return None if "retry" in answer else answer

        return self.plan_refusal(tx) or self.attempt_or_wait(id, attempt)

    def run_run(self, id, tx):
        return {"found": False} if tx is None else self.run_do(id, tx)

    def run_try(self, _id, tx):
        return self.plan_refusal(tx) or self.state.attempt(tx)

    def run_get(self, _id, numbers):
        return {"count": self.state.count, "values": [[var, self.state.values[var]] for var in numbers]}

    def run_changed(self, id, reads):
        def attempt():
            if all(self.state.values[var] == value for var, value in reads):
                return None
            return self.run_get(id, [var for var, _ in reads])

        return self.attempt_or_wait(id, attempt)

    def run_settle(self, _id, parts_of_it):
        return self.state.settle(*parts_of_it)

    def run_cancel(self, _id, other):
        found = next((it for it in self.waiting if it[0] == other), None)
        if found:
            self.waiting.remove(found)
            self.answer(other, {"cancelled": True})
        return {"found": bool(found)}

    def run_keep(self, _id, ask):
        word, tx = ask
        refusal = self.plan_refusal(tx)
        if refusal:
            return refusal
        if word not in self.kept and len(self.kept) == MOST_KEPT:
            return fault(5)
        self.kept[word] = tx
        return {"kept": word}

    def run_ask(self, _id, what):
        if what == "look":
            return {"durable": self.state.count}
        if what == "state":
            return {"count": self.state.count, "names": [it for it in self.shape.invariants if it in self.state.names], "values": self.state.values}
        if what == "checkpoint":
            self.counts["checkpoints"] += 1
            return {"checkpointed": True}
        return {"stats": {**self.counts, "waiting": len(self.waiting), "kept": len(self.kept), "free_slots": self.shape.slots}}

    def again(self):
        """Attempts those that wait, in the order in which they came, until none of them changes anything."""
        before = None
        while before != self.state.count:
            before, waiting, self.waiting = self.state.count, self.waiting, []
            for id, attempt in waiting:
                answer = attempt()
                if answer is None:
                    self.waiting.append((id, attempt))
                else:
                    self.answer(id, answer)


def spelled(answer):
    return json.dumps(answer, separators=(",", ":")) + "\n"
