"""Transactions as plain functions, with `retry` and `or_else` as Harris et al. (2005) have them.

A transaction is a function whose first argument, by custom `t`, is the store as the transaction sees it: `t[name]` reads a
variable, `t[name] = value` writes it. What it writes stays in a buffer. At its end the store compares what it read with the
present values, and takes the writes if they are the same; else the function runs again. So it may run more than once, and
should do nothing but compute.

A function never sees two moments. All that it has read is what the variables had at one moment: a variable that it reads for
the first time is asked for together with all those that it read before, and if one of these has changed the function begins
anew, with the values of the later moment.
"""

from __future__ import annotations

import functools
from dataclasses import dataclass
from typing import Any, Callable, Dict, Generator, Iterable, List, Mapping, NamedTuple, NoReturn, Optional, Sequence, Tuple, Union

from .errors import Aborted, Stuck, raise_for

Variable = Union[str, int]
Body = Callable[..., Any]
Ask = Dict[str, Any]
Answer = Mapping[str, Any]
Effects = Tuple[Dict[int, int], Dict[str, str]]

LEAST, MOST = -(2**63), 2**63 - 1
MOST_READS, MOST_WRITES, MOST_CHECKS, MOST_RETIRES = 500, 64, 8, 8
# The fault of an attempt that read a value which is no longer the present one.
CONFLICT = 7


class Moment(NamedTuple):
    """What some variables had when so many transactions had committed. The count is None where nothing was asked for yet."""

    count: Optional[int]
    values: Dict[int, int]


Fetch = Callable[[List[int]], Moment]
UNKNOWN = Moment(None, {})


@dataclass(frozen=True)
class Outcome:
    """What became of a transaction.

    If it `committed`, its number is `number`: no other one has it, and each later one has a greater one. If not, it changed nothing, and
    `number` is how many had committed before. `result` is what a function returned; of a transaction that the store ran by itself
    `registers` are its registers, without the zeros at their end."""

    committed: bool
    number: int
    registers: Sequence[int] = ()
    result: Any = None


class Left(BaseException):
    """The function is left. (It derives from BaseException, so that an `except Exception` of the function lets it pass.)"""


class Retried(Left):
    """Nothing can be done with the values that were read."""


class Outdated(Left):
    """A value that was read has changed, or has to be fetched first: the function begins anew."""


class Names:
    """The variables of a store: their number, and the names of some."""

    def __init__(self, count: int, names: Mapping[str, int]) -> None:
        self.count, self._numbers = count, dict(names)
        self._names = {number: name for name, number in self._numbers.items()}

    def number(self, variable: Variable) -> int:
        """The number of a variable, which is given by its name or by its number."""
        if isinstance(variable, str):
            if variable not in self._numbers:
                raise KeyError(f"the store has no variable {variable}")
            return self._numbers[variable]
        if isinstance(variable, bool) or not isinstance(variable, int):
            raise TypeError(f"a variable is named by a str or an int, not by {variable!r}")
        if not 0 <= variable < self.count:
            raise KeyError(f"the store has the variables 0 to {self.count - 1}, and not {variable}")
        return variable

    def name(self, number: int) -> Variable:
        """The name of a variable, or its number where it has none."""
        return self._names.get(number, number)

    def all(self) -> list[str]:
        return sorted(self._numbers)


def integer(value: Any) -> int:
    """The value, which has to be a signed integer of 64 bits."""
    if isinstance(value, bool) or not isinstance(value, int):
        raise TypeError(f"a value is an int, not {value!r}")
    if not LEAST <= value <= MOST:
        raise OverflowError(f"{value} is no signed integer of 64 bits")
    return value


class Transaction:
    """The store as one run of a function sees it."""

    def __init__(self, names: Names, moment: Moment, hints: Iterable[int], fetch: Fetch | None) -> None:
        # `_known` has values of one moment; `_reads` are those of them that the function has seen.
        self._names, self._hints, self._fetch = names, hints, fetch
        self._count, self._known = moment
        self._reads: dict[int, int] = {}
        self._writes: dict[int, int] = {}
        self._rules: dict[str, str] = {}
        self._wanted: list[int] = []
        self._left: BaseException | None = None

    # (without these Python would take it for a sequence, and read one variable after another)
    __iter__ = __contains__ = None

    def __getitem__(self, variable: Variable) -> int:
        return self._values([variable])[0]

    def get(self, *variables: Variable) -> tuple[int, ...]:
        """The values of several variables, in one exchange with the store where they are not there yet."""
        return tuple(self._values(variables))

    def _values(self, variables: Sequence[Variable]) -> list[int]:
        self._is_running()
        numbers = [self._names.number(it) for it in variables]
        read = [it for it in numbers if it not in self._writes]
        if len({*self._reads, *read}) > MOST_READS:
            raise ValueError(f"a transaction reads at most {MOST_READS} variables")
        if not all(it in self._known for it in read):
            self._read_together_with(read)
        self._reads.update((it, self._known[it]) for it in read)
        return [self._writes[it] if it in self._writes else self._known[it] for it in numbers]

    def __setitem__(self, variable: Variable, value: int) -> None:
        self._is_running()
        number, value = self._names.number(variable), integer(value)
        if number not in self._writes and len(self._writes) == MOST_WRITES:
            raise ValueError(f"a transaction writes at most {MOST_WRITES} variables")
        self._writes[number] = value

    def retry(self) -> NoReturn:
        """Nothing can be done with the values that were read: runs the function again once one of them has changed."""
        self._is_running()
        self._leave(Retried())

    def abort(self, code: int) -> NoReturn:
        """Gives up for good: the transaction has no effect, and whoever runs it gets `Aborted`."""
        self._is_running()
        raise Aborted(code)

    def check(self, invariant: str) -> None:
        """Registers an invariant of the store's shape. It is tested at the end of this transaction and of all later ones."""
        self._rule(invariant, "check")

    def retire(self, invariant: str) -> None:
        """Takes an invariant off: from the end of this transaction on it is not tested. The last of check and retire counts."""
        self._rule(invariant, "retire")

    def _rule(self, invariant: str, what: str) -> None:
        self._is_running()
        others = [it for it in self._named(what) if it != invariant]
        if len(others) == (MOST_CHECKS if what == "check" else MOST_RETIRES):
            raise ValueError(f"a transaction has at most {MOST_CHECKS} of check and {MOST_RETIRES} of retire")
        self._rules[invariant] = what

    def _named(self, what: str) -> list[str]:
        return [invariant for invariant, it in self._rules.items() if it == what]

    def _is_running(self) -> None:
        if self._left is not None:
            # (also where the function has caught that it was left)
            raise self._left

    def _leave(self, left: Left) -> NoReturn:
        self._left = left
        raise left

    def _read_together_with(self, numbers: list[int]) -> None:
        """Fetches variables, with all that were read before, and those that this function read the last time."""
        wanted = list(dict.fromkeys([*self._reads, *numbers, *self._hints]))
        if self._fetch is None:
            self._wanted = wanted
            self._leave(Outdated())
        self._count, self._known = self._fetch(wanted)
        if any(self._known[read] != value for read, value in self._reads.items()):
            self._leave(Outdated())

    def _effects(self) -> Effects:
        return dict(self._writes), dict(self._rules)

    def _undo(self, effects: Effects) -> None:
        """Goes back to these effects. What was read stays."""
        self._writes, self._rules = effects
        self._left = None

    def _settle(self) -> Ask:
        """What the store is asked to compare and to write."""
        parts = {
            "reads": sorted(self._reads.items()),
            "writes": sorted(self._writes.items()),
            "check": self._named("check"),
            "retire": self._named("retire"),
        }
        return {"settle": {key: part for key, part in parts.items() if part}}


def transaction(body: Body) -> Body:
    """Marks a function as a transaction: `store.run(f, ..)` runs it, and another transaction may call it as `f(t, ..)`."""

    @functools.wraps(body)
    def checked(t: Transaction, *args: Any, **kwargs: Any) -> Any:
        if not isinstance(t, Transaction):
            raise TypeError(f"{body.__name__} is a transaction: run it by store.run({body.__name__}, ..)")
        return body(t, *args, **kwargs)

    checked.key = key_of(body)  # type: ignore[attr-defined]
    return checked


def or_else(first: Body, *others: Body) -> Body:
    """A transaction that runs the first function; if that retries, the next in its place; and so on.

    The writes of one that retried are undone, and so is what it registered. What it read still counts: a value that made it
    retry is compared when the transaction commits, and wakes it where all retry. All get the same arguments."""

    def choose(t: Transaction, *args: Any, **kwargs: Any) -> Any:
        *early, last = (first, *others)
        t._is_running()
        for branch in early:
            effects = t._effects()
            try:
                result = branch(t, *args, **kwargs)
                t._is_running()
                return result
            except (Retried, Exception):
                # (one that has retried may meet another error on its way out, and the retry may be that of another transaction)
                if not isinstance(t._left, Retried):
                    raise
                t._undo(effects)
        return last(t, *args, **kwargs)

    choose.key = tuple(key_of(it) for it in (first, *others))  # type: ignore[attr-defined]
    return choose


def key_of(body: Body) -> Any:
    """By what a function is known again, where each call makes a function of its own: a choice by its branches, others by their code."""
    return getattr(body, "key", None) or getattr(body, "__code__", body)


def expect(key: str, answer: Answer, names: Names) -> Answer:
    """The answer, which has this key unless it is no success."""
    if key not in answer:
        raise_for(answer, names.name)
    return answer


def moment_of(answer: Answer, names: Names) -> Moment:
    """The values in an answer to `get` or `changed`."""
    return Moment(expect("values", answer, names)["count"], dict(answer["values"]))


def steps(
    body: Callable[[Transaction], Any], names: Names, hints: list[int], fetch: Fetch | None, is_numbered: bool
) -> Generator[Ask, Answer, Outcome]:
    """Runs a function until it commits, and returns its outcome. It yields what it asks of the store, and is sent the answers. (The
    outcome of a function that neither reads nor writes lacks its number, which would have to be asked for, unless `is_numbered`.)

    Each request that it yields is a `get`, a `changed` (which waits) or a `settle`. Where there is no `fetch`, which has to answer
    at once, a function that needs a variable is left, and runs again once the variable is there. What was read the last time is
    put into `hints`: the next run of the function asks for all of it at once."""
    moment = UNKNOWN
    while True:
        t = Transaction(names, moment, hints, fetch)
        left: BaseException | None = None
        try:
            result = body(t)
        except (Left, Exception):
            # (a function that is to be left may meet another error on its way out, and what it raises may be to leave another one)
            if t._left is None:
                raise
        finally:
            left, t._left = t._left, RuntimeError("this transaction has ended")
        if isinstance(left, Outdated):
            moment = moment_of((yield {"get": t._wanted}), names) if t._wanted else Moment(t._count, t._known)
            continue
        hints[:] = t._reads
        if isinstance(left, Retried):
            if not t._reads:
                raise Stuck("a transaction retried before it had read a variable")
            moment = moment_of((yield {"changed": sorted(t._reads.items())}), names)
            continue
        if not t._writes and not t._rules:
            # All that it read was there at one moment of its run, and durable: it took place then.
            count: Any = t._count
            if count is None and is_numbered:
                count = expect("seen", (yield t._settle()), names)["seen"]
            return Outcome(False, count, result=result)
        answer = yield t._settle()
        if "committed" in answer:
            return Outcome(True, answer["committed"], result=result)
        if answer.get("fault") != CONFLICT:
            raise_for(answer, names.name)
        moment = UNKNOWN
