"""A store, as a program uses it."""

from __future__ import annotations

import asyncio
import inspect
import os
import random
import threading
import time
from concurrent.futures import Future
from concurrent.futures import TimeoutError as NotYet
from dataclasses import dataclass
from typing import Any, Callable, Generator, Mapping, Sequence

from .errors import Closed, Timeout
from .link import Link, Process, Program, Socket, command
from .transaction import CONFLICT, Answer, Ask, Body, Moment, Names, Outcome, Transaction, Variable, expect, integer, key_of, moment_of, steps

MOST_HINTS = 256
# How many conflicts make the pause before the next run longer, and for how many seconds it is at most.
MOST_LOST, MOST_PAUSE = 8, 1.0


@dataclass(frozen=True)
class State:
    """A state of the store: after how many transactions, which invariants are registered, and all values."""

    count: int
    names: Sequence[str]
    values: Sequence[int]


class Store:
    """An open store. Threads share it, and so do the tasks of an event loop.

    Every answer is given once all that it tells is durable, so what a call has returned no crash takes back. `with` closes the
    store at its end.
    """

    def __init__(self, link: Link) -> None:
        self._link = link
        first = link.opened()
        self.opened: int = first["opened"]
        self._names = Names(first["vars"], first["names"])
        self._hints: dict[Any, list[int]] = {}
        # Of each thread: whether a function runs in it as a transaction of this store.
        self._thread = threading.local()

    def __enter__(self) -> Store:
        return self

    def __exit__(self, *_: object) -> None:
        self.close()

    def close(self) -> None:
        """Closes the store. What waits in other threads gets `Closed`."""
        self._link.close()

    @property
    def names(self) -> list[str]:
        """The names of variables, in alphabetical order."""
        return self._names.all()

    def number(self, variable: Variable) -> int:
        """The number of a variable, as transactions that the store runs have it."""
        return self._names.number(variable)

    # Transactions that are functions.

    def run(self, body: Body, *args: Any, timeout: float | None = None, **kwargs: Any) -> Any:
        """Runs `body(t, *args, **kwargs)` as a transaction, and returns what it returns once that is durable.

        Where it retries, waits until a variable that it read has changed, and runs it again; after a conflict runs it again behind
        a short random pause. `timeout` says for how many seconds: then it gets `Timeout`. (An attempt that has begun is always brought
        to its end, so after `Timeout` it is certain that nothing was changed.) An exception of the function leaves without effects.
        """
        return self._played(self._steps(body, args, kwargs, self._fetch), timeout).result

    def run_numbered(self, body: Body, *args: Any, timeout: float | None = None, **kwargs: Any) -> Outcome:
        """As `run`, but returns what became of the transaction: what the function returned is its `result`, and its `number` is a
        fencing token where it has `committed`."""
        return self._played(self._steps(body, args, kwargs, self._fetch, is_numbered=True), timeout)

    async def run_async(self, body: Body, *args: Any, timeout: float | None = None, **kwargs: Any) -> Any:
        """As `run`, in an event loop, which goes on meanwhile. `body` is a plain function here too.

        It is left and run again where it needs a variable that is not there yet, so it runs once more for each that it did not
        read the last time. A task that is cancelled while it waits for a change has changed nothing; one that is cancelled while
        it commits may have."""
        return (await self._played_async(self._steps(body, args, kwargs), timeout)).result

    async def run_numbered_async(self, body: Body, *args: Any, timeout: float | None = None, **kwargs: Any) -> Outcome:
        """As `run_async`, but returns what `run_numbered` does."""
        return await self._played_async(self._steps(body, args, kwargs, is_numbered=True), timeout)

    def get(self, *variables: Variable) -> Any:
        """The value of a variable, or the values of several at one moment, all of it durable."""
        self._is_free()
        numbers = [self._names.number(it) for it in variables]
        return _values_of(self._fetch(numbers), numbers)

    async def get_async(self, *variables: Variable) -> Any:
        """As `get`, in an event loop."""
        self._is_free()
        numbers = [self._names.number(it) for it in variables]
        return _values_of(moment_of(await self._ask_async({"get": numbers}), self._names), numbers)

    # Transactions that the store runs by itself, as data (docs/USE.md has their forms).

    def do(self, tx: Any, *, timeout: float | None = None) -> Outcome:
        """Has the store run a transaction. Where it retries, waits until it does not, or until the time is over (`Timeout`)."""
        return self._outcome(self._await({"do": tx}, timeout))

    async def do_async(self, tx: Any, *, timeout: float | None = None) -> Outcome:
        """As `do`, in an event loop. A task that is cancelled takes the transaction back, unless it is done."""
        return self._outcome(await self._await_async({"do": tx}, timeout))

    def try_once(self, tx: Any) -> Outcome | None:
        """Has the store run a transaction once: None where it retries."""
        self._is_free()
        answer = self._ask({"try": tx})
        return None if "retry" in answer else self._outcome(answer)

    def keep(self, word: str, tx: Any) -> None:
        """Has the store keep a transaction under a word, of 1 to 16 letters a to z. It is kept as long as the store is served."""
        expect("kept", self._ask({"keep": [word, tx]}), self._names)

    def call(self, word: str, *numbers: int, timeout: float | None = None) -> Outcome:
        """Has the store run a kept transaction, as `do`. The numbers replace those of the Puts that it begins with. `NoRequest` says
        that nothing is kept under the word that begins with so many."""
        return self._outcome(self._await(calling(word, *numbers), timeout))

    async def call_async(self, word: str, *numbers: int, timeout: float | None = None) -> Outcome:
        """As `call`, in an event loop."""
        return self._outcome(await self._await_async(calling(word, *numbers), timeout))

    def submit(self, ask: Ask) -> Future[Answer]:
        """Sends a request as it is, without its id, and returns its answer to come, a dictionary as docs/SERVE.md has it. (One that is
        no request gives `NoRequest` there.) Many may be on their way: they share flushes."""
        return self._link.send(ask)[1]

    # A look at the whole.

    def state(self) -> State:
        """The whole state, at one moment."""
        self._is_free()
        answer = expect("values", self._ask({"ask": "state"}), self._names)
        return State(answer["count"], answer["names"], answer["values"])

    def durable(self) -> int:
        """How many transactions are durable."""
        return expect("durable", self._ask({"ask": "look"}), self._names)["durable"]

    def checkpoint(self) -> None:
        """Writes the state as a new image, and frees the log."""
        expect("checkpointed", self._ask({"ask": "checkpoint"}), self._names)

    def stats(self) -> Mapping[str, int]:
        """What was counted since the store is served."""
        return expect("stats", self._ask({"ask": "stats"}), self._names)["stats"]

    # How requests are sent and awaited.

    def _steps(self, body: Body, args: Any, kwargs: Any, fetch: Any = None, is_numbered: bool = False) -> Generator[Ask, Answer, Outcome]:
        return steps(self._applied(body, args, kwargs), self._names, self._hints_of(body), fetch, is_numbered)

    def _played(self, running: Generator[Ask, Answer, Outcome], timeout: float | None) -> Outcome:
        self._is_free()
        until = None if timeout is None else time.monotonic() + timeout
        answer: Any = None
        lost = 0
        try:
            while True:
                ask, begun = running.send(answer), time.monotonic()
                answer = self._wait_for(ask, until) if "changed" in ask else self._ask(ask)
                if answer.get("fault") == CONFLICT:
                    lost += 1
                    time.sleep(_pause(lost, begun, until))
        except StopIteration as end:
            return end.value

    async def _played_async(self, running: Generator[Ask, Answer, Outcome], timeout: float | None) -> Outcome:
        self._is_free()
        until = None if timeout is None else time.monotonic() + timeout
        answer: Any = None
        lost = 0
        try:
            while True:
                ask, begun = running.send(answer), time.monotonic()
                answer = await (self._wait_for_async(ask, until) if "changed" in ask else self._ask_async(ask))
                if answer.get("fault") == CONFLICT:
                    lost += 1
                    await asyncio.sleep(_pause(lost, begun, until))
        except StopIteration as end:
            return end.value

    def _applied(self, body: Body, args: Sequence[Any], kwargs: Mapping[str, Any]) -> Callable[[Transaction], Any]:
        def applied(t: Transaction) -> Any:
            self._thread.runs = True
            try:
                result = body(t, *args, **kwargs)
            finally:
                self._thread.runs = False
            if inspect.iscoroutine(result) or inspect.isgenerator(result) or inspect.isasyncgen(result):
                # (nothing of it has run)
                if not inspect.isasyncgen(result):
                    result.close()
                raise TypeError("a transaction is a plain function: it awaits and yields nothing")
            return result

        return applied

    def _is_free(self) -> None:
        """A call within a function that runs as a transaction would be no part of it."""
        if getattr(self._thread, "runs", False):
            raise RuntimeError("a transaction is running here: call the function with t")

    def _hints_of(self, body: Body) -> list[int]:
        """The variables that a function read the last time."""
        if len(self._hints) > MOST_HINTS:
            self._hints.clear()
        try:
            return self._hints.setdefault(key_of(body), [])
        except TypeError:
            # (it cannot be a key)
            return []

    def _fetch(self, numbers: list[int]) -> Moment:
        return moment_of(self._ask({"get": numbers}), self._names)

    def _outcome(self, answer: Answer) -> Outcome:
        if "committed" in answer:
            return Outcome(True, answer["committed"], answer["registers"])
        return Outcome(False, expect("seen", answer, self._names)["seen"], answer["registers"])

    def _ask(self, ask: Ask) -> Answer:
        return self._link.send(ask)[1].result()

    async def _ask_async(self, ask: Ask) -> Answer:
        return await asyncio.wrap_future(self._link.send(ask)[1])

    def _await(self, ask: Ask, timeout: float | None) -> Answer:
        """The answer to a transaction that the store may have to hold back; after the time it is taken back, unless it is done."""
        self._is_free()
        number, answer = self._link.send(ask)
        try:
            return answer.result(timeout)
        except NotYet:
            pass
        finally:
            # (also where this thread is interrupted)
            self._forget(number, answer)
        return _in_time(answer.result())

    async def _await_async(self, ask: Ask, timeout: float | None) -> Answer:
        self._is_free()
        number, answer = self._link.send(ask)
        try:
            return await asyncio.wait_for(asyncio.wrap_future(answer), timeout)
        except asyncio.TimeoutError:
            pass
        finally:
            # (also where this task is cancelled)
            self._forget(number, answer)
        return _in_time(await asyncio.wrap_future(answer))

    def _wait_for(self, ask: Ask, until: float | None) -> Answer:
        number, answer = self._link.send(ask)
        try:
            return answer.result(_left(until))
        except NotYet:
            raise Timeout("no variable that was read has changed in time") from None
        finally:
            self._forget(number, answer)

    async def _wait_for_async(self, ask: Ask, until: float | None) -> Answer:
        number, answer = self._link.send(ask)
        try:
            return await asyncio.wait_for(asyncio.wrap_future(answer), _left(until))
        except asyncio.TimeoutError:
            raise Timeout("no variable that was read has changed in time") from None
        finally:
            self._forget(number, answer)

    def _forget(self, number: int, answer: Future[Answer]) -> None:
        """Takes back a request that still waits."""
        if not answer.done():
            try:
                self._link.send({"cancel": number})
            except Closed:
                pass


def _values_of(moment: Moment, numbers: Sequence[int]) -> Any:
    """The value of one variable, or those of several."""
    return moment.values[numbers[0]] if len(numbers) == 1 else tuple(moment.values[number] for number in numbers)


def _in_time(answer: Answer) -> Answer:
    if "cancelled" in answer:
        raise Timeout("the transaction retried until its time was over")
    return answer


def _left(until: float | None) -> float | None:
    return None if until is None else max(0.0, until - time.monotonic())


def _pause(lost: int, begun: float, until: float | None) -> float:
    """How long a transaction waits that has met so many conflicts, the last by a request that began then. It is random, and longer
    after more of them: those that began again at once would do so in one order, of which the first would win each time."""
    now = time.monotonic()
    if until is not None and now >= until:
        raise Timeout("the transaction met conflicts until its time was over")
    pause = random.random() * min(MOST_PAUSE, min(lost, MOST_LOST) * (now - begun))
    return pause if until is None else min(pause, until - now)


def calling(word: str, *numbers: int) -> Ask:
    """The request to run a kept transaction, for `submit`."""
    return {"run": word, "numbers": [integer(it) for it in numbers]} if numbers else {"run": word}


def open(path: str | os.PathLike[str], *, program: Program | None = None, shape: str | os.PathLike[str] | None = None) -> Store:
    """Opens a store: starts `tmem serve` for the file at `path`, or connects to a hub where it is `unix:PATH`. `NotOpened` says why not.

    The program is the one given (a path, or words), else that in the variable `TMEM`, else `tmem` on the path. `shape` is the
    file with the store's shape, where it is not PATH.json."""
    path = os.fspath(path)
    if path.startswith("unix:"):
        return Store(Link(Socket(path[len("unix:") :])))
    shaped = [] if shape is None else ["--shape", os.fspath(shape)]
    return Store(Link(Process([*command(program), "serve", path, "--explain", *shaped], path)))
