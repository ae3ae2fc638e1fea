"""A shell over a store: `python3 -m tmem STORE`. Variables go by their names."""

from __future__ import annotations

import argparse
import os
import re
import signal
import sys
from typing import Any, Callable, Iterable

from .errors import Closed, TmemError
from .store import Store, open
from .transaction import Transaction, Variable

HELP = """\
get VARIABLE ..              the values, at one moment
set VARIABLE VALUE ..        writes variables, as one transaction
add VARIABLE NUMBER ..       adds to variables, as one transaction (a NUMBER may be negative)
check INVARIANT ..           registers invariants of the store's shape
retire INVARIANT ..          takes them off
wait VARIABLE                waits until the variable has another value
.state                       how many transactions, the registered invariants, and all values that are not 0
.names                       the variables that have names
.stats                       what was counted since the store is served
.checkpoint                  writes the state as a new image, and frees the log
.help                        this
.quit, quit, exit            ends (as the end of the input does)
A VARIABLE is a name or a number, from 0. Each line is answered once it is durable."""

ENDS = [".quit"], ["quit"], ["exit"]

# What a shell says of a program that SIGPIPE has ended, since nobody reads its output any more.
UNREAD = 128 + signal.SIGPIPE


class Misused(Exception):
    """A line of the shell that is none."""


class Shell:
    """Runs lines on a store. What a line prints is what `line` answers."""

    def __init__(self, store: Store) -> None:
        self.store = store
        # Whether each line so far did what it says.
        self.went_well = True
        self.words: dict[str, Callable[[list[str]], str]] = {
            "get": self.get,
            "set": self.set,
            "add": self.add,
            "check": self.check,
            "retire": self.retire,
            "wait": self.wait,
            ".state": self.state,
            ".names": lambda _: "\n".join(f"{name} {self.store.number(name)}" for name in self.store.names),
            ".stats": lambda _: "\n".join(f"{name} {count}" for name, count in self.store.stats().items()),
            ".checkpoint": lambda _: self.store.checkpoint() or "checkpointed",
            ".help": lambda _: HELP,
        }

    def line(self, line: str) -> str:
        """What a line prints, without the last line break."""
        word, *others = line.split()
        try:
            if word not in self.words:
                raise Misused(f"no word {word}: .help lists them")
            return self.words[word](others)
        except Closed:
            raise
        except (Misused, TmemError, KeyError, TypeError, ValueError, OverflowError) as error:
            self.went_well = False
            why = str(error.args[0] if isinstance(error, KeyError) else error)
            return f"{type(error).__name__.lower()}: {why}" if isinstance(error, TmemError) else why

    def get(self, words: list[str]) -> str:
        if not words:
            raise Misused("get VARIABLE ..")
        variables = [variable(it) for it in words]
        found = self.store.get(*variables)
        return listed(zip(words, [found] if len(words) == 1 else found))

    def set(self, words: list[str]) -> str:
        given = self.pairs(words, "set VARIABLE VALUE ..")

        def body(t: Transaction) -> str:
            for name, value in given:
                t[name] = value
            return listed(given)

        return self.store.run(body)

    def add(self, words: list[str]) -> str:
        given = self.pairs(words, "add VARIABLE NUMBER ..")

        def body(t: Transaction) -> str:
            for name, number in given:
                t[name] += number
            return listed((name, t[name]) for name, _ in given)

        return self.store.run(body)

    def pairs(self, words: list[str], usage: str) -> list[tuple[Variable, int]]:
        """Variables, each with a number. None may be named twice: of two values one would never stand in the store."""
        if not words or len(words) % 2:
            raise Misused(usage)
        found = [(variable(name), number(value)) for name, value in zip(words[::2], words[1::2])]
        before: dict[int, Variable] = {}
        for name, _ in found:
            its = self.store.number(name)
            if its in before:
                raise Misused(f"{name} is named twice" if before[its] == name else f"{before[its]} and {name} are the same variable")
            before[its] = name
        return found

    def check(self, words: list[str]) -> str:
        return self.rule(words, "check")

    def retire(self, words: list[str]) -> str:
        return self.rule(words, "retire")

    def rule(self, words: list[str], what: str) -> str:
        if not words:
            raise Misused(f"{what} INVARIANT ..")

        def body(t: Transaction) -> None:
            for name in words:
                getattr(t, what)(name)

        self.store.run(body)
        return f"registered: {', '.join(self.store.state().names) or 'none'}"

    def wait(self, words: list[str]) -> str:
        if len(words) != 1:
            raise Misused("wait VARIABLE")
        name = variable(words[0])
        before = self.store.get(name)

        def body(t: Transaction) -> str:
            if t[name] == before:
                t.retry()
            return listed([(name, t[name])])

        return self.store.run(body)

    def state(self, _words: list[str]) -> str:
        state, names = self.store.state(), {self.store.number(name): name for name in self.store.names}
        values = [(names.get(number, number), value) for number, value in enumerate(state.values) if value or number in names]
        return "\n".join([f"{state.count} transactions, registered: {', '.join(state.names) or 'none'}", *map("%s = %d".__mod__, values)])


def variable(word: str) -> Variable:
    return int(word) if word.isdecimal() else word


def number(word: str) -> int:
    if not re.fullmatch("[+-]?[0-9]{1,20}", word):
        raise Misused(f"{word} is no number")
    return int(word)


def listed(values: Iterable[tuple[object, int]]) -> str:
    return "\n".join(f"{name} = {value}" for name, value in values)


def prepare(shell: Shell) -> None:
    """History and completion, where the input is a terminal."""
    try:
        import atexit
        import readline
    except ImportError:
        return
    history = os.environ.get("TMEM_HISTORY", os.path.expanduser("~/.tmem_history"))
    words = sorted([*shell.words, ".quit", *shell.store.names])

    def complete(begun: str, nth: int) -> str | None:
        return next(iter([f"{it} " for it in words if it.startswith(begun)][nth : nth + 1]), None)

    readline.set_completer(complete)
    readline.set_completer_delims(" ")
    readline.parse_and_bind("tab: complete")
    try:
        readline.read_history_file(history)
    except OSError:
        pass
    atexit.register(keep, readline, history)


def keep(readline: Any, history: str) -> None:
    try:
        readline.write_history_file(history)
    except OSError:
        pass


def lines(is_terminal: bool) -> Iterable[str]:
    while True:
        try:
            yield input("tmem> " if is_terminal else "")
        except EOFError:
            print(end="\n" if is_terminal else "")
            return
        except KeyboardInterrupt:
            print()


def main() -> int:
    """The status is 0 if the store could be used to the end and, where no terminal is the input, each line did what it says."""
    parser = argparse.ArgumentParser(prog="python3 -m tmem", description="A shell over a store.", epilog="In the shell, .help lists the words.")
    parser.add_argument("store", help="the store's file, or unix:PATH of a hub")
    parser.add_argument("--shape", help="the file with the store's shape (STORE.json)")
    parser.add_argument("--program", help="the program tmem (the variable TMEM, or tmem on the path)")
    given = parser.parse_args()
    is_terminal = sys.stdin.isatty()
    try:
        with open(given.store, program=given.program, shape=given.shape) as store:
            shell = Shell(store)
            if is_terminal:
                prepare(shell)
            for line in filter(str.split, lines(is_terminal)):
                if line.split() in ENDS:
                    break
                try:
                    print(shell.line(line), flush=True)
                except KeyboardInterrupt:
                    print("interrupted")
            sys.stdout.flush()
    except BrokenPipeError:
        # (and Python would say so once more at its end)
        os.dup2(os.open(os.devnull, os.O_WRONLY), sys.stdout.fileno())
        return UNREAD
    except TmemError as error:
        print(error, file=sys.stderr)
        return 1
    return 0 if is_terminal or shell.went_well else 1
