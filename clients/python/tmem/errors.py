"""What a store can answer in place of a result."""

from __future__ import annotations

from typing import Any, Mapping, NoReturn


class TmemError(Exception):
    """The base of all errors of this package. They can be copied and pickled, so that another process can raise them."""

    def __reduce__(self) -> tuple[Any, ...]:
        # (not by its constructor, which takes other arguments than those that it hands up)
        return again, (type(self), self.args, self.__dict__)


def again(kind: type[TmemError], args: tuple[Any, ...], members: dict[str, Any]) -> TmemError:
    """An error of this kind, as another one was."""
    it = kind.__new__(kind)
    it.args = args
    it.__dict__.update(members)
    return it


class Refused(TmemError):
    """The transaction would have left an invariant false, so it had no effect.

    `name` is the invariant, and `because` has the values that its test saw, by variable.
    """

    def __init__(self, name: str, because: Mapping[str | int, int]) -> None:
        self.name, self.because = name, dict(because)
        seen = ", ".join(f"{variable} = {value}" for variable, value in self.because.items())
        super().__init__(f"{name} would not hold" + (f": {seen}" if seen else ""))


class Aborted(TmemError):
    """The transaction gave up for good, with a code. It had no effect."""

    def __init__(self, code: int) -> None:
        self.code = code
        super().__init__(f"code {code}")


class Fault(TmemError):
    """The store answered a fault: its number and its word, as docs/USE.md lists them.

    Fault 12 (`badplan`) has a cause too, and says in words what it is. Where serving ends by a
    fault, such as 1 (`memory`), 2 (`device`) or 4 (`unknown`), the transaction may or may not be
    in the store.
    """

    def __init__(self, number: int, word: str, cause: int | None = None, why: str | None = None) -> None:
        self.number, self.word, self.cause, self.why = number, word, cause, why
        more = f" {cause}" if cause is not None else ""
        super().__init__(f"fault {number} {word}{more}" + (f": {why}" if why else ""))


class NoRequest(TmemError):
    """The line that was sent is no request: what was wrong, and where."""

    def __init__(self, why: str, at: str) -> None:
        self.why, self.at = why, at
        super().__init__(f"{why} at {at}" if at else why)


class Closed(TmemError):
    """The store is closed, or what serves it has ended.

    A transaction that was being committed may or may not be in the store. Nothing that was
    answered before is lost.
    """


class NotOpened(Closed):
    """The store was not opened: it is missing, in use or damaged, or it was made of another shape.

    `path` is what was to be opened, and `line` says why: it is what `tmem serve` said on its error
    stream, in one line or more. `status` is the one that it ended with, or None where a hub was to be
    reached.
    """

    def __init__(self, path: str, line: str, status: int | None = None, note: str = "") -> None:
        self.path, self.line, self.status = path, line, status
        super().__init__(f"cannot open {path}{note}: {line}")


class Exists(TmemError, FileExistsError):
    """A store was to be made at a `path` that something has already. Nothing was changed."""

    def __init__(self, path: str, line: str) -> None:
        self.path = path
        super().__init__(line)


class NoProgram(TmemError):
    """The program cannot be started, or is no `tmem`: where it was looked for (`path`), and the cause (`why`)."""

    def __init__(self, path: str, why: str) -> None:
        self.path, self.why = path, why
        super().__init__(f"cannot start {path}: {why}")


class Timeout(TmemError, TimeoutError):
    """The time was over before the transaction could go on. It had no effect."""


class Stuck(TmemError):
    """The transaction retried before it had read a variable, so nothing could ever wake it."""


def raise_for(answer: Mapping, name_of) -> NoReturn:
    """Raises what an answer means that is no success. `name_of` gives the name of a variable."""
    if "refused" in answer:
        because = {name_of(variable): value for variable, value in answer.get("because", [])}
        raise Refused(answer["refused"], because)
    if "aborted" in answer:
        raise Aborted(answer["aborted"])
    if answer.get("found") is False:
        raise NoRequest("nothing is kept under this word", "/run")
    if answer.get("fault") == 3:
        raise Closed("the store is closed")
    if "fault" in answer:
        raise Fault(answer["fault"], answer["word"], answer.get("cause"), answer.get("why"))
    raise TmemError(f"an answer that is not understood: {answer}")
