"""The line protocol: requests go out, each with an id, and one thread hands the answers to who waits for them."""

from __future__ import annotations

import json
import os
import shutil
import socket
import subprocess
import tempfile
import threading
import weakref
from concurrent.futures import Future
from typing import Any, BinaryIO, Callable, Sequence, Union

from .errors import Closed, NoProgram, NoRequest, NotOpened, TmemError

Program = Union[str, "os.PathLike[str]", Sequence[str]]


def command(program: Program | None = None) -> list[str]:
    """The words that start the program: those given, else the path in `TMEM`, else `tmem` on the path."""
    if program is None:
        found = os.environ.get("TMEM") or shutil.which("tmem")
        if not found:
            raise NoProgram("tmem", "give program=.., set TMEM, or put it on the path")
        program = found
    if isinstance(program, (str, os.PathLike)):
        return [os.path.expanduser(os.fspath(program))]
    return list(program)


def not_started(words: Sequence[str], error: OSError) -> NoProgram:
    """What the system said as it was to start the program."""
    is_folder = isinstance(error, PermissionError) and os.path.isdir(words[0])
    return NoProgram(words[0], "it is a folder" if is_folder else error.strerror or str(error))


def is_no_tmem(words: Sequence[str], first: bytes) -> NoProgram:
    """The program printed this first line."""
    return NoProgram(words[0], f"it is no tmem: it printed {first[:60].decode(errors='replace').rstrip()!r}")


def failure_of(words: Sequence[str], status: int, told: bytes, failure: Callable[[str], TmemError]) -> TmemError:
    """What it means that the program ended with this status, after this on its error stream: `failure` of what it said, or that it is
    no `tmem`, which always says what it failed at (but where a signal has ended it)."""
    said = told.decode(errors="replace").strip()
    if status < 0 or any(line.startswith("tmem: ") for line in said.splitlines()):
        return failure(said or f"tmem ended with status {status}")
    return NoProgram(words[0], f"it is no tmem: it ended with status {status}" + (f", and said {said}" if said else ""))


class Process:
    """A `tmem serve` of the store at `path` that this program started, and its two pipes."""

    def __init__(self, words: Sequence[str], path: str) -> None:
        self._words, self._path, self._said = words, path, b""
        # (a file, since nobody reads the error stream while the process runs)
        self._told = tempfile.TemporaryFile()
        try:
            # A session of its own: an interrupt from the keyboard is for this program, which then closes the store.
            self.process = subprocess.Popen(
                words, stdin=subprocess.PIPE, stdout=subprocess.PIPE, stderr=self._told, start_new_session=True
            )
        except OSError as error:
            self._told.close()
            raise not_started(words, error) from None
        assert self.process.stdin and self.process.stdout
        self.output: BinaryIO = self.process.stdout
        self._input: BinaryIO = self.process.stdin

    def write(self, data: bytes) -> None:
        self._input.write(data)
        self._input.flush()

    def end_input(self) -> None:
        try:
            self._input.close()
        except OSError:
            pass

    def break_off(self) -> None:
        """Ends it at once. Nothing that was answered is lost by that."""
        self.process.kill()

    def files(self) -> list[int]:
        return [it.fileno() for it in (self._input, self.output) if not it.closed]

    def wait(self) -> str:
        """Waits for the end, and says what it was where it was no good one."""
        status = self.process.wait()
        self._told.seek(0)
        self._said = self._told.read()
        self._told.close()
        self.output.close()
        if status == 0:
            return "the store is closed"
        return self._said.decode(errors="replace").strip() or f"tmem ended with status {status}"

    def not_opened(self, first: bytes) -> TmemError:
        """Why the store was not opened, once the process has ended, whose first line was this."""
        status = self.process.returncode
        if first.endswith(b"\n"):
            return is_no_tmem(self._words, first)
        note = "" if os.path.exists(self._path) else ", which is not there"
        return failure_of(self._words, status, self._said, lambda line: NotOpened(self._path, line, status, note))


class Socket:
    """A connection to a hub (`python3 -m tmem.hub`)."""

    def __init__(self, path: str) -> None:
        self._path = path
        self._socket = socket.socket(socket.AF_UNIX, socket.SOCK_STREAM)
        try:
            self._socket.connect(path)
        except OSError as error:
            self._socket.close()
            raise NotOpened(f"unix:{path}", f"no hub is there: {error.strerror or error}") from None
        self.output: BinaryIO = self._socket.makefile("rb")

    def write(self, data: bytes) -> None:
        self._socket.sendall(data)

    def end_input(self) -> None:
        try:
            self._socket.shutdown(socket.SHUT_WR)
        except OSError:
            pass

    def break_off(self) -> None:
        try:
            self._socket.shutdown(socket.SHUT_RDWR)
        except OSError:
            pass

    def files(self) -> list[int]:
        return [it for it in [self._socket.fileno()] if it >= 0]

    def wait(self) -> str:
        self.output.close()
        self._socket.close()
        return "the hub has closed the connection"

    def not_opened(self, first: bytes) -> TmemError:
        """Why the store was not opened, once the connection has ended, whose first line was this."""
        return NotOpened(f"unix:{self._path}", "what is there is no hub" if first else "the hub has closed the connection")


class Link:
    """Sends requests, and hands on their answers. Threads share it."""

    # All of this process.
    links: weakref.WeakSet[Link] = weakref.WeakSet()

    def __init__(self, stream: Process | Socket) -> None:
        self.stream = stream
        self._make_locks()
        Link.links.add(self)
        self._lines = 0
        self._pending: dict[int, Future] = {}
        self._end: str | None = None
        self._opened: Future = Future()
        self._reader = threading.Thread(target=self._read, name="tmem answers", daemon=True)
        self._reader.start()

    def _make_locks(self) -> None:
        # Who writes may be held up until answers are read, so the reader never waits for `_writing`.
        self._writing = threading.Lock()
        self._lock = threading.Lock()

    def leave_behind(self) -> None:
        """In a process that was forked: the store is that of the other one, which can close it whether or not this one has ended."""
        self._make_locks()
        self._end = "the store was opened by another process: several share one over a hub"
        nothing = os.open(os.devnull, os.O_RDWR)
        for it in self.stream.files():
            os.dup2(nothing, it, inheritable=False)
        os.close(nothing)

    def opened(self) -> dict[str, Any]:
        """The first line: how many transactions the opening found, and what the store is like."""
        return self._opened.result()

    def send(self, ask: dict[str, Any]) -> tuple[int, Future]:
        """Sends a request without waiting: its id, and the answer to come. What is no JSON is refused as `json.dumps` does."""
        if "id" in ask:
            raise ValueError("the id of a request is given to it here")
        body = json.dumps(ask, separators=(",", ":"))[1:]
        answer: Future = Future()
        # (the request is on its way, whoever stops waiting for its answer)
        answer.set_running_or_notify_cancel()
        with self._writing:
            with self._lock:
                if self._end is not None:
                    raise Closed(self._end)
                # An id is the number of its line, so that an answer to a line that is no request finds it too.
                self._lines += 1
                number = self._lines
                self._pending[number] = answer
            line = f'{{"id":{number}{"," if ask else ""}{body}\n'
            try:
                self.stream.write(line.encode())
            except (OSError, ValueError):
                # The other end is gone: the reader finds the end too, and says what it was.
                pass
            except BaseException:
                # An interrupt from the keyboard: of this line a part may be written, behind which no other can follow.
                self.stream.break_off()
                raise
        return number, answer

    def close(self) -> None:
        """Ends the input, and waits until all is answered. What still waits is answered that the store is closed."""
        with self._lock:
            if self._end is None:
                self._end = "the store is closed"
        self.stream.end_input()
        if threading.current_thread() is not self._reader:
            self._reader.join()

    def _read(self) -> None:
        end, first = None, b""
        try:
            first = self.stream.output.readline()
            if first:
                self._opened.set_result(first_line(first))
                for line in self.stream.output:
                    self._hand_on(json.loads(line))
        except ConnectionError:
            # (a hub that was killed left something unread: this is an end like others)
            self.stream.break_off()
        except Exception as error:
            end = f"what serves the store cannot be understood: {error}"
            self.stream.break_off()
        self.stream.end_input()
        ended = self.stream.wait()
        end = end or ended
        with self._lock:
            self._end = self._end or end
            left, self._pending = list(self._pending.values()), {}
        for answer in left:
            answer.set_exception(Closed(end))
        if not self._opened.done():
            self._opened.set_exception(self.stream.not_opened(first))

    def _hand_on(self, answer: dict[str, Any]) -> None:
        number = answer["id"] if "id" in answer else answer["line"]
        refusal = None if "id" in answer else NoRequest(answer["why"], answer["at"])
        with self._lock:
            waiting = self._pending.pop(number, None)
        if waiting is None:
            return
        if refusal is None:
            waiting.set_result(answer)
        else:
            waiting.set_exception(refusal)


def first_line(line: bytes) -> dict[str, Any]:
    it = json.loads(line)
    if not {"opened", "vars", "names"} <= {*it}:
        raise ValueError("this is not the first line of a store that is served")
    return it


def leave_all_behind() -> None:
    for link in list(Link.links):
        link.leave_behind()


os.register_at_fork(after_in_child=leave_all_behind)
