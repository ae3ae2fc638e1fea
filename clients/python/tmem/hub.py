"""A hub: several processes share one store over a Unix socket. `python3 -m tmem.hub STORE [--socket PATH]`

The hub starts one `tmem serve` and hands the lines of all its clients on to it, with ids of its own. To a client it speaks as
`tmem serve` does over its pipes: the first line, then an answer to each request. What differs:

- A client that goes away, or ends its side of the connection, waits no more: its requests that wait are taken back.
- A client that is slow to read is read no further until it has caught up. If it reads nothing for some seconds (`--patience`), or if
  too many bytes are held for it (`--held`), it is dropped.
- What is kept by `keep` is kept for all clients.
- A line that is handed on is up to 60 bytes longer, and counts as that against the greatest length of a line.

The hub ends when it is told to (SIGINT, SIGTERM) or when the program ends: what was asked for is answered first, if it can be.
"""

from __future__ import annotations

import argparse
import asyncio
import contextlib
import json
import os
import signal
import socket
import stat
import sys
from typing import Any, Callable, NamedTuple

from .errors import NoProgram
from .link import command, first_line, is_no_tmem, not_started

MOST_LINE = 65536
MOST_HELD = 8 << 20
PATIENCE = 10.0
LEAST_ID, MOST_ID = -(2**63), 2**63 - 1
# What may wait for another transaction. All else is answered at once.
WAITING = ("do", "run", "changed")
CANCELLED = b'"cancelled":true}'
# What a client whose input has ended is told of those that waited, as at the end of the input of `tmem serve`.
CLOSED = b'"fault":3,"word":"closed"}'


class NoRequest(Exception):
    """A line that cannot be handed on: what is wrong, and where."""

    def __init__(self, why: str, at: str) -> None:
        super().__init__(why, at)
        self.why, self.at = why, at

    def answer(self, line: int) -> bytes:
        found = {"line": line, "fault": 0, "word": "norequest", "why": self.why, "at": self.at}
        return json.dumps(found, separators=(",", ":")).encode() + b"\n"


class Asked(NamedTuple):
    """Who sent a line, with which id, as which of its own lines, why it was not handed on, and how long it was before more was put behind it.
    What the hub asks itself has nobody."""

    client: Client | None
    id: int
    line: int
    refusal: NoRequest | None = None
    length: int | None = None
    then: Callable[[], None] | None = None


def _integer(text: str) -> int | None:
    return int(text) if text != "-0" and len(text) <= 20 else None


def is_id(value: Any) -> bool:
    return type(value) is int and LEAST_ID <= value <= MOST_ID


def read(line: bytes) -> Any:
    """The value of a line; ValueError or RecursionError if it is no JSON. All else about it is for the program to judge."""
    if len(line) > MOST_LINE:
        raise NoRequest(f"the line is longer than {MOST_LINE} bytes", f"line 1 column {MOST_LINE + 1}")
    value = json.loads(line.decode("utf-8"), parse_int=_integer)
    if isinstance(value, dict) and "id" not in value:
        raise NoRequest("there is no id", "")
    return value


def within(rest: bytes, length: int) -> bytes:
    """The rest of a refusal, whose column is in a line of this length."""
    head, column, end = rest.rpartition(b" column ")
    return head + column + b'%d"}' % max(1, min(length, int(end[:-2]))) if column else rest


def is_first(line: bytes) -> bool:
    """Whether this is the first line of a store that is served."""
    try:
        return bool(first_line(line))
    except (ValueError, TypeError, RecursionError):
        return False


def with_last(line: bytes, **members: object) -> bytes:
    """The object of a line with these members, whatever it had under their keys: the last value of a key counts."""
    more = "".join(f',"{key}":{value}' for key, value in members.items())
    return line.rstrip(b" \t\r")[:-1] + more.encode() + b"}\n"


NOBODY = Asked(None, 0, 0)


class Client(asyncio.Protocol):
    """One connection."""

    def __init__(self, hub: Hub) -> None:
        self.hub, self.count = hub, 0
        # The beginning of a line that has not ended. (Of one that is too long no more is kept.)
        self.rest = b""
        # Its requests without an answer: the id of the hub, with the one that the client gave, and whether it may wait.
        self.asked: dict[int, tuple[int, bool]] = {}
        self.has_ended = self.is_slow = False
        self.given = 0
        self.transport: Any = None
        self.timer: asyncio.TimerHandle | None = None

    def connection_made(self, transport: Any) -> None:
        self.transport = transport
        self.hub.clients.add(self)
        self.give(self.hub.first)
        self.read_on()

    def read_on(self) -> None:
        """Reads from the client, unless it or the program is behind."""
        if self.has_ended:
            # (asyncio would find the end once more, and hand it on again)
            return
        if self.is_slow or self.hub.is_held:
            self.transport.pause_reading()
        else:
            self.transport.resume_reading()

    def pause_writing(self) -> None:
        self.is_slow = True
        self.read_on()
        self.look_again()

    def resume_writing(self) -> None:
        self.is_slow = False
        self.read_on()
        self.look_no_more()

    def look_again(self, taken: int = -1) -> None:
        """Drops the client if it has taken no byte since the last look, at which it had taken so many."""
        before, taken = taken, self.given - self.transport.get_write_buffer_size()
        if taken == before:
            self.drop("has read nothing for a while")
        else:
            self.timer = asyncio.get_running_loop().call_later(self.hub.patience, self.look_again, taken)

    def look_no_more(self) -> None:
        if self.timer is not None:
            self.timer.cancel()

    def drop(self, why: str) -> None:
        self.hub.tell(f"a client {why}, and is dropped")
        self.transport.abort()

    def data_received(self, data: bytes) -> None:
        *lines, rest = (self.rest + data).split(b"\n")
        self.rest = rest[: MOST_LINE + 1]
        self.hub.send(b"".join(map(self.handed_on, lines)))

    def handed_on(self, line: bytes) -> bytes:
        """A line as the program is to have it."""
        self.count += 1
        try:
            value = read(line)
        except NoRequest as none:
            # (so that the refusal comes in the order of the lines, the program gets a line that it refuses too)
            return self.refused(b"\n", none)
        except (ValueError, RecursionError):
            # (no JSON ends so, whatever the program would have made of it; and what is wrong before stays where it is)
            return self.refused(line + b"x\n", length=len(line))
        if not isinstance(value, dict):
            return self.refused(line + b"\n")
        if not is_id(value["id"]):
            return self.refused(with_last(line, id="null"), length=len(line))
        id = value["id"]
        number = self.hub.number_for(self, id, self.count)
        self.asked[number] = id, any(key in value for key in WAITING)
        if "cancel" not in value:
            return with_last(line, id=number)
        # (a number that is none stays none, however the program would read it)
        return with_last(line, id=number, cancel=self.cancelled(value["cancel"]) if is_id(value["cancel"]) else "null")

    def refused(self, line: bytes, refusal: NoRequest | None = None, length: int | None = None) -> bytes:
        """A line that the program refuses."""
        number = self.hub.number_for(self, 0, self.count, refusal, length)
        self.asked[number] = 0, False
        return line

    def cancelled(self, id: int) -> int:
        """The number of the request of this id that may wait, and will not from now on; or one that no request has."""
        number = next((it for it, (theirs, waits) in self.asked.items() if waits and theirs == id), 0)
        if number:
            self.asked[number] = id, False
        return number

    def give(self, lines: bytes) -> None:
        self.given += len(lines)
        self.transport.write(lines)
        if self.transport.get_write_buffer_size() > self.hub.most_held:
            self.drop("does not read what it asks for")

    def end_if_answered(self) -> None:
        if self.has_ended and not self.asked:
            self.transport.close()

    def eof_received(self) -> bool:
        """The client sends no more, and may still read: all is answered. What waits once all was attempted, waits no longer."""
        self.has_ended = True
        if self.rest:
            self.hub.send(self.handed_on(self.rest))
        self.hub.call_behind(self.take_back)
        return bool(self.asked)

    def take_back(self) -> None:
        waiting = [number for number, (_, waits) in self.asked.items() if waits]
        self.hub.take_back(waiting)

    def connection_lost(self, _error: Exception | None) -> None:
        self.hub.clients.discard(self)
        self.look_no_more()
        self.take_back()
        self.hub.forget(self)
        self.asked.clear()


class Hub(asyncio.SubprocessProtocol):
    """One `tmem serve` and its clients."""

    def __init__(self, most_held: int, patience: float) -> None:
        loop = asyncio.get_running_loop()
        self.most_held, self.patience = most_held, patience
        self.clients: set[Client] = set()
        self.first = b""
        # Whether the first line is the one of a store.
        self.opened: asyncio.Future[bool] = loop.create_future()
        self.ended: asyncio.Future[None] = loop.create_future()
        self.is_held = False
        self._process: Any = None
        self._is_closing = False
        self._rest = b""
        # How many lines were sent: the number of a request is that of its line.
        self._count = 0
        self._asked: dict[int, Asked] = {}
        self._taken_back: set[int] = set()

    def tell(self, text: str) -> None:
        print(f"tmem.hub: {text}", file=sys.stderr, flush=True)

    # From the clients to the program.

    def number_for(self, client: Client | None, id: int, line: int, refusal: NoRequest | None = None, length: int | None = None) -> int:
        """The number of a request. Its line has to be the next one that is sent."""
        self._count += 1
        self._asked[self._count] = Asked(client, id, line, refusal, length)
        return self._count

    def send(self, lines: bytes) -> None:
        if lines and not self._is_closing:
            self._process.get_pipe_transport(0).write(lines)

    def take_back(self, numbers: list[int]) -> None:
        for number in numbers:
            if number not in self._taken_back:
                self._taken_back.add(number)
                line = {"id": self.number_for(None, 0, 0), "cancel": number}
                self.send(json.dumps(line).encode() + b"\n")

    def call_behind(self, then: Callable[[], None]) -> None:
        """Calls something once all that was sent before is answered, or waits."""
        number = self.number_for(None, 0, 0)
        self._asked[number] = NOBODY._replace(then=then)
        self.send(b'{"id":%d,"ask":"look"}\n' % number)

    def forget(self, client: Client) -> None:
        for number in client.asked:
            self._asked[number] = NOBODY

    def pause_writing(self) -> None:
        """The program is behind: nobody is read until it has caught up."""
        self.is_held = True
        for client in self.clients:
            client.read_on()

    def resume_writing(self) -> None:
        self.is_held = self._is_closing
        for client in self.clients:
            client.read_on()

    def close(self) -> None:
        """Ends the input of the program, which answers all that it has and then ends."""
        self._is_closing = True
        self.pause_writing()
        self._process.get_pipe_transport(0).close()

    # From the program to the clients.

    def connection_made(self, transport: Any) -> None:
        self._process = transport

    def pipe_data_received(self, _fd: int, data: bytes) -> None:
        *lines, self._rest = (self._rest + data).split(b"\n")
        if lines and not self.first:
            self.first = lines.pop(0) + b"\n"
            self.opened.set_result(is_first(self.first))
        if not self.first or not self.opened.result():
            return
        given: dict[Client, list[bytes]] = {}
        behind: list[Callable[[], None]] = []
        for line in lines:
            number, asked, text = self.handed_back(line)
            if asked.client is not None:
                given.setdefault(asked.client, []).append(text)
                asked.client.asked.pop(number, None)
            if asked.then is not None:
                behind.append(asked.then)
        for client, texts in given.items():
            client.give(b"".join(texts))
            client.end_if_answered()
        for then in behind:
            then()

    def handed_back(self, line: bytes) -> tuple[int, Asked, bytes]:
        """An answer: its number, who asked, and the line as they are to have it."""
        head, _, rest = line.partition(b",")
        key, _, number_text = head.partition(b":")
        number = int(number_text)
        asked = self._asked.pop(number)
        if asked.refusal is not None:
            return number, asked, asked.refusal.answer(asked.line)
        if key == b'{"line"':
            return number, asked, b'{"line":%d,%s\n' % (asked.line, rest if asked.length is None else within(rest, asked.length))
        if number in self._taken_back:
            self._taken_back.discard(number)
            rest = CLOSED if rest == CANCELLED else rest
        return number, asked, b'{"id":%d,%s\n' % (asked.id, rest)

    def connection_lost(self, _error: Exception | None) -> None:
        self.ended.set_result(None)

    def status(self) -> int:
        return self._process.get_returncode()

    def break_off(self) -> None:
        """Ends the program at once."""
        with contextlib.suppress(ProcessLookupError):
            self._process.kill()


def place_for(path: str) -> None:
    """Makes room for a socket: removes one that a hub left behind. The store is ours by now, so no hub of it is alive."""
    try:
        if not stat.S_ISSOCK(os.lstat(path).st_mode):
            raise FileExistsError("what is there is no socket")
    except FileNotFoundError:
        return
    with socket.socket(socket.AF_UNIX) as other:
        try:
            other.connect(path)
        except OSError:
            os.unlink(path)
            return
    raise FileExistsError("another hub is there")


async def serve(words: list[str], path: str, most_held: int, patience: float) -> int:
    """Serves a socket at `path` until a signal or the end of the program that `words` start. The status is 0 after a signal."""
    loop = asyncio.get_running_loop()
    try:
        _, hub = await loop.subprocess_exec(lambda: Hub(most_held, patience), *words, stderr=None, start_new_session=True)
    except OSError as error:
        raise not_started(words, error) from None
    await asyncio.wait([hub.opened, hub.ended], return_when=asyncio.FIRST_COMPLETED)
    if not hub.opened.done():
        hub.tell(f"{words[0]} ended with status {hub.status()}, and opened no store")
        return 1
    if not hub.opened.result():
        hub.break_off()
        await hub.ended
        raise is_no_tmem(words, hub.first)
    stopped: asyncio.Future[None] = loop.create_future()
    for number in (signal.SIGINT, signal.SIGTERM):
        loop.add_signal_handler(number, lambda: stopped.done() or stopped.set_result(None))
    try:
        place_for(path)
        before = os.umask(0o177)
        try:
            server = await loop.create_unix_server(lambda: Client(hub), path)
        finally:
            os.umask(before)
    except OSError as error:
        hub.tell(f"cannot serve at {path}: {error.strerror or error}")
        hub.close()
        await hub.ended
        return 1
    print(f"serving at unix:{path}", flush=True)
    await asyncio.wait([stopped, hub.ended], return_when=asyncio.FIRST_COMPLETED)
    server.close()
    if not hub.ended.done():
        hub.close()
        await hub.ended
    await say_goodbye(hub)
    with contextlib.suppress(FileNotFoundError):
        # (from Python 3.13 on it is gone by now)
        os.unlink(path)
    if hub.status():
        hub.tell(f"tmem serve ended with status {hub.status()}")
    return 1 if hub.status() else 0


async def say_goodbye(hub: Hub) -> None:
    """Closes the connections, and gives the clients some time to read what they were sent."""
    for client in list(hub.clients):
        client.transport.close()
    for _ in range(100):
        if not hub.clients:
            return
        await asyncio.sleep(0.02)


def main() -> int:
    parser = argparse.ArgumentParser(prog="python3 -m tmem.hub", description="Shares a store between processes, over a Unix socket.")
    parser.add_argument("store", help="the store's file")
    parser.add_argument("--socket", help="where the socket is made (STORE.sock)")
    parser.add_argument("--shape", help="the file with the store's shape (STORE.json)")
    parser.add_argument("--program", help="the program tmem (the variable TMEM, or tmem on the path)")
    parser.add_argument("--held", type=int, default=MOST_HELD, help="how many bytes are held for a client (%(default)s)")
    parser.add_argument("--patience", type=float, default=PATIENCE, help="after how many seconds one that reads nothing is dropped (%(default)g)")
    given = parser.parse_args()
    shaped = [] if given.shape is None else ["--shape", given.shape]
    try:
        words = [*command(given.program), "serve", given.store, "--explain", *shaped]
        return asyncio.run(serve(words, given.socket or f"{given.store}.sock", given.held, given.patience))
    except NoProgram as error:
        print(f"tmem.hub: {error}", file=sys.stderr)
        return 1


if __name__ == "__main__":
    sys.exit(main())
