"""The hub: several clients, those that die, and those that do not read."""

import asyncio
import json
import os
import random
import shutil
import signal
import socket
import stat
import subprocess
import sys
import time
import unittest
from unittest import mock

from support import PROGRAM, HubCase, stands, tmem, unread
from tmem import hub

CHILD = """
import sys, tmem
store = tmem.open(sys.argv[1])
def body(t):
    if t["b"] == 0:
        t.retry()
print("begins", flush=True)
store.run(body)
"""


class Raw:
    """A client that sends bytes."""

    def __init__(self, path):
        self.socket = socket.socket(socket.AF_UNIX)
        # (so that a test fails where an answer does not come)
        self.socket.settimeout(60)
        self.socket.connect(path)
        self.lines = self.socket.makefile("rb")
        self.first = json.loads(self.lines.readline())

    def send(self, data):
        self.socket.sendall(data)

    def ask(self, data):
        self.send(data + b"\n")
        return json.loads(self.lines.readline())

    def rest(self):
        """Ends the input: what is still answered."""
        self.socket.shutdown(socket.SHUT_WR)
        return [json.loads(line) for line in self.lines]

    def close(self):
        self.lines.close()
        self.socket.close()


class HubTests(HubCase):
    def raw(self):
        client = Raw(f"{self.path}.sock")
        self.addCleanup(client.close)
        return client

    def test_clients_share_a_store(self):
        other = self.open()
        self.set(a=3)
        self.assertEqual(other.get("a"), 3)
        waiter = self.in_thread(other.run, lambda t: t["b"] or t.retry())
        self.until_waiting(1, other)
        self.set(b=7)
        self.assertEqual(waiter.result(), 7)
        self.assertEqual(stat.S_IMODE(os.stat(f"{self.path}.sock").st_mode), 0o600)

    def test_ids_are_the_client_s_own(self):
        first, second = self.raw(), self.raw()
        self.assertEqual(first.first, {"opened": 0, "vars": 8, "names": self.shape["names"]})
        for id in (1, -5, 2**63 - 1, -(2**63)):
            self.assertEqual(first.ask(b'{"id":%d,"get":[0]}' % id), {"id": id, "count": 0, "values": [[0, 0]]})
            self.assertEqual(second.ask(b'{"get":[1],"id":%d}' % id), {"id": id, "count": 0, "values": [[1, 0]]})
        self.assertEqual(first.ask(b'{"id":5,"get":[1],"id":6}  ')["id"], 6)

    def test_a_cancel_is_for_the_client_s_own(self):
        first, second = self.raw(), self.raw()
        first.send(b'{"id":1,"do":"retry"}\n')
        second.send(b'{"id":1,"changed":[[0,0]]}\n')
        self.assertEqual(second.ask(b'{"id":2,"cancel":3}'), {"id": 2, "found": False})
        found = [second.ask(b'{"id":2,"cancel":1}'), json.loads(second.lines.readline())]
        self.assertCountEqual(found, [{"id": 1, "cancelled": True}, {"id": 2, "found": True}])
        self.assertEqual(second.ask(b'{"id":2,"cancel":1}'), {"id": 2, "found": False})
        for bad in (b'"x"', b"1.0", b"-0", b"true", b"null", b"9223372036854775808"):
            self.assertEqual(second.ask(b'{"id":2,"cancel":' + bad + b"}")["word"], "norequest")
        self.assertEqual(second.ask(b'{"id":2,"cancel":1,"get":[0]}')["word"], "norequest")
        self.assertEqual(first.rest(), [{"id": 1, "fault": 3, "word": "closed"}])

    def test_what_is_no_request_is_answered_by_its_line_as_by_the_program(self):
        lines = [b"", b"  ", b"1", b"[]", b"{}", b'{"id":1}', b'{"id":1.0,"get":[0]}', b'{"id":-0,"get":[0]}', b'{"id":"1","get":[0]}', b'{"id":true,"get":[0]}']
        lines += [b'{"id":9223372036854775808,"get":[0]}', b'{"id":null,"get":[0]} ', b"\xff\xfe", b"\xef\xbb\xbf{}", b'{"id":1,"get":[0]', b'{"id":1,"get":[8]}']
        lines += [b"{" * 5000, b'{"id":' + b"1" * 5000 + b"}", b'{"id":1,"get":[0]}' + b" " * 65536, b'{"id":1,"ask":NaN}', b"\0", b'{"id":1,"get":[0]}x']
        lines += [b'{"id":1,"ask":"lo', b'{"id":1,"ask":"lo\\', b'{"id":1,"ask":"\\u00', b'{"id":1,,"get":[0]}', b'{"id":1,"ask":tru', b'{"id":1e', b"[" * 200, b"NaN"]
        given = b'{"id":4,"ask":"look"}\n' + b"".join(line + b"\n" for line in lines) + b'{"id":5,"ask":"look"}'
        client = self.raw()
        client.send(given)
        first, *found, last = client.rest()
        self.assertEqual((first, last), ({"id": 4, "durable": 0}, {"id": 5, "durable": 0}))
        self.assertEqual([(it["line"], it["fault"], it["word"]) for it in found], [(k + 2, 0, "norequest") for k in range(len(lines))])
        path = f"{self.path}.own"
        tmem.create(path, self.shape)
        ended = subprocess.run([PROGRAM, "serve", path], input=given, stdout=subprocess.PIPE, check=True)
        wanted = [json.loads(line) for line in ended.stdout.splitlines()[2:-1]]
        for line, had, its in zip(lines, found, wanted):
            with self.subTest(line=line[:40]):
                self.assertEqual(had, its)

    def test_the_same_lines_are_answered_as_by_the_program_itself(self):
        keys = ['"id":1', '"id":2', '"id":3', '"get":[0,1]', '"get":[9]', '"do":"skip"', '"do":"retry"', '"try":"retry"', '"cancel":1', '"cancel":2']
        keys += ['"ask":"look"', '"settle":{}', '"settle":{"writes":[[0,1]]}', '"settle":{"reads":[[0,1]],"writes":[[0,0]]}', '"changed":[[0,0]]']
        keys += ['"keep":["k","skip"]', '"run":"k"', '"numbers":[]', '"numbers":[1]', '"x":1', "x", '"settle":{"writes":[[0,-1]],"check":["solvent"]}']
        rng = random.Random(1)
        for turn in range(20):
            # (so few that they come in one piece, behind which those that wait are attempted again)
            lines = [("{" + ",".join(rng.sample(keys, rng.choice([2, 2, 2, 3]))) + "}").encode() for _ in range(24)]
            lines = [line for line in lines if rng.random() > 0.1 or b"id" in line]
            with self.subTest(turn=turn):
                self.assertEqual(self.by_hub(lines), self.by_program(lines, turn))

    def by_hub(self, lines):
        """A store of its own for each turn: the values go back to 0, and what was kept stays, so it is made the same in both."""
        self.set(a=0)
        for name in self.store.state().names:
            self.store.run(lambda t, name=name: t.retire(name))
        client = self.raw()
        client.send(b'{"id":0,"keep":["k","skip"]}\n' + b"\n".join(lines) + b"\n")
        return self.alike(client.rest())

    def by_program(self, lines, turn):
        path = f"{self.path}.{turn}"
        tmem.create(path, self.shape)
        given = b'{"id":0,"keep":["k","skip"]}\n' + b"\n".join(lines) + b"\n"
        ended = subprocess.run([PROGRAM, "serve", path], input=given, stdout=subprocess.PIPE, check=True)
        return self.alike(map(json.loads, ended.stdout.splitlines()[1:]))

    @staticmethod
    def alike(answers):
        """Answers without what counts transactions from the making of the store on, and without the words of refusals, in the order
        in which they came."""
        numbers = ("committed", "seen", "count", "durable", "why", "at")
        return [{key: value for key, value in it.items() if key not in numbers} for it in answers]

    def until_all_wait(self, count):
        """Waits until so many requests of all clients wait, as the program counts them."""
        self.until(lambda: self.store.stats()["waiting"] == count)

    def test_a_client_that_dies_waits_no_more(self):
        child = subprocess.Popen([sys.executable, "-c", CHILD, f"unix:{self.path}.sock"], stdout=subprocess.PIPE)
        self.assertEqual(child.stdout.readline(), b"begins\n")
        self.until_all_wait(1)
        child.kill()
        child.communicate()
        self.until_all_wait(0)
        self.set(b=1)
        self.assertEqual(self.store.get("b"), 1)

    def test_whatever_waits_is_taken_back_with_its_client(self):
        for wait in (b'"do":"retry"', b'"changed":[[1,0]]', b'"run":"waits"', b'"run":"waits","numbers":[]'):
            client = self.raw()
            client.ask(b'{"id":1,"keep":["waits","retry"]}')
            client.send(b'{"id":1,%s}\n' % wait * 3)
            with self.subTest(wait=wait):
                self.until_all_wait(3)
                client.close()
                self.until_all_wait(0)

    def test_a_cancel_for_each_of_one_id(self):
        """They come in one piece, so that none is answered before the last is read."""
        client = self.raw()
        client.send(b'{"id":1,"do":"retry"}\n{"id":1,"changed":[[0,0]]}\n' + b'{"id":2,"cancel":1}\n' * 3)
        found = [json.loads(client.lines.readline()) for _ in range(5)]
        cancelled, of_cancels = ([it for it in found if it["id"] == id] for id in (1, 2))
        self.assertEqual(cancelled, [{"id": 1, "cancelled": True}] * 2)
        self.assertEqual([it["found"] for it in of_cancels], [True, True, False])

    def test_a_client_that_has_ended_is_forgotten(self):
        """What it had asked for is no more in the hub's books once it is answered."""

        async def main():
            it = hub.Hub(1 << 20, 10)
            it.send = lambda lines: None
            client = hub.Client(it)
            client.transport = mock.Mock()
            client.handed_on(b'{"id":5,"do":"retry"}')
            client.handed_on(b'{"id":6,"get":[0]}')
            client.connection_lost(None)
            held = [asked for asked in it._asked.values() if asked.client is client]
            it.pipe_data_received(1, b'{"opened":0,"vars":1,"names":{}}\n{"id":2,"count":0,"values":[[0,0]]}\n{"id":1,"cancelled":true}\n{"id":3,"found":true}\n')
            return held, it._asked, it._taken_back, client.transport.write.called

        self.assertEqual(asyncio.run(main()), ([], {}, set(), False))

    def test_a_client_that_ends_its_input_is_answered(self):
        client = self.raw()
        client.send(b'{"id":1,"changed":[[0,0]]}\n{"id":2,"settle":{"writes":[[1,4]]}}\n{"id":3,"get":[1]}')
        answers = client.rest()
        self.assertEqual([it["id"] for it in answers[:2]], [2, 3])
        self.assertEqual(answers[1:], [{"id": 3, "count": 1, "values": [[1, 4]]}, {"id": 1, "fault": 3, "word": "closed"}])

    def test_nothing_is_a_cancel_that_the_hub_does_not_read(self):
        """With a program that would take any number: what it gets names no request of another client."""
        for bad in (b"1.0", b"1e0", b"-0", b'"1"', b"true", b"[1]", b"9223372036854775808"):
            self.assertEqual(json.loads(self.handed_on(b'{"id":5,"cancel":' + bad + b"}"))["cancel"], None)
        self.assertEqual(json.loads(self.handed_on(b'{"id":5,"cancel":5,"do":"skip"}'))["id"], 1)

    @staticmethod
    def handed_on(line):
        """What the hub sends for a line."""

        async def main():
            return hub.Client(hub.Hub(1, 1)).handed_on(line)

        return asyncio.run(main())

    def test_a_last_line_is_handed_on_once(self):
        """It lacks its break, and the program is behind between the end of the client's input and the answer."""

        async def main():
            it, sent = hub.Hub(1 << 20, 10), []
            it.send = sent.append
            ours, theirs = socket.socketpair()
            with ours:
                transport, _ = await asyncio.get_running_loop().create_unix_connection(lambda: hub.Client(it), sock=theirs)
                ours.sendall(b'{"id":2,"do":"skip"}')
                ours.shutdown(socket.SHUT_WR)
                while not sent:
                    await asyncio.sleep(0.01)
                for turn in (it.pause_writing, it.resume_writing):
                    turn()
                    await asyncio.sleep(0.1)
                transport.abort()
            return b"".join(sent)

        self.assertEqual(asyncio.run(main()).count(b'"do":"skip"'), 1)

    def test_a_client_that_dies_in_a_line(self):
        client = self.raw()
        client.send(b'{"id":1,"settle":{"writes":[[1,4')
        client.socket.close()
        client.lines.close()
        self.assertEqual(self.store.get("b"), 0)

    def test_what_a_dead_client_sent_may_come_late(self):
        """Behind a transaction that frees its leases: it takes one once more, unless that has written what it read."""
        def free(t):
            t["a"] = 0
            t["x"] += 1

        for read, wanted in ((b"[[0,0]]", 7), (b"[[0,0],[2,1]]", 0)):
            client = self.raw()
            # (the last line lacks its break, so the hub hands it on once the client is gone)
            client.send(b'{"id":1,"settle":{"reads":%s,"writes":[[0,7]]}}' % read)
            self.store.run(free)
            before = self.attempted()
            client.close()
            with self.subTest(read=read):
                self.until(lambda: self.attempted() == before + 1)
                self.assertEqual(self.store.get("a"), wanted)

    def attempted(self):
        stats = self.store.stats()
        return stats["committed"] + stats["conflicts"]

    def test_pieces_of_a_line(self):
        client = self.raw()
        for piece in (b'{"id":1,', b'"settle":{"wri', b'tes":[[1,4]]}', b"}"):
            client.send(piece)
            time.sleep(0.01)
        self.assertEqual(client.ask(b"")["committed"], 0)

    def test_a_client_is_gone_between_request_and_answer(self):
        for _ in range(20):
            client = self.raw()
            client.send(b'{"id":1,"settle":{"writes":[[1,4]]}}\n{"id":2,"do":"retry"}\n')
            client.close()
        self.until(lambda: self.store.get("b") == 4)

    def test_the_hub_ends_in_good_order(self):
        self.set(a=5)
        waiter = self.in_thread(self.store.run, lambda t: t["b"] or t.retry())
        self.until_waiting(1)
        self.hub.terminate()
        with self.assertRaises(tmem.Closed):
            waiter.result()
        self.assertEqual((self.hub.wait(60), os.path.exists(f"{self.path}.sock")), (0, False))
        with tmem.open(self.path) as store:
            self.assertEqual(store.get("a"), 5)

    def test_the_program_ends(self):
        self.set(a=5)
        waiter = self.in_thread(self.store.run, lambda t: t["b"] or t.retry())
        self.until_waiting(1)
        found = subprocess.run(["ps", "-o", "pid=", "--ppid", str(self.hub.pid)], stdout=subprocess.PIPE, check=True).stdout.split()
        for pid in found:
            if f"{self.path}".encode() in self.command_line(int(pid)):
                os.kill(int(pid), signal.SIGKILL)
        with self.assertRaises(tmem.Closed):
            waiter.result()
        self.assertEqual(self.hub.wait(60), 1)
        with tmem.open(self.path) as store:
            self.assertEqual(store.get("a"), 5)

    @staticmethod
    def command_line(pid):
        with open(f"/proc/{pid}/cmdline", "rb") as file:
            return file.read()

    def test_a_hub_that_was_killed_leaves_nothing_in_the_way(self):
        self.set(a=5)
        self.hub.kill()
        self.hub.communicate()
        self.assertTrue(os.path.exists(f"{self.path}.sock"))
        # (its program ends once it finds that its input has ended)
        self.until(self.starts_again)
        self.assertEqual(self.open(f"unix:{self.path}.sock").get("a"), 5)

    def starts_again(self):
        try:
            self.start_hub()
        except AssertionError:
            return False
        return True

    def test_a_second_hub_is_refused(self):
        words = [sys.executable, "-m", "tmem.hub", self.path]
        ended = subprocess.run(words, stdout=subprocess.PIPE, stderr=subprocess.PIPE, check=False)
        self.assertEqual((ended.returncode, ended.stdout), (1, b""))
        self.assertEqual(self.store.get("a"), 0)
        other = f"{self.path}.other"
        tmem.create(other, self.shape)
        missing, long = f"{self.folder}/none/sock", f"{self.folder}/{'x' * 120}"
        for taken, why in (
            (f"{self.path}.sock", "another hub is there"),
            (other, "what is there is no socket"),
            (missing, "No such file or directory"),
            (f"{other}/sock", "Not a directory"),
            (long, "AF_UNIX path too long"),
        ):
            with self.subTest(socket=taken):
                self.assertEqual(self.start(other, "--socket", taken), f"tmem.hub: cannot serve at {taken}: {why}\n")
        self.assertEqual(self.store.get("a"), 0)

    def start(self, *words, **env):
        """What a hub says that does not begin to serve."""
        how = {"stdout": subprocess.PIPE, "stderr": subprocess.PIPE, "text": True, "timeout": 60, "env": {**os.environ, **env}}
        ended = subprocess.run([sys.executable, "-m", "tmem.hub", *words], check=False, **how)
        self.assertEqual((ended.returncode, ended.stdout), (1, ""))
        return ended.stderr

    def test_a_hub_without_a_program_or_a_store(self):
        none = f"{self.folder}/none"
        for program, why in ((none, "No such file or directory"), (f"{self.path}.json", "Permission denied"), (self.folder, "it is a folder")):
            self.assertEqual(self.start(self.path, TMEM=program), f"tmem.hub: cannot start {program}: {why}\n")
        yes, true = f"{self.folder}/yes", shutil.which("true")
        with open(yes, "w", encoding="utf-8") as file:
            file.write('#!/bin/sh\nexec yes -- "$@"\n')
        os.chmod(yes, 0o755)
        self.assertEqual(self.start(none, TMEM=yes), f"tmem.hub: cannot start {yes}: it is no tmem: it printed 'serve {none} --explain'\n")
        self.assertEqual(self.start(none, TMEM=true), f"tmem.hub: {true} ended with status 0, and opened no store\n")
        told = f"tmem: cannot read shape\ntmem: {none}[^\n]*: nothing has this path[^\n]*\ntmem.hub: {PROGRAM} ended with status 1, and opened no store\n"
        self.assertRegex(self.start(none), f"^{told}$")
        self.assertEqual(self.start(none, TMEM="", PATH=self.folder), "tmem.hub: cannot start tmem: give program=.., set TMEM, or put it on the path\n")


class NeverReads(HubCase):
    options = ["--patience", "0.3"]

    def test_a_client_that_does_not_read_is_dropped(self):
        client = socket.socket(socket.AF_UNIX)
        self.addCleanup(client.close)
        client.settimeout(60)
        client.connect(f"{self.path}.sock")
        began = time.monotonic()
        with self.assertRaises(ConnectionError):
            while True:
                client.sendall(b'{"id":1,"ask":"state"}\n' * 100)
        self.assertGreater(time.monotonic() - began, 0.3)
        self.set(a=1)
        self.assertEqual(self.store.get("a"), 1)

    def test_one_that_waits_is_not(self):
        waiter = self.in_thread(self.store.run, lambda t: t["b"] or t.retry())
        self.until_waiting(1)
        answers = [self.store.submit({"ask": "state"}) for _ in range(2000)]
        self.assertEqual({it.result()["count"] for it in answers}, {0})
        time.sleep(0.7)
        self.set(b=1)
        self.assertEqual(waiter.result(), 1)


class ReadsSlowly(HubCase):
    options = ["--patience", "2.5"]
    shape = {"vars": 1024, "slots": 2, "invariants": []}

    def test_a_client_that_reads_slowly_is_not_dropped(self):
        client = Raw(f"{self.path}.sock")
        self.addCleanup(client.close)
        # 300 answers of some 2 KB: the hub has more for it than the socket takes, for longer than it is patient
        client.send(b'{"id":1,"ask":"state"}\n' * 300)
        self.assertEqual(self.store.durable(), 0)
        size = 0
        for count in range(1, 301):
            size += len(client.lines.readline())
            if count % 30 == 0:
                time.sleep(0.3)
        self.assertGreater(size, 300 * 2048)
        # Once it has read all it is read again, and may be silent for as long as it likes.
        self.assertEqual(client.ask(b'{"id":2,"ask":"look"}'), {"id": 2, "durable": 0})
        time.sleep(3.2)
        self.assertEqual(client.ask(b'{"id":3,"ask":"look"}'), {"id": 3, "durable": 0})
        self.assertEqual(self.store.get(0), 0)


class HeldBack(HubCase):
    options = ["--held", "1000000", "--patience", "1000"]
    shape = {"vars": 1024, "slots": 2, "invariants": []}

    def test_a_client_that_is_slow_to_read_is_read_no_further(self):
        """Else more would be held for it than may be."""
        client = Raw(f"{self.path}.sock")
        self.addCleanup(client.close)
        # (the answers are 4 MB, and its lines so long that few of them are under way)
        line = b'{"id":1,' + b" " * 4000 + b'"ask":"state"}\n'
        sending = self.in_thread(client.send, line * 2000)
        self.until(lambda: stands(lambda: unread(client.socket)))
        self.assertTrue(sending.is_running())
        self.assertEqual({json.loads(client.lines.readline())["id"] for _ in range(2000)}, {1})
        sending.result()


class HeldForOne(HubCase):
    options = ["--held", "70000", "--patience", "1000"]
    shape = {"vars": 1024, "slots": 2, "invariants": []}

    def test_a_client_for_which_too_much_is_held_is_dropped(self):
        client = Raw(f"{self.path}.sock")
        self.addCleanup(client.close)
        # 250 answers of some 2 KB, more than the socket and the hub hold
        client.send(b'{"id":1,"ask":"state"}\n' * 250)
        self.assertEqual(self.store.durable(), 0)
        client.socket.settimeout(20)
        with self.assertRaises((BrokenPipeError, ConnectionResetError)):
            while True:
                client.send(b'{"id":2,"ask":"look"}\n')
        self.assertEqual(self.store.get(0), 0)


if __name__ == "__main__":
    unittest.main()
