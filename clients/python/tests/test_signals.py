"""Signals: an interrupt from the keyboard goes to all processes of a terminal, and what was asked for is answered all the same."""

import contextlib
import json
import os
import pty
import select
import signal
import socket
import subprocess
import sys
import time
import unittest

from support import PROGRAM, HubCase, StoreCase, stands, tmem, unread
from test_hub import Raw

# A client that waits for `b`, and says so once it does. After an interrupt it goes on with its store.
CLIENT = """
import sys, threading, tmem

def tell():
    while True:
        number, answer = store._link.send({"ask": "look"})
        answer.result()
        if any(it < number for it in store._link._pending):
            return print("waits", flush=True)

with tmem.open(sys.argv[1]) as store:
    threading.Thread(target=tell).start()
    try:
        store.run(lambda t: t["b"] or t.retry())
    except KeyboardInterrupt:
        store.run(lambda t: t.__setitem__("a", 5))
        print("interrupted", store.get("a"), flush=True)
"""


def begin(*words, **more):
    """A process in a group of its own, which an interrupt ends unless it sees to that. (What a shell starts behind `&` ignores it.)"""
    how = {"stdin": subprocess.PIPE, "stdout": subprocess.PIPE, "stderr": subprocess.PIPE, **more}

    def alone():
        os.setpgid(0, 0)
        signal.signal(signal.SIGINT, signal.SIG_DFL)

    return subprocess.Popen(words, preexec_fn=alone, **how)


def program_of(process, path):
    """The `tmem serve` of this store that a process has started."""
    found = subprocess.run(["ps", "-o", "pid=,args=", "--ppid", str(process.pid)], stdout=subprocess.PIPE, text=True, check=True).stdout
    (pid,) = [int(line.split()[0]) for line in found.splitlines() if path in line]
    return pid


class Interrupts(StoreCase):
    def setUp(self):
        super().setUp()
        self.store.close()

    def test_a_client_goes_on_with_its_store(self):
        client = begin(sys.executable, "-c", CLIENT, self.path, text=True)
        self.assertEqual(client.stdout.readline(), "waits\n")
        os.killpg(client.pid, signal.SIGINT)
        self.assertEqual((*client.communicate(timeout=60), client.returncode), ("interrupted 5\n", "", 0))
        self.assertEqual(self.open().get("a"), 5)


class Closing(StoreCase):
    def test_a_store_is_closed_once_all_is_answered_and_its_program_has_ended(self):
        add = {"seq": [{"put": [1, 1]}, {"read": [0, 0]}, {"step": ["add", [0, 1], 0]}, {"write": [0, 0]}]}
        program = self.store._link.stream.process
        os.kill(program.pid, signal.SIGSTOP)
        self.addCleanup(program.kill)
        *answers, waits = [self.store.submit({"do": it}) for it in [add] * 20 + ["retry"]]
        closing = self.in_thread(self.store.close)
        time.sleep(0.3)
        self.assertTrue(closing.is_running())
        os.kill(program.pid, signal.SIGCONT)
        closing.result()
        self.assertEqual([it.result(0)["registers"] for it in answers], [[k + 1, 1] for k in range(20)])
        self.assertEqual((waits.result(0)["word"], program.returncode), ("closed", 0))


class Terminal(StoreCase):
    """The shell at a terminal."""

    def setUp(self):
        super().setUp()
        self.store.close()
        self.ours, theirs = pty.openpty()
        self.addCleanup(os.close, self.ours)
        env = {**os.environ, "TERM": "dumb", "TMEM_HISTORY": f"{self.folder}/history"}
        self.shell = begin(sys.executable, "-m", "tmem", self.path, stdin=theirs, stdout=theirs, stderr=theirs, env=env)
        self.addCleanup(self.shell.kill)
        os.close(theirs)

    def read_to(self, end):
        """What the terminal shows, up to this."""
        found = b""
        while not found.endswith(end):
            self.assertTrue(select.select([self.ours], [], [], 60)[0], found)
            found += os.read(self.ours, 1)
        return found

    def typed(self, line):
        os.write(self.ours, line + b"\n")
        return self.read_to(b"tmem> ")

    def time_used(self):
        """The processor time of the shell."""
        with open(f"/proc/{self.shell.pid}/stat", encoding="utf-8") as it:
            return it.read().rpartition(")")[2].split()[11:13]

    def test_it_asks_and_goes_on(self):
        self.assertEqual(self.read_to(b"tmem> "), b"tmem> ")
        self.assertEqual(self.typed(b"set a 5"), b"set a 5\r\na = 5\r\ntmem> ")
        self.assertEqual(self.typed(b""), b"\r\ntmem> ")
        self.assertEqual(self.typed(b"foo"), b"foo\r\nno word foo: .help lists them\r\ntmem> ")
        # An interrupt ends the line that was begun, and no more.
        os.write(self.ours, b"set a 9")
        self.read_to(b"set a 9")
        # (Python's readline sees a signal that comes just before it waits only once a key is pressed)
        self.until(lambda: stands(self.time_used))
        self.shell.send_signal(signal.SIGINT)
        self.read_to(b"\r\ntmem> ")
        self.assertEqual(self.typed(b"get a"), b"get a\r\na = 5\r\ntmem> ")
        os.write(self.ours, b"\x04")
        # (one who types sees what went wrong, so that is no failure)
        self.assertEqual((self.shell.wait(60), self.read_to(b"\r\n")[-2:]), (0, b"\r\n"))
        with open(f"{self.folder}/history", encoding="utf-8") as history:
            self.assertEqual(history.read(), "set a 5\nfoo\nget a\n")


class InterruptsByHub(HubCase):
    def test_a_shell_goes_on_with_the_next_line(self):
        shell = begin(sys.executable, "-m", "tmem", f"unix:{self.path}.sock", text=True)
        shell.stdin.write("set a 7\nwait a\n")
        shell.stdin.flush()
        self.assertEqual(shell.stdout.readline(), "a = 7\n")
        self.until(lambda: self.store.stats()["waiting"] == 1)
        os.killpg(shell.pid, signal.SIGINT)
        self.assertEqual(shell.stdout.readline(), "interrupted\n")
        self.until(lambda: self.store.stats()["waiting"] == 0)
        self.assertEqual((*shell.communicate("add a 1\n", 60), shell.returncode), ("a = 8\n", "", 0))


class HubEnds(HubCase):
    def start_hub(self):
        self.hub = begin(sys.executable, "-m", "tmem.hub", self.path, stdin=subprocess.DEVNULL, text=True)
        self.addCleanup(self.end_hub)
        self.assertEqual(self.hub.stdout.readline(), f"serving at unix:{self.path}.sock\n")
        self.program = program_of(self.hub, self.path)
        # (else neither of them would end)
        self.addCleanup(self.go_on)

    def go_on(self):
        with contextlib.suppress(ProcessLookupError):
            os.kill(self.program, signal.SIGCONT)

    def test_an_interrupt_ends_it_in_good_order(self):
        self.set(a=5)
        waiter = self.in_thread(self.store.run, lambda t: t["b"] or t.retry())
        self.until_waiting(1)
        os.killpg(self.hub.pid, signal.SIGINT)
        with self.assertRaises(tmem.Closed):
            waiter.result()
        self.assertEqual((self.hub.wait(60), self.hub.stderr.read()), (0, ""))

    def test_what_was_asked_is_answered_first(self):
        for number in (signal.SIGTERM, signal.SIGINT):
            if self.hub.poll() is not None:
                self.end_hub()
                self.start_hub()
                self.store = self.open()
            answers = self.asked_while_the_program_stands()
            self.hub.send_signal(number)
            # (it has the signal before the program goes on)
            time.sleep(0.3)
            self.go_on()
            *done, waited = [it.exception(60) or it.result() for it in answers]
            with self.subTest(signal=number):
                self.assertEqual([it["registers"][0] for it in done], [*range(done[0]["registers"][0], done[0]["registers"][0] + 20)])
                self.assertEqual((waited["word"], self.hub.wait(60)), ("closed", 0))

    def asked_while_the_program_stands(self):
        """Twenty additions, and one request that waits, of which the program has read nothing, and the hub all."""
        add = {"seq": [{"put": [1, 1]}, {"read": [0, 0]}, {"step": ["add", [0, 1], 0]}, {"write": [0, 0]}]}
        os.kill(self.program, signal.SIGSTOP)
        answers = [self.store.submit({"do": it}) for it in [add] * 20 + ["retry"]]
        self.until(lambda: not unread(self.store._link.stream._socket))
        self.assertFalse(any(it.done() for it in answers))
        return answers

    def test_what_can_go_on_as_a_client_ends_its_input_goes_on(self):
        """Its lines come to the program in one piece, behind which those that wait are attempted, before they are taken back."""
        client = Raw(f"{self.path}.sock")
        self.addCleanup(client.close)
        os.kill(self.program, signal.SIGSTOP)
        client.send(b'{"id":1,"changed":[[1,0]]}\n{"id":2,"settle":{"writes":[[1,4]]}}\n{"id":3,"changed":[[0,0]]}\n')
        client.socket.shutdown(socket.SHUT_WR)
        self.until(lambda: not unread(client.socket))
        # (it finds the end too before the program goes on)
        time.sleep(0.3)
        self.go_on()
        found = [json.loads(line) for line in client.lines]
        self.assertEqual([it["id"] for it in found], [2, 1, 3])
        self.assertEqual((found[1].get("values"), found[2].get("word")), ([[1, 4]], "closed"))

    def test_nobody_is_read_while_the_program_is_behind(self):
        os.kill(self.program, signal.SIGSTOP)
        ours = self.store._link.stream._socket
        # What the pipe, the hub and the connection hold is less than two megabytes. (These are no requests, so the answers are short.)
        answers = []
        sending = self.in_thread(lambda: [answers.append(self.store.submit({"ask": "x" * 4000})) for _ in range(1000)])
        self.until(lambda: stands(lambda: len(answers)))
        self.assertTrue(sending.is_running() and unread(ours))
        self.assertLess(len(answers) * 4000, 2 << 20)
        self.go_on()
        sending.result()
        self.assertEqual({type(it.exception(60)) for it in answers}, {tmem.NoRequest})
        self.assertEqual(self.store.get("a"), 0)


class HubEndsBeforeAllIsRead(HubCase):
    shape = {"vars": 1024, "slots": 2, "invariants": []}

    def test_who_has_not_read_its_answers_gets_them(self):
        client = Raw(f"{self.path}.sock")
        self.addCleanup(client.close)
        # (the answers are 600 KB, more than the connection holds)
        client.send(b'{"id":1,"ask":"state"}\n' * 300)
        self.until(lambda: not unread(client.socket))
        self.assertEqual(self.store.get(0), 0)
        program = program_of(self.hub, self.path)
        self.hub.terminate()
        self.until(lambda: not os.path.exists(f"/proc/{program}"))
        # (it gives them two seconds)
        time.sleep(0.3)
        self.assertEqual(len(client.lines.readlines()), 300)
        self.assertEqual(self.hub.wait(60), 0)


class Words(StoreCase):
    """What the hub and the shell are told by words: where the shape and the program are."""

    def setUp(self):
        super().setUp()
        self.set(a=5)
        self.store.close()
        self.shape_file = f"{self.folder}/elsewhere.json"
        os.rename(f"{self.path}.json", self.shape_file)
        self.words = [self.path, "--shape", self.shape_file, "--program", PROGRAM]
        self.env = {key: value for key, value in os.environ.items() if key != "TMEM"}

    def test_of_a_shell(self):
        shell = begin(sys.executable, "-m", "tmem", *self.words, text=True, env=self.env)
        self.assertEqual((*shell.communicate("get a\n", 60), shell.returncode), ("a = 5\n", "", 0))

    def test_of_a_hub(self):
        place = f"{self.folder}/place"
        hub = begin(sys.executable, "-m", "tmem.hub", *self.words, "--socket", place, text=True, env=self.env)
        self.addCleanup(hub.communicate)
        self.addCleanup(hub.terminate)
        self.assertEqual(hub.stdout.readline(), f"serving at unix:{place}\n")
        shell = begin(sys.executable, "-m", "tmem", f"unix:{place}", text=True)
        self.assertEqual(shell.communicate("get a\n", 60), ("a = 5\n", ""))


if __name__ == "__main__":
    unittest.main()
