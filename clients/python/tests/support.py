"""What the tests share. The program is the one in the variable TMEM, or else the stand-in beside this file."""

import fcntl
import os
import struct
import subprocess
import sys
import tempfile
import termios
import threading
import time
import unittest

HERE = os.path.dirname(os.path.abspath(__file__))
TOP = os.path.dirname(HERE)
sys.path.insert(0, TOP)
PROGRAM = os.environ.setdefault("TMEM", os.path.join(HERE, "standin"))
# For what is started: it finds the package too.
os.environ["PYTHONPATH"] = TOP

import tmem  # noqa: E402

SHAPE = {
    "vars": 8,
    "slots": 4,
    "invariants": [
        {"name": "solvent", "sum": [[1, 0]], "least": 0},
        {"name": "balanced", "sum": [[1, 2], [1, 3]], "least": 0, "most": 0},
    ],
    "names": {"a": 0, "b": 1, "x": 2, "y": 3, "held": 4},
}


class StoreCase(unittest.TestCase):
    """Each test has a folder and an open store of its own."""

    shape = SHAPE

    def setUp(self):
        folder = tempfile.TemporaryDirectory()
        self.addCleanup(folder.cleanup)
        self.folder = folder.name
        self.path = os.path.join(self.folder, "test.store")
        tmem.create(self.path, self.shape)
        self.store = self.open()

    def open(self, path=None):
        store = tmem.open(path or self.path)
        self.addCleanup(store.close)
        return store

    def set(self, **values):
        """Sets variables, as another thread does: a function that runs as a transaction may call this."""

        def body(t):
            for name, value in values.items():
                t[name] = value

        self.in_thread(self.store.run, body).result()

    def in_thread(self, call, *args, **kwargs):
        """Starts a call in a thread. `result()` of what it returns waits for its end."""
        return InThread(lambda: call(*args, **kwargs))

    def until(self, condition, seconds=60):
        """Waits until a condition holds."""
        end = time.monotonic() + seconds
        while not condition():
            self.assertLess(time.monotonic(), end, "it took too long")
            time.sleep(0.002)

    def waiting(self, *stores):
        """How many requests of these clients wait: they came before a question, and have no answer once that has one."""
        count = 0
        for store in stores or [self.store]:
            number, answer = store._link.send({"ask": "look"})
            answer.result()
            with store._link._lock:
                count += sum(it < number for it in store._link._pending)
        return count

    def until_waiting(self, count, *stores):
        """Waits until so many requests of these clients wait."""
        self.until(lambda: self.waiting(*stores) == count)

    def watch(self, store=None):
        """From now on what a client sends, each with its answer to come."""
        link, sent = (store or self.store)._link, []
        send = link.send

        def noted(ask):
            number, answer = send(ask)
            sent.append((ask, answer))
            return number, answer

        link.send = noted
        return sent


def unread(connection):
    """How many bytes the other end of a connection has not read."""
    return struct.unpack("i", fcntl.ioctl(connection, termios.TIOCOUTQ, bytes(4)))[0]


def stands(count):
    """Whether a count has begun, and does not go on."""
    before = count()
    time.sleep(0.7)
    return before and count() == before


class InThread:
    def __init__(self, call):
        self.value = self.error = None
        self.thread = threading.Thread(target=self.play, args=[call], daemon=True)
        self.thread.start()

    def play(self, call):
        try:
            self.value = call()
        except BaseException as error:
            self.error = error

    def is_running(self):
        return self.thread.is_alive()

    def result(self, seconds=120):
        self.thread.join(seconds)
        if self.thread.is_alive():
            raise AssertionError("it did not end")
        if self.error is not None:
            raise self.error
        return self.value


class HubCase(StoreCase):
    """As StoreCase, and the store is shared by a hub. `self.store` is one of its clients."""

    options = []

    def open(self, path=None):
        if path is None and not hasattr(self, "hub"):
            self.start_hub()
        return super().open(path or f"unix:{self.path}.sock")

    def start_hub(self):
        words = [sys.executable, "-m", "tmem.hub", self.path, *self.options]
        self.hub = subprocess.Popen(words, stdout=subprocess.PIPE, stderr=subprocess.PIPE, text=True)
        self.addCleanup(self.end_hub)
        self.assertEqual(self.hub.stdout.readline(), f"serving at unix:{self.path}.sock\n")

    def end_hub(self):
        if self.hub.poll() is None:
            self.hub.terminate()
        self.hub.communicate()
