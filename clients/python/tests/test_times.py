"""Times: for how long a call waits. The clock goes on only where a test says so, so no test depends on how fast the machine is."""

import asyncio
import contextlib
import os
import signal
import threading
import unittest
from unittest import mock

from support import StoreCase, tmem

TAKE = {"seq": [{"read": [1, 0]}, {"when": [0, "skip", "retry"]}, {"write": [1, 1]}]}


class Clock:
    """Stands in for the module `time` of the client."""

    def __init__(self):
        self.now, self.slept = 1000.0, []

    def monotonic(self):
        return self.now

    def sleep(self, seconds):
        self.slept.append(seconds)
        self.now += seconds


class Times(StoreCase):
    def setUp(self):
        super().setUp()
        self.clock = Clock()
        self.patch("tmem.store.time", self.clock)
        # For how long each answer was awaited at most that may be long in coming, and was not there yet.
        self.waits = []
        # What happens in each wait in turn; behind these its time is over, if it has one.
        self.events = []
        self.note_calls()
        self.note_tasks()

    def patch(self, what, by):
        patching = mock.patch(what, by)
        patching.start()
        self.addCleanup(patching.stop)

    def note_calls(self):
        send = self.store._link.send

        def noted(ask):
            number, answer = send(ask)
            may_wait, result = {*ask} & {"do", "run", "changed"}, answer.result

            def awaited(timeout=None):
                if not may_wait or answer.done():
                    return result(timeout)
                self.waits.append(timeout)
                return result(self.passed(timeout))

            answer.result = awaited
            return number, answer

        self.store._link.send = noted

    def note_tasks(self):
        wait_for = asyncio.wait_for

        async def awaited(future, timeout):
            self.waits.append(timeout)
            return await wait_for(future, self.passed(timeout))

        self.patch("tmem.store.asyncio.wait_for", awaited)

    def passed(self, timeout):
        """Lets the time of a wait pass: how long it is to be in truth."""
        if self.events:
            self.events.pop(0)()
            return 60
        if timeout is not None:
            self.clock.now += timeout
        return None if timeout is None else 0

    def later(self, seconds, **values):
        """So many seconds later these variables have other values."""

        def event():
            self.clock.now += seconds
            self.set(**values)

        return event

    def each(self, check, *names):
        """Checks each call, and the same in an event loop."""
        for name in names:
            plain, awaited = getattr(self.store, name), getattr(self.store, f"{name}_async")
            for kind, call in (("call", plain), ("task", lambda *args, **kwargs: asyncio.run(awaited(*args, **kwargs)))):
                with self.subTest(name=name, kind=kind):
                    self.set(a=0, b=0)
                    self.waits.clear()
                    check(name, call)

    def test_a_wait_lasts_until_the_time_is_over(self):
        def body(t, takes=0):
            t["b"] or self.after(takes) or t.retry()

        def check(_name, call):
            # (what the function takes is no part of the wait)
            for time, takes, wanted in ((7, 0, 7), (7, 2, 5), (0.25, 0, 0.25), (3600, 0, 3600), (0, 0, 0), (7, 9, 0)):
                self.waits.clear()
                with self.assertRaises(tmem.Timeout):
                    call(body, takes, timeout=time)
                self.assertEqual(self.waits, [wanted])
                self.until_waiting(0)

        self.each(check, "run", "run_numbered")

    def after(self, seconds):
        self.clock.now += seconds

    def test_each_wait_has_what_is_left(self):
        def body(t):
            return t["b"] if t["b"] > 1 else t.retry()

        def check(_name, call):
            self.events += [self.later(3, b=1), self.later(1, b=0)]
            with self.assertRaises(tmem.Timeout):
                call(body, timeout=7)
            self.assertEqual(self.waits, [7, 4, 3])
            self.waits.clear()
            self.events += [self.later(3, b=1), self.later(1, b=5)]
            self.assertEqual((call(body, timeout=7), self.waits), (5, [7, 4]))

        self.each(check, "run")

    def test_without_a_time_it_waits_until_it_is_woken(self):
        def check(_name, call):
            self.events.append(self.later(10**6, b=4))
            self.assertEqual((call(lambda t: t["b"] or t.retry()), self.waits), (4, [None]))

        self.each(check, "run")

    def test_transactions_as_data(self):
        self.store.keep("take", TAKE)

        def check(name, call):
            what = "take" if name == "call" else TAKE
            for time in (7, 0.25, 0):
                self.waits.clear()
                with self.assertRaises(tmem.Timeout):
                    call(what, timeout=time)
                # (behind that it asks what came of it)
                self.assertEqual(self.waits[0], time)
                self.until_waiting(0)
            self.waits.clear()
            self.events.append(self.later(10**6, b=4))
            self.assertTrue(call(what).committed)
            self.assertEqual((self.waits, self.store.get("b")), ([None], 0))

        self.each(check, "do", "call")

    def test_one_that_is_done_as_its_time_ends_is_done(self):
        """It commits between the end of its time and the cancel."""
        send = self.store._link.send

        def late(ask):
            if "cancel" in ask:
                self.set(b=4)
            return send(ask)

        def check(_name, call):
            self.store._link.send = late
            self.assertTrue(call(TAKE, timeout=1).committed)
            self.store._link.send = send
            self.assertEqual(self.store.get("b"), 0)

        self.each(check, "do")

    def test_conflicts_end_with_the_time(self):
        def body(t):
            runs.append(self.clock.now - began[0])
            t["a"] += 1
            self.set(a=t["a"])
            self.clock.now += 2

        async def sleep(seconds):
            self.clock.sleep(seconds)

        def check(_name, call):
            runs.clear()
            began[0] = self.clock.now
            with self.assertRaises(tmem.Timeout):
                call(body, timeout=7)
            # (a task runs it up to the read, and then anew)
            self.assertEqual(([*dict.fromkeys(runs)], self.clock.now - began[0]), ([0, 2, 4, 6], 8))

        runs, began = [], [0]
        self.patch("tmem.store.asyncio.sleep", sleep)
        self.patch("tmem.store.random.random", lambda: 0.0)
        self.each(check, "run")


class Loops(StoreCase):
    """While an answer is under way, an event loop goes on."""

    def test_no_call_holds_up_its_loop(self):
        self.store.keep("skips", "skip")
        calls = [lambda: self.store.run_async(lambda t: t["a"]), lambda: self.store.run_async(lambda t: t.__setitem__("a", 1))]
        calls += [lambda: self.store.run_async(lambda t: t["b"] or t.retry(), timeout=0.2), lambda: self.store.run_numbered_async(lambda t: 1)]
        calls += [lambda: self.store.get_async("a"), lambda: self.store.do_async("skip"), lambda: self.store.call_async("skips")]
        for number, call in enumerate(calls):
            with self.subTest(call=number):
                self.assertTrue(asyncio.run(self.goes_on(call)))

    async def goes_on(self, call):
        """Whether the loop goes on while the program stands still. (If not, that ends after some seconds.)"""
        program = self.store._link.stream.process.pid
        late = threading.Timer(10, os.kill, [program, signal.SIGCONT])
        os.kill(program, signal.SIGSTOP)
        late.start()
        task = asyncio.create_task(call())
        await asyncio.sleep(0.05)
        in_time = late.is_alive()
        late.cancel()
        self.assertFalse(in_time and task.done())
        os.kill(program, signal.SIGCONT)
        with contextlib.suppress(tmem.Timeout):
            await task
        return in_time


if __name__ == "__main__":
    unittest.main()
