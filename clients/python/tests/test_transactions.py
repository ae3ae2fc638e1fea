"""Functions as transactions: what they see, when they run again, and what an exception leaves."""

import asyncio
import functools
import os
import signal
import threading
import time
import unittest
from unittest import mock

from support import StoreCase, tmem
from tmem import store as store_module


class Plain(StoreCase):
    def test_a_transaction_reads_what_it_wrote(self):
        def body(t):
            t["a"] = 5
            t["b"] = t["a"] + 1
            t[7] = -t["b"]
            return t["a"], t["b"], t[7]

        self.assertEqual(self.store.run(body), (5, 6, -6))
        self.assertEqual(self.store.get("a", "b", 7), (5, 6, -6))
        self.assertEqual(self.store.get("a"), 5)

    def test_what_was_answered_is_there_after_the_next_opening(self):
        self.set(a=1, b=2)
        self.store.close()
        again = self.open()
        self.assertEqual((again.opened, again.get("a", "b")), (1, (1, 2)))
        self.assertEqual(again.durable(), 1)

    def test_a_transaction_that_writes_nothing_is_no_part_of_the_history(self):
        self.assertEqual(self.store.run(lambda t: t["a"] + t["b"]), 0)
        self.assertEqual(self.store.run(lambda t: "nothing read"), "nothing read")
        self.assertEqual(self.store.state().count, 0)

    def test_arguments_and_keywords(self):
        @tmem.transaction
        def body(t, name, by=1):
            "Adds."
            t[name] += by
            return t[name]

        self.assertEqual([self.store.run(body, "a"), self.store.run(body, "a", by=3)], [1, 4])
        self.assertEqual((body.__name__, body.__doc__), ("body", "Adds."))
        with self.assertRaisesRegex(TypeError, "run it by store.run"):
            body("a")

    def test_transactions_call_each_other(self):
        @tmem.transaction
        def add(t, name, by):
            t[name] += by

        def move(t, by):
            add(t, "a", -by)
            add(t, "b", by)

        self.store.run(move, 30)
        self.assertEqual(self.store.get("a", "b"), (-30, 30))

    def test_a_transaction_makes_no_call_of_its_store(self):
        def sets(t):
            t["b"] = 1

        def plain(call):
            return lambda: self.store.run(lambda t: (t["a"], call()))

        def by_task(call):
            return lambda: asyncio.run(self.store.run_async(lambda t: (t["a"], call())))

        calls = [lambda: self.store.run(sets), lambda: self.store.run_numbered(sets), lambda: self.store.get("b"), lambda: self.store.state()]
        calls += [lambda: self.store.do({"write": [1, 0]}), lambda: self.store.try_once({"write": [1, 0]}), lambda: self.store.call("sets")]
        began = (lambda: self.store.run_async(sets), lambda: self.store.run_numbered_async(sets), lambda: self.store.get_async("b"))
        began += (lambda: self.store.do_async({"write": [1, 0]}), lambda: self.store.call_async("sets"))
        awaited = [functools.partial(lambda it: asyncio.run(it()), it) for it in began]
        self.store.keep("sets", {"seq": [{"put": [0, 1]}, {"write": [1, 0]}]})
        for number, call in enumerate([*map(plain, calls + awaited), *map(by_task, calls)]):
            with self.subTest(call=number), self.assertRaisesRegex(RuntimeError, "a transaction is running here: call the function with t"):
                call()
        # They had no effect, and behind them each can be made, also by another thread while one runs.
        self.assertEqual((self.store.state().count, self.store.get("b")), (0, 0))
        for call in calls + awaited:
            call()
        self.assertEqual(self.store.run(lambda t: self.in_thread(self.store.get, "b").result()), 1)

    def test_wrong_names_and_values(self):
        def sets(name, value):
            return lambda t: t.__setitem__(name, value)

        cases = [("nope", 1, KeyError), (8, 1, KeyError), (-1, 1, KeyError), (True, 1, TypeError), (1.0, 1, TypeError)]
        cases += [("a", "1", TypeError), ("a", True, TypeError), ("a", 1.0, TypeError), ("a", 2**63, OverflowError), ("a", -(2**63) - 1, OverflowError)]
        for name, value, error in cases:
            with self.subTest(name=name, value=value), self.assertRaises(error):
                self.store.run(sets(name, value))
        for value in (2**63 - 1, -(2**63)):
            self.store.run(sets("b", value))
            self.assertEqual(self.store.get("b"), value)
        self.assertEqual(self.store.state().count, 2)

    def test_a_view_is_dead_once_its_run_has_ended(self):
        kept = []
        self.store.run(kept.append)

        def fails(t):
            kept.append(t)
            raise LookupError

        with self.assertRaises(LookupError):
            self.store.run(fails)
        for t in kept:
            for use in (lambda: t["a"], lambda: t.__setitem__("a", 1), lambda: t.check("solvent"), t.retry, lambda: t.abort(1), lambda: tmem.or_else(len)(t)):
                with self.assertRaisesRegex(RuntimeError, "has ended"):
                    use()
        self.assertEqual(len(kept), 2)

    def test_what_would_not_run_is_refused(self):
        async def awaits(t):
            t["a"] = 1

        def yields(t):
            t["a"] = 1
            yield

        async def both(t):
            yield t["a"]

        for body in (awaits, yields, both, tmem.transaction(awaits), tmem.or_else(yields), lambda t: awaits(t)):
            with self.subTest(body=body), self.assertRaisesRegex(TypeError, "plain function"):
                self.store.run(body)
        self.assertEqual(self.store.state().count, 0)

    def test_it_is_no_sequence(self):
        for body in (list, lambda t: 0 in t):
            with self.assertRaises(TypeError):
                self.store.run(body)

    def test_limits(self):
        def writes(count):
            return lambda t: [t.__setitem__(k, 1) for k in range(count)]

        store = self.open_wide()
        store.run(writes(64))
        with self.assertRaisesRegex(ValueError, "64 variables"):
            store.run(writes(65))

        def goes_on(t):
            with self.assertRaises(ValueError):
                writes(65)(t)
            t[63] = 1

        # (what was refused is no part of it)
        store.run(goes_on)
        store.run(lambda t: (writes(64)(t), writes(64)(t)))
        self.assertEqual(store.run(lambda t: sum(t.get(*range(500)))), 64)
        with self.assertRaisesRegex(ValueError, "500 variables"):
            store.run(lambda t: t.get(*range(501)))
        with self.assertRaisesRegex(ValueError, "500 variables"):
            store.run(lambda t: (t.get(*range(500)), t[500]))

        def adds_all(t):
            t[599] = sum(t.get(*range(500))) + 1
            # (what it wrote itself is not read)
            return t[599]

        self.assertEqual(store.run(adds_all), 65)
        self.assertEqual(store.get(599), 65)

    def open_wide(self):
        path = self.path + ".wide"
        tmem.create(path, {"vars": 600, "slots": 2, "invariants": []})
        return self.open(path)

    def test_several_values_take_one_exchange(self):
        self.set(a=1, b=2)
        sent = self.watch()

        def body(t):
            t["x"] = 7
            return t.get("b", "x", "a", "b"), t["a"]

        self.assertEqual(self.store.run(body), ((2, 7, 1, 2), 1))
        self.assertEqual([ask for ask, _ in sent], [{"get": [1, 0]}, {"settle": {"reads": [(0, 1), (1, 2)], "writes": [(2, 7)]}}])
        sent.clear()
        self.assertEqual([self.store.get("b", "x"), asyncio.run(self.store.get_async("b", "x"))], [(2, 7)] * 2)
        self.assertEqual([ask for ask, _ in sent], [{"get": [1, 2]}] * 2)

    def test_of_some_functions_is_kept_what_they_read(self):
        for number in range(600):
            self.assertEqual(self.store.run(eval(f"lambda t: (t['a'], {number})")), (0, number))
        self.assertLessEqual(len(self.store._hints), 300)


class Opacity(StoreCase):
    def test_a_function_never_sees_two_moments(self):
        seen = []

        def body(t):
            x = t["x"]
            if len(seen) == 0:
                seen.append("began")
                self.set(x=1, y=1)
            y = t["y"]
            seen.append((x, y))
            return x, y

        self.assertEqual(self.store.run(body), (1, 1))
        # The first run was left at its second read, and never had both.
        self.assertEqual(seen, ["began", (1, 1)])

    def test_what_was_read_before_may_stay_as_it_is(self):
        runs = []

        def body(t):
            runs.append("run")
            a = t["a"]
            if len(runs) == 1:
                self.set(x=1, y=1)
            return a, t["x"], t["y"]

        self.assertEqual(self.store.run(body), (0, 1, 1))
        self.assertEqual(len(runs), 1)

    def test_threads_never_see_two_moments(self):
        stop, bad = threading.Event(), []

        def turn(t):
            t["x"] += 1
            t["y"] = -t["x"]

        def look(t):
            x = t["x"]
            time.sleep(0.0005)
            y = t["y"]
            if x + y:
                bad.append((x, y))
            return x

        def turns():
            while not stop.is_set():
                self.store.run(turn)

        def looks():
            mine, last = self.open_again(), 0
            for _ in range(40):
                # (without what it read the last time, so that it asks for one after another)
                mine._hints.clear()
                now = mine.run(look)
                self.assertGreaterEqual(now, last)
                last = now
            return last

        writer = self.in_thread(turns)
        found = [self.in_thread(looks) for _ in range(3)]
        results = [it.result() for it in found]
        stop.set()
        writer.result()
        self.assertEqual(bad, [])
        self.assertTrue(all(results))

    def open_again(self):
        return self.store


class Conflicts(StoreCase):
    def test_a_conflict_runs_the_function_again(self):
        runs, sent = [], self.watch()

        def body(t):
            runs.append(t["a"])
            if len(runs) == 1:
                self.set(a=10)
            t["a"] += 1
            return t["a"]

        self.assertEqual(self.store.run(body), 11)
        self.assertEqual((runs, self.store.get("a")), ([0, 10], 11))
        self.assertEqual(self.conflicts(sent), 1)

    @staticmethod
    def conflicts(sent):
        return sum(answer.result().get("word") == "conflict" for _, answer in sent)

    def test_a_function_that_only_writes_meets_no_conflict(self):
        sent = self.watch()

        def body(t):
            self.set(a=10)
            t["a"] = 3

        self.store.run(body)
        self.assertEqual((self.store.get("a"), self.conflicts(sent)), (3, 0))

    def test_threads_add_up(self):
        def add(t):
            t["a"] += 1

        def adds():
            for _ in range(25):
                self.store.run(add)

        for it in [self.in_thread(adds) for _ in range(4)]:
            it.result()
        self.assertEqual((self.store.get("a"), self.store.state().count), (100, 100))

    def test_the_time_ends_conflicts(self):
        def body(t):
            t["a"] += 1
            self.set(a=t["a"] + 5)

        with self.assertRaises(tmem.Timeout):
            self.store.run(body, timeout=0)
        self.assertEqual(self.store.get("a"), 6)

    def test_there_is_a_pause_behind_each_conflict(self):
        runs, pauses = [], []

        def body(t):
            runs.append(t["a"])
            if len(runs) < 20:
                self.set(a=len(runs))
            t["a"] += 1

        with mock.patch("tmem.store.time.sleep", pauses.append):
            self.store.run(body)
        self.assertEqual((runs, len(pauses)), ([*range(20)], 19))

    def test_a_pause_is_random_and_ends_in_time(self):
        def pauses(lost, took, left=None):
            with mock.patch("tmem.store.time.monotonic", lambda: 100.0):
                return [store_module._pause(lost, 100.0 - took, None if left is None else 100.0 + left) for _ in range(300)]

        # It is up to the time of the lost request for each of the first eight conflicts, up to a second, and never past the end.
        for lost, took, left, most in ((1, 0.25, None, 0.25), (3, 0.25, None, 0.75), (30, 0.0625, None, 0.5), (8, 50, None, 1), (8, 50, 0.5, 0.5)):
            with self.subTest(lost=lost, took=took, left=left):
                drawn = pauses(lost, took, left)
                self.assertTrue(0 <= min(drawn) < most / 8 and most * 7 / 8 < max(drawn) <= most, (min(drawn), max(drawn)))
                self.assertGreater(len({*drawn}), 100)
        with self.assertRaises(tmem.Timeout):
            pauses(1, 0.1, 0)


class Exceptions(StoreCase):
    def test_an_exception_leaves_without_effects(self):
        def body(t):
            t["a"] = 5
            t.check("solvent")
            raise LookupError("no")

        with self.assertRaisesRegex(LookupError, "no"):
            self.store.run(body)
        state = self.store.state()
        self.assertEqual((state.count, list(state.names), any(state.values)), (0, [], False))

    def test_an_abort_says_its_code(self):
        def body(t):
            t["a"] = 5
            t.abort(7)

        with self.assertRaises(tmem.Aborted) as caught:
            self.store.run(tmem.or_else(body, lambda t: t.__setitem__("b", 1)))
        self.assertEqual((caught.exception.code, self.store.get("a", "b")), (7, (0, 0)))

    def test_a_refusal_says_which_invariant_and_why(self):
        self.store.run(lambda t: (t.__setitem__("a", 3), t.check("solvent")))
        with self.assertRaises(tmem.Refused) as caught:
            self.store.run(lambda t: t.__setitem__("a", t["a"] - 4))
        self.assertEqual(caught.exception.name, "solvent")
        self.assertEqual(self.store.get("a"), 3)
        self.assertEqual(caught.exception.because, {"a": -1})
        self.assertEqual(str(caught.exception), "solvent would not hold: a = -1")

    def test_check_and_retire(self):
        with self.assertRaises(tmem.Refused):
            self.store.run(lambda t: (t.__setitem__("x", 1), t.check("balanced")))
        self.store.run(lambda t: t.check("balanced"))
        self.assertEqual(list(self.store.state().names), ["balanced"])
        with self.assertRaises(tmem.Refused):
            self.set(x=1)
        self.set(x=1, y=-1)
        self.store.run(lambda t: (t.retire("balanced"), t.__setitem__("x", 5)))
        self.assertEqual((list(self.store.state().names), self.store.get("x", "y")), ([], (5, -1)))
        # The last of both counts.
        self.store.run(lambda t: (t.retire("solvent"), t.check("solvent")))
        self.assertEqual(list(self.store.state().names), ["solvent"])
        with self.assertRaises(tmem.NoRequest):
            self.store.run(lambda t: t.check("unknown"))
        with self.assertRaises(ValueError):
            self.store.run(lambda t: [t.check(name) for name in "abcdefghi"])

        def changes_its_mind(t):
            for name in "abcdefgh":
                t.check(name)
            with self.assertRaises(ValueError):
                t.check("solvent")
            t.check("a")
            for name in "abcdefgh":
                t.retire(name)
            t.check("solvent")
            t.abort(5)

        with self.assertRaises(tmem.Aborted):
            self.store.run(changes_its_mind)

    def test_an_except_of_the_function_does_not_swallow_a_retry(self):
        handled = []

        def politely(t):
            try:
                if t["a"] == 0:
                    t.retry()
            except Exception as error:
                handled.append(error)
            return "went on"

        def rudely(t):
            try:
                if t["a"] == 0:
                    t.retry()
            except:  # noqa: E722
                pass
            return "went on"

        def worse(t):
            try:
                return rudely(t)
            finally:
                if t._left:
                    raise LookupError("on its way out")

        for body in (politely, rudely, worse, tmem.or_else(rudely, worse)):
            with self.subTest(body=body), self.assertRaises(tmem.Timeout):
                self.store.run(body, timeout=0)
        self.assertEqual(handled, [])

        def other(t):
            t["b"] = 1
            return "other"

        def outside(t):
            rudely(t)
            return tmem.or_else(other, other)(t)

        # In a choice the next one runs then; and a choice behind it does not bring it back.
        for first in (rudely, worse, lambda t: rudely(t) and t.abort(1)):
            self.assertEqual(self.store.run(tmem.or_else(first, other), timeout=0), "other")
        with self.assertRaises(tmem.Timeout):
            self.store.run(outside, timeout=0)
        self.set(a=1)
        self.assertEqual(self.store.run(rudely, timeout=0), "went on")

    def test_a_retry_within_another_transaction_is_the_outer_one_s(self):
        runs = []
        tmem.create(f"{self.path}.other", self.shape)
        other = self.open(f"{self.path}.other")

        def inner(t, outer):
            runs.append(t["b"])
            t["b"] = 1
            outer.retry()

        def outer(t):
            if t["a"] == 0:
                other.run(tmem.or_else(inner, inner), t, timeout=0)
            return "went on"

        sent, asked = self.watch(), self.watch(other)
        waiter = self.in_thread(self.store.run, outer)
        self.until_waiting(1)
        self.set(a=1)
        self.assertEqual(waiter.result(), "went on")
        self.assertEqual([ask for ask, _ in asked if "get" not in ask], [])
        self.assertEqual((runs, other.get("b"), self.store.get("b")), ([0], 0, 0))
        self.assertEqual([ask["changed"] for ask, _ in sent if "changed" in ask], [[(0, 0)]])


class Retry(StoreCase):
    def take(self, t, me):
        for lease in ("a", "b"):
            if t[lease] == 0:
                t[lease] = me
                t["held"] += 1
                return lease
        t.retry()

    def give(self, t, lease):
        t[lease] = 0
        t["held"] -= 1

    def test_it_waits_until_what_it_read_has_changed(self):
        self.assertEqual([self.store.run(self.take, me, timeout=5) for me in (1, 2)], ["a", "b"])
        sent = self.watch()
        waiter = self.in_thread(self.store.run, self.take, 3)
        self.until_waiting(1)
        ((_, answer),) = [it for it in sent if "changed" in it[0]]
        self.set(x=9)
        self.assertEqual((self.waiting(), answer.done()), (1, False))
        self.assertTrue(waiter.is_running())
        self.store.run(self.give, "b")
        self.assertEqual(waiter.result(), "b")
        self.assertEqual(self.store.get("a", "b", "held"), (1, 3, 2))

    def test_the_time_ends_a_wait_and_takes_it_back(self):
        self.set(a=1, b=1)
        began = time.monotonic()
        with self.assertRaises(tmem.Timeout):
            self.store.run(self.take, 3, timeout=0.05)
        self.assertLess(time.monotonic() - began, 20)
        self.until_waiting(0)
        self.assertIsInstance(tmem.Timeout("it is one of Python's too"), TimeoutError)

    def test_a_retry_that_read_nothing_is_stuck(self):
        with self.assertRaises(tmem.Stuck):
            self.store.run(lambda t: t.retry())

    def test_who_waits_is_told_that_the_store_is_closed(self):
        self.set(a=1, b=1)
        waiter = self.in_thread(self.store.run, self.take, 3)
        self.until_waiting(1)
        self.store.close()
        with self.assertRaises(tmem.Closed):
            waiter.result()
        with self.assertRaises(tmem.Closed):
            self.store.get("a")

    def test_what_a_discarded_branch_read_wakes(self):
        def near(t):
            if t["a"] == 0:
                t.retry()
            return "near"

        def far(t):
            if t["b"] == 0:
                t.retry()
            return "far"

        for wakes, wanted in (("a", "near"), ("b", "far")):
            waiter = self.in_thread(self.store.run, tmem.or_else(near, far))
            self.until_waiting(1)
            self.set(**{wakes: 1})
            self.assertEqual(waiter.result(), wanted)
            self.set(a=0, b=0)

    def test_what_a_discarded_branch_read_is_compared(self):
        runs = []

        def near(t):
            if t["a"] == 0:
                t.retry()
            return "near"

        def far(t):
            runs.append("far")
            if len(runs) == 1:
                self.set(a=1)
            t["b"] = 1
            return "far"

        self.assertEqual(self.store.run(tmem.or_else(near, far)), "near")
        self.assertEqual((runs, self.store.get("b")), (["far"], 0))

    def test_the_writes_of_a_discarded_branch_go(self):
        def first(t):
            t["a"] = 5
            t.check("solvent")
            t["b"] = t["a"]
            t.retry()

        def second(t):
            t["b"] = t["a"] + 1

        self.set(a=1)
        self.store.run(tmem.or_else(first, second))
        self.assertEqual((self.store.get("a", "b"), list(self.store.state().names)), ((1, 2), []))

    def test_of_three_branches_the_last_finds_nothing_of_the_others(self):
        def retries(name):
            def branch(t):
                seen.append(t.get("a", "b", "x"))
                t[name] = 5
                t.check("solvent")
                t.retry()

            return branch

        seen = []
        self.store.run(tmem.or_else(retries("a"), retries("b"), lambda t: t.__setitem__("x", sum(t.get("a", "b")) + 1)))
        self.assertEqual((seen, self.store.get("a", "b", "x"), self.store.state().names), ([(0, 0, 0)] * 2, (0, 0, 1), []))

    def test_an_exception_of_the_first_branch_is_no_retry(self):
        def first(t):
            t["a"] = 5
            raise LookupError

        with self.assertRaises(LookupError):
            self.store.run(tmem.or_else(first, lambda t: t.__setitem__("b", 1)))
        self.assertEqual(self.store.get("a", "b"), (0, 0))


class Async(StoreCase):
    def test_tasks_share_a_store(self):
        async def add():
            for _ in range(10):
                await self.store.run_async(lambda t: t.__setitem__("a", t["a"] + 1))

        async def main():
            await asyncio.gather(*(add() for _ in range(5)))

        asyncio.run(main())
        self.assertEqual(self.store.get("a"), 50)

    def test_of_tasks_that_conflict_each_has_its_turn(self):
        turns = [0] * 8

        async def adds(task):
            while min(turns) < 3:
                await self.store.run_async(lambda t: t.__setitem__("a", t["a"] + 1), timeout=10)
                turns[task] += 1

        async def main():
            await asyncio.gather(*map(adds, range(len(turns))))

        asyncio.run(main())
        self.assertEqual(self.store.get("a"), sum(turns))

    def test_it_runs_anew_for_what_it_needs_and_sees_one_moment(self):
        seen = []

        def body(t):
            x = t["x"]
            seen.append(x)
            return x, t["y"]

        async def main():
            return await self.store.run_async(body), await self.store.run_async(body)

        self.assertEqual(asyncio.run(main()), ((0, 0), (0, 0)))
        # Without what it read the last time it ran twice; with it, once more at the first read, and then to its end.
        self.assertEqual(len(seen), 3)

    def test_waits_and_their_ends(self):
        def positive(t):
            if t["a"] <= 0:
                t.retry()
            t["a"] -= 1
            return t["a"]

        async def main():
            waiter = asyncio.create_task(self.store.run_async(positive))
            await asyncio.sleep(0.05)
            self.assertFalse(waiter.done())
            await self.store.run_async(lambda t: t.__setitem__("a", 3))
            self.assertEqual(await waiter, 2)
            self.set(a=0)
            with self.assertRaises(tmem.Timeout):
                await self.store.run_async(positive, timeout=0.02)
            waiter = asyncio.create_task(self.store.run_async(positive))
            await asyncio.sleep(0.05)
            waiter.cancel()
            with self.assertRaises(asyncio.CancelledError):
                await waiter

        asyncio.run(main())
        self.until_waiting(0)

    def test_refusals_and_exceptions(self):
        async def main():
            with self.assertRaises(tmem.Refused):
                await self.store.run_async(lambda t: (t.__setitem__("a", -1), t.check("solvent")))
            with self.assertRaises(ZeroDivisionError):
                await self.store.run_async(lambda t: 1 // t["a"])

        asyncio.run(main())


class Ends(StoreCase):
    def test_where_there_is_no_program_or_no_store(self):
        with self.assertRaisesRegex(tmem.TmemError, "cannot start"):
            tmem.open(self.path, program="/nothing/here")
        with self.assertRaisesRegex(tmem.TmemError, "tmem"):
            tmem.open(self.path + ".none")
        with self.assertRaisesRegex(tmem.TmemError, "no hub"):
            tmem.open("unix:" + self.path + ".none")
        with self.assertRaises(tmem.TmemError):
            tmem.create(self.path, self.shape)
        # One process has a store.
        with self.assertRaisesRegex(tmem.TmemError, "fault 2 device"):
            tmem.open(self.path)

    def test_a_store_that_was_not_made_to_its_end_is_made_by_the_same_call(self):
        path = self.path + ".cut"
        tmem.create(path, self.shape)
        os.unlink(path)
        with self.assertRaisesRegex(tmem.TmemError, "there already"):
            tmem.create(path, {**self.shape, "vars": 9})
        tmem.create(path, self.shape)
        with self.assertRaisesRegex(tmem.TmemError, "there already"):
            tmem.create(path, self.shape)
        self.assertEqual(self.open(path).get("a"), 0)

    def test_a_server_that_is_killed_ends_all_calls(self):
        self.set(a=4)
        waiter = self.in_thread(self.store.run, lambda t: t["b"] or t.retry())
        self.until_waiting(1)
        self.store._link.stream.process.kill()
        with self.assertRaisesRegex(tmem.Closed, "status -9"):
            waiter.result()
        with self.assertRaises(tmem.Closed):
            self.store.get("a")
        self.store.close()
        self.assertEqual(self.open().get("a"), 4)


    def test_an_interrupted_call_takes_its_request_back(self):
        def interrupts(*_):
            raise KeyboardInterrupt

        self.addCleanup(signal.signal, signal.SIGALRM, signal.signal(signal.SIGALRM, interrupts))
        for call in (lambda: self.store.do("retry"), lambda: self.store.run(lambda t: t["b"] or t.retry())):
            signal.setitimer(signal.ITIMER_REAL, 0.2)
            with self.assertRaises(KeyboardInterrupt):
                call()
            self.until_waiting(0)
        self.assertEqual(self.store.get("a"), 0)

    def test_behind_a_part_of_a_line_nothing_is_sent(self):
        stream, write = self.store._link.stream, self.store._link.stream.write

        def interrupted(data):
            write(data[:9])
            raise KeyboardInterrupt

        waiter = self.in_thread(self.store.run, lambda t: t["b"] or t.retry())
        self.until_waiting(1)
        stream.write = interrupted
        with self.assertRaises(KeyboardInterrupt):
            self.store.get("a")
        stream.write = write
        for call in (waiter.result, lambda: self.store.get("a"), lambda: self.store.get("b")):
            with self.assertRaises(tmem.Closed):
                call()

    def test_what_speaks_otherwise(self):
        def serves(*lines):
            printed = "".join(f"{it}\\n" for it in lines)
            return tmem.open(self.path, program=["sh", "-c", f"printf '{printed}'; exec sleep 1000"])

        for it in ("", "1", "{}", "x", "[1]", '{"opened":0}'):
            with self.subTest(line=it), self.assertRaisesRegex(tmem.NoProgram, "it is no tmem: it printed "):
                serves(it)
        for it in ("x", "1", "{}", "[]", '{"line":1}'):
            with self.subTest(line=it), self.assertRaisesRegex(tmem.Closed, "cannot be understood"):
                serves('{"opened":0,"vars":2,"names":{}}', it).get(0)

    def test_a_process_that_is_forked_has_no_part_in_it(self):
        self.set(a=4)
        goes_on, waits = os.pipe()
        child = os.fork()
        if child == 0:
            try:
                self.store.get("a")
            except tmem.Closed:
                os.read(goes_on, 1)
                self.store.close()
                os._exit(7)
            finally:
                os._exit(8)
        self.assertEqual(self.store.get("a"), 4)
        # It is closed although the child still runs.
        closing = self.in_thread(self.store.close)
        ended = closing.thread.join(30) or not closing.is_running()
        os.write(waits, b"x")
        self.assertEqual((ended, os.WEXITSTATUS(os.waitpid(child, 0)[1])), (True, 7))


if __name__ == "__main__":
    unittest.main()
