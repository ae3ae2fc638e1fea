"""Opacity, by random programs: other transactions commit between their reads, and no run of a function sees two moments.

The states that the store has been in are known, since the test itself commits what comes between. Each run of a function, also one that
is left, has seen what the model of test_laws.py sees on one of them; and the last run came to what the model says of the state that its
transaction found. SEED and CASES in the environment set others."""

import asyncio
import random
import threading
import unittest

from support import StoreCase, tmem
from test_laws import CASES, SEED, VARIABLES, Failed, function, looked_at, meaning, some_program


class Moments(StoreCase):
    shape = {"vars": 4, "slots": 8, "invariants": []}

    def setUp(self):
        super().setUp()
        # The state before each transaction, by its number, and at the end the present one.
        self.states = [dict.fromkeys(VARIABLES, 0)]
        # (one that is woken may commit before the one that woke it knows that it has committed)
        self.committing = threading.Lock()

    def put(self, change):
        """Commits a transaction that writes alone, as another thread does."""
        with self.committing:
            self.in_thread(self.store.run, lambda t: [t.__setitem__(*it) for it in change.items()]).result()
            self.states.append({**self.states[-1], **change})

    def some_change(self, rng, seen=()):
        """Other values of some variables, more often of those that a run has seen."""
        return {variable: (self.states[-1][variable] + rng.choice([1, 2, 3])) % 4 for variable in rng.choices([*VARIABLES, *seen * 4], k=rng.choice([1, 1, 2]))}

    def watched(self, rng, program, most):
        """A program as a function, before whose reads and at whose end so many other transactions commit at most; and what each of its
        runs has seen."""
        runs, left = [], [most]

        def between():
            if left[0] and rng.random() < 0.4:
                left[0] -= 1
                self.put(self.some_change(rng, [variable for variable, _ in runs[-1]]))

        def look(t, variable):
            between()
            value = t[variable]
            runs[-1].append((variable, value))
            return value

        def body(t):
            runs.append([])
            self.assertLess(len(runs), 200, "it comes to no end")
            try:
                return function(program, look)(t)
            finally:
                between()

        return body, runs

    def outcome(self, body, is_async):
        try:
            return asyncio.run(self.store.run_numbered_async(body)) if is_async else self.store.run_numbered(body)
        except Failed as failed:
            return failed

    def check_runs(self, program, runs, states):
        """Each run has seen the beginning of what the model sees on one of the states."""
        all_seen = [[it[:2] for it in meaning(program, state)[1]] for state in states]
        for run in runs:
            self.assertIn(run, [seen[: len(run)] for seen in all_seen])

    def check_end(self, program, outcome, first):
        """The last run came to what the model says of a state that was there, and had the effects that it says."""
        if isinstance(outcome, Failed):
            self.assertIn(("failed", outcome.args[0]), [meaning(program, state)[0] for state in self.states[first:]])
            return
        self.assertLessEqual(first, outcome.number)
        kind, number, after = meaning(program, self.states[outcome.number])[0]
        self.assertEqual((kind, number), ("value", outcome.result))
        if outcome.committed:
            self.assertEqual(outcome.number, len(self.states) - 1)
            self.states.append(after)
        else:
            self.assertEqual(after, self.states[outcome.number])

    def check_store(self):
        found = self.store.state()
        self.assertEqual((found.count, dict(enumerate(found.values))), (len(self.states) - 1, self.states[-1]))

    def test_no_run_sees_two_moments(self):
        again = changed = 0
        for case in range(CASES):
            rng = random.Random(f"{SEED} moments {case}")
            program = self.some_that_goes_on(rng)
            self.put(self.some_change(rng))
            first = len(self.states) - 1
            body, runs = self.watched(rng, program, 3)
            with self.subTest(case=case, program=program, state=self.states[first]):
                outcome = self.outcome(body, case % 2 == 0)
                changed += len(self.states) - 1 > first
                self.check_runs(program, runs, self.states[first:])
                self.check_end(program, outcome, first)
                self.check_store()
                again += len(runs) > 1
        # (it shows little unless there were many of both)
        self.assertGreater(min(again, changed), CASES // 4)

    def some_that_goes_on(self, rng):
        """A program that retries nowhere, since something else takes its place then, which may read and write too."""
        first, second = (("read", rng.choice(VARIABLES)) for _ in range(2))
        writes = rng.choice([(), (("add", 1), ("write", rng.choice(VARIABLES)))])
        tries = (first, *some_program(rng, 2), *writes, second, *some_program(rng, 1))
        other = rng.choice([(), (("set", 2), ("write", 3)), (("read", 1), ("add", 1), ("write", 0))])
        return (("or_else", tries, other), *rng.choice([(), (("write", 3),), (("read", 2), ("write", 2))]))

    def test_none_waits_where_it_could_go_on(self):
        """What commits between its reads and the wait wakes it; once all is quiet, it waits for a reason."""
        for case in range(CASES // 8):
            rng = random.Random(f"{SEED} quiet {case}")
            program, change = self.some_that_waits(rng)
            self.put(change)
            first = len(self.states) - 1
            body, runs = self.watched(rng, program, 3)
            with self.subTest(case=case, program=program, state=change):
                waiter = self.in_thread(self.outcome, body, case % 2 == 0)
                outcome = self.woken(rng, program, waiter)
                self.check_runs(program, runs, self.states[first:])
                if outcome is not None:
                    self.check_end(program, outcome, first)
                self.check_store()

    def some_that_waits(self, rng):
        """A program that waits for several variables; another value of one of them lets it go on."""
        while True:
            program, state = some_program(rng, 3), {variable: rng.randrange(4) for variable in VARIABLES}
            looked = looked_at(program, state)
            near = [{**state, variable: state[variable] + more} for variable in looked for more in (1, 2)]
            if meaning(program, state)[0] == ("retry",) and len(looked) > 1 and any(meaning(program, it)[0][0] == "value" for it in near):
                return program, state

    def woken(self, rng, program, waiter):
        """What it comes to, once other values let it go on; None if they do not for some turns, so that it is ended."""
        for turn in range(9):
            self.until(lambda: not waiter.is_running() or self.waiting())
            if not waiter.is_running():
                return waiter.result()
            if turn == 8:
                break
            now = self.states[-1]
            self.assertEqual(meaning(program, now)[0], ("retry",))
            variable = rng.choice(sorted(looked_at(program, now)))
            self.put({variable: now[variable] + rng.choice([1, 2])})
        self.store.close()
        with self.assertRaises(tmem.Closed):
            waiter.result()
        self.store = self.open()
        return None


class LastTime(StoreCase):
    """What a function read the last time it asks for at once, also where each call makes a function of its own."""

    def asked(self, body):
        """What it reads in each exchange."""
        sent = self.watch()
        self.store.run(body)
        del self.store._link.send
        return [ask["get"] for ask, _ in sent if "get" in ask]

    def test_a_function_is_known_again(self):
        def plain():
            return lambda t: (t["a"], t["b"])

        def marked():
            return tmem.transaction(lambda t: (t["x"], t["y"]))

        def marked_too():
            return tmem.transaction(lambda t: t[7])

        def choice():
            return tmem.or_else(lambda t: t["b"] and t["x"] or t.retry(), lambda t: t["held"])

        def other_choice():
            return tmem.or_else(lambda t: t["y"] or t.retry(), lambda t: t[7])

        for make, first, second in (
            (plain, [[0], [0, 1]], [[0, 1]]),
            (marked, [[2], [2, 3]], [[2, 3]]),
            (marked_too, [[7]], [[7]]),
            (choice, [[1], [1, 4]], [[1, 4]]),
            (other_choice, [[3], [3, 7]], [[3, 7]]),
        ):
            with self.subTest(make=make.__name__):
                self.assertEqual([self.asked(make()), self.asked(make())], [first, second])

    def test_what_it_reads_no_more_is_forgotten(self):
        def body(t):
            return t["a"] and t["b"]

        for value, asked in ((0, [[0]]), (1, [[0], [0, 1]]), (0, [[0, 1]]), (0, [[0]])):
            self.set(a=value)
            self.assertEqual(self.asked(body), asked)


if __name__ == "__main__":
    unittest.main()
