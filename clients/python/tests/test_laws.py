"""The laws of retry and or_else, by random programs: what the client does with them is compared with a small model.

A program is data: a tuple of statements over the variables 0 to 3 and one local number. The model runs it on a state as a whole, as
Harris et al. (2005) define it; the client runs it as a function on the store. SEED and CASES in the environment set others."""

import asyncio
import os
import random
import unittest

from support import StoreCase, tmem

SEED = int(os.environ.get("SEED", "1"))
CASES = int(os.environ.get("CASES", "150"))
VARIABLES = range(4)


class Failed(Exception):
    """What a program raises."""


def some_program(rng, depth):
    """Some statements: each a tuple of its word and what it needs."""
    return tuple(some_statement(rng, depth) for _ in range(rng.choice([0, 1, 2, 2, 3])))


def some_statement(rng, depth):
    words = ["read", "read", "write", "add", "add", "set", "skip", "retry", "retry_if", "retry_if", "fail_if"]
    word = rng.choice(words + ["or_else", "or_else", "when", "call"] * (depth > 0))
    if word in ("read", "write"):
        return word, rng.choice(VARIABLES)
    if word in ("add", "set", "retry_if", "fail_if"):
        return word, rng.randrange(3)
    if word in ("or_else", "when"):
        return word, some_program(rng, depth - 1), some_program(rng, depth - 1)
    if word == "call":
        return word, some_program(rng, depth - 1)
    return (word,)


# The model: a program on a state gives ("value", number, state), ("retry",) or ("failed", number), and what it saw: each variable that it
# read, the value, and whether that is the store's, and not one that it had written.


class Retries(Exception):
    pass


def meaning(program, state):
    seen = []

    def play(statements, writes, number):
        for word, *more in statements:
            if word == "read":
                number = writes.get(more[0], state[more[0]])
                seen.append((more[0], number, more[0] not in writes))
            elif word == "write":
                writes = {**writes, more[0]: number}
            elif word == "add":
                number += more[0]
            elif word == "set":
                number = more[0]
            elif word == "retry" or (word == "retry_if" and number % 3 == more[0]):
                raise Retries
            elif word == "fail_if" and number % 3 == more[0]:
                raise Failed(number)
            elif word == "or_else":
                try:
                    writes, number = play(more[0], writes, number)
                except Retries:
                    writes, number = play(more[1], writes, number)
            elif word == "when":
                writes, number = play(more[number % 2], writes, number)
            elif word == "call":
                writes, number = play(more[0], writes, number)
        return writes, number

    try:
        writes, number = play(program, {}, 0)
        return ("value", number, {**state, **writes}), seen
    except Retries:
        return ("retry",), seen
    except Failed as failed:
        return ("failed", failed.args[0]), seen


def looked_at(program, state):
    """The variables whose values in the store a program has read."""
    return {variable for variable, _, is_store_s in meaning(program, state)[1] if is_store_s}


# The same as functions on the store. A function is given the local number, and returns it. `look` is how it reads a variable.


def function(program, look=tmem.Transaction.__getitem__):
    def body(t, number=0):
        for word, *more in program:
            if word == "read":
                number = look(t, more[0])
            elif word == "write":
                t[more[0]] = number
            elif word == "add":
                number += more[0]
            elif word == "set":
                number = more[0]
            elif word == "retry" or (word == "retry_if" and number % 3 == more[0]):
                t.retry()
            elif word == "fail_if" and number % 3 == more[0]:
                raise Failed(number)
            elif word == "or_else":
                number = tmem.or_else(function(more[0], look), function(more[1], look))(t, number)
            elif word == "when":
                number = function(more[number % 2], look)(t, number)
            elif word == "call":
                number = function(more[0], look)(t, number)
        return number

    return body


def same(t, number):
    return number


class Laws(StoreCase):
    shape = {"vars": 4, "slots": 8, "invariants": []}

    def put(self, state):
        self.store.run(lambda t: [t.__setitem__(variable, value) for variable, value in state.items()])

    def state(self):
        return dict(enumerate(self.store.state().values))

    def in_a_loop(self, body, timeout):
        return asyncio.run(self.store.run_async(body, timeout=timeout))

    def outcome(self, body, run=None):
        """What running a function comes to, with the state that it leaves."""
        before = self.store.state().count
        try:
            found = ("value", (run or self.store.run)(body, timeout=0), self.state())
            self.assertLessEqual(self.store.state().count, before + 1)
            return found
        except (tmem.Timeout, tmem.Stuck):
            found = ("retry",)
        except Failed as failed:
            found = ("failed", failed.args[0])
        self.assertEqual(self.store.state().count, before, "it has no effect")
        return found

    def some_state(self, rng):
        return {variable: rng.randrange(4) for variable in VARIABLES}

    def test_random_programs_mean_what_the_model_says(self):
        kinds = set()
        for case in range(CASES):
            rng = random.Random(f"{SEED} {case}")
            program, state = some_program(rng, 3), self.some_state(rng)
            self.put(state)
            wanted, _ = meaning(program, state)
            kinds.add(wanted[0])
            with self.subTest(case=case, program=program, state=state):
                self.assertEqual(self.outcome(function(program), self.in_a_loop if case % 3 == 0 else None), wanted)
                if wanted[0] != "value":
                    self.assertEqual(self.state(), state)
        self.assertEqual(kinds, {"value", "retry", "failed"})

    def test_the_laws_hold_of_random_programs(self):
        def retry(t, number=0):
            t[0] = number
            t.retry()

        def behind(first, second):
            return lambda t, number=0: second(t, first(t, number))

        def laws(a, b, c):
            yield "a choice is associative", tmem.or_else(a, tmem.or_else(b, c)), tmem.or_else(tmem.or_else(a, b), c)
            yield "three in a row", tmem.or_else(a, b, c), tmem.or_else(a, tmem.or_else(b, c))
            yield "retry is its unit on the left", tmem.or_else(retry, a), a
            yield "retry is its unit on the right", tmem.or_else(a, retry), a
            yield "the first that goes on is taken", tmem.or_else(same, a), same
            yield "nothing runs behind a retry", behind(retry, a), retry
            yield "a choice alone", tmem.or_else(a), a

        for case in range(CASES // 6):
            rng = random.Random(f"{SEED} laws {case}")
            programs, state = [some_program(rng, 2) for _ in range(3)], self.some_state(rng)
            for law, left, right in laws(*map(function, programs)):
                with self.subTest(case=case, law=law, programs=programs, state=state):
                    found = []
                    for body in (left, right):
                        self.put(state)
                        found.append(self.outcome(lambda t, body=body: body(t, 0)))
                    self.assertEqual(*found)

    def test_who_waits_is_woken_by_what_it_looked_at_alone(self):
        woken = 0
        for case in range(CASES // 8):
            rng = random.Random(f"{SEED} waits {case}")
            program, state = self.some_that_waits(rng)
            looked = looked_at(program, state)
            with self.subTest(case=case, program=program, state=state):
                self.put(state)
                sent = self.watch()
                waiter = self.in_thread(self.store.run, function(program))
                self.until_waiting(1)
                ((ask, answer),) = [it for it in sent if "changed" in it[0]]
                self.assertEqual(dict(ask["changed"]), {variable: state[variable] for variable in looked})
                # Another value where it did not look wakes nobody.
                for variable in set(VARIABLES) - looked:
                    state[variable] += 1
                    self.put({variable: state[variable]})
                    self.assertEqual((self.waiting(), answer.done()), (1, False))
                woken += self.wake(rng, program, state, waiter)
        self.assertGreater(woken, CASES // 30)

    def some_that_waits(self, rng):
        """A program, and a state on which it retries; it would not do so on each."""
        while True:
            program, state = some_program(rng, 3), self.some_state(rng)
            states = [self.some_state(rng) for _ in range(20)]
            if meaning(program, state)[0] == ("retry",) and looked_at(program, state) and any(meaning(program, it)[0][0] == "value" for it in states):
                return program, state

    def wake(self, rng, program, state, waiter):
        """Changes values until the program goes on, or for some turns: whether it did. It comes to what the model says then."""
        for _ in range(12):
            variable = rng.choice(sorted(looked_at(program, state)))
            state[variable] += rng.choice([1, 2])
            wanted, _ = meaning(program, state)
            self.put({variable: state[variable]})
            if wanted[0] == "retry":
                # (it runs, and waits again)
                self.until_waiting(1)
                continue
            try:
                self.assertEqual((wanted[0], wanted[1]), ("value", waiter.result()))
                self.assertEqual(self.state(), wanted[2])
            except Failed as failed:
                self.assertEqual(wanted, ("failed", failed.args[0]))
            return True
        self.free(waiter)
        return False

    def free(self, waiter):
        """Ends one that would wait for ever."""
        self.store.close()
        with self.assertRaises(tmem.Closed):
            waiter.result()
        self.store = self.open()

    def test_random_programs_at_once_come_to_some_order(self):
        """Threads run random programs; the history is checked in the order in which they committed."""
        for case in range(max(1, CASES // 15)):
            rng = random.Random(f"{SEED} at once {case}")
            programs = [some_program(rng, 2) for _ in range(6)]
            state = self.some_state(rng)
            self.put(state)
            running = [self.in_thread(self.numbered, program) for program in programs]
            found = [it.result() for it in running]
            with self.subTest(case=case, programs=programs, state=state):
                last = self.check_history(programs, found, state)
                self.assertEqual(self.state(), last)

    def numbered(self, program):
        """What a program comes to, and the number of its transaction if it has one."""
        numbers = []

        class Watched:
            """The link of a store, which notes the number of the answer to a settle."""

            def send(_, ask):
                number, answer = self.store._link.send(ask)
                if "settle" in ask:
                    answer.add_done_callback(lambda it: numbers.append(it.result().get("committed")))
                return number, answer

        mine = tmem.Store.__new__(tmem.Store)
        mine.__dict__.update(self.store.__dict__, _link=Watched(), _hints={})
        try:
            return ("value", mine.run(function(program), timeout=0)), numbers
        except (tmem.Timeout, tmem.Stuck):
            return ("retry",), numbers
        except Failed as failed:
            return ("failed", failed.args[0]), numbers

    def check_history(self, programs, found, state):
        """The state behind the transactions in their order. Each came to what the model says of the state before it; each that
        wrote nothing, to what the model says of one of the states."""
        numbers = [next((it for it in seen[1] if it is not None), None) for seen in found]
        states = [state]
        for number, program, (outcome, _) in sorted((it for it in zip(numbers, programs, found) if it[0] is not None), key=lambda it: it[0]):
            wanted, _ = meaning(program, states[-1])
            self.assertEqual(outcome, wanted[:2])
            states.append(wanted[2])
        for number, program, (outcome, settles) in zip(numbers, programs, found):
            if number is None and not settles:
                self.assertIn(outcome, [meaning(program, it)[0][:2] for it in states])
        return states[-1]


if __name__ == "__main__":
    unittest.main()
