"""What calls return: the number of a transaction beside its result, and answers that are no success."""

import asyncio
import copy
import pickle
import unittest
from concurrent.futures import ProcessPoolExecutor

from support import HubCase, StoreCase, tmem


def add(t, by=1):
    t["a"] += by
    return t["a"]


class Errors(unittest.TestCase):
    ERRORS = [
        tmem.TmemError("why"),
        tmem.Refused("solvent", {"a": -1, 7: 2}),
        tmem.Aborted(9),
        tmem.Fault(12, "badplan", 5, "a register that there is not"),
        tmem.NoRequest("there is no id", "/do"),
        tmem.Closed("the store is closed"),
        tmem.NotOpened("a.store", "tmem: fault 2 device", 1, ", which is not there"),
        tmem.Exists("a.store", "cannot create a.store: something is there already"),
        tmem.NoProgram("/nothing/here", "No such file or directory"),
        tmem.Timeout("the time was over"),
        tmem.Stuck("it had read nothing"),
    ]

    def test_they_are_all(self):
        kinds = {it for it in vars(tmem).values() if isinstance(it, type) and issubclass(it, BaseException)}
        self.assertEqual({type(it) for it in self.ERRORS}, kinds)

    def test_they_go_to_other_processes(self):
        for it in self.ERRORS:
            again = [pickle.loads(pickle.dumps(it, protocol)) for protocol in range(pickle.HIGHEST_PROTOCOL + 1)]
            for other in (*again, copy.copy(it), copy.deepcopy(it)):
                with self.subTest(it=it):
                    self.assertEqual((type(other), str(other), other.args, vars(other)), (type(it), str(it), it.args, vars(it)))

    def test_a_pool_of_processes_raises_them(self):
        with ProcessPoolExecutor(1) as pool:
            for it in self.ERRORS:
                with self.assertRaises(type(it)) as caught:
                    pool.submit(raises, it).result(60)
                self.assertEqual(vars(caught.exception), vars(it))


def raises(error):
    raise error


class Numbered(StoreCase):
    def test_the_number_is_the_one_of_the_commit(self):
        self.assertEqual(self.store.run_numbered(add), tmem.Outcome(committed=True, number=0, result=1))
        self.set(b=1)
        self.assertEqual(self.store.run_numbered(add, by=5), tmem.Outcome(committed=True, number=2, result=6))
        # It is what the store gave the same transaction as data.
        done = self.store.do({"seq": [{"put": [0, 7]}, {"write": [0, 0]}]})
        self.assertEqual((done.committed, done.number, done.registers, done.result), (True, 3, [7], None))
        self.assertEqual(self.store.run_numbered(add).number, 4)

    def test_what_commits_meanwhile_comes_before_it(self):
        def body(t):
            t["a"] += 1
            # (it reads nothing of this, so it meets no conflict)
            self.set(x=1)

        self.assertEqual(self.store.run_numbered(body), tmem.Outcome(True, 1))
        self.assertEqual(self.store.run_numbered(lambda t: t.__setitem__("a", 3)), tmem.Outcome(True, 2))

    def test_numbers_grow_from_opening_to_opening(self):
        before = self.store.run_numbered(add).number
        self.store.close()
        self.store = self.open()
        self.assertEqual(self.store.run_numbered(add), tmem.Outcome(True, before + 1, result=2))

    def test_one_that_only_reads_has_the_count_before_it(self):
        self.set(a=7)
        self.set(b=8)
        seen = self.store.run_numbered(lambda t: (t["a"], t["b"]))
        self.assertEqual(seen, tmem.Outcome(committed=False, number=2, result=(7, 8)))
        # So the store answers the same transaction as data, and to what settles nothing.
        data = self.store.do({"seq": [{"read": [0, 0]}, {"read": [1, 1]}]})
        self.assertEqual((data.committed, data.number, list(data.registers)), (False, 2, [7, 8]))
        self.assertEqual(self.store.submit({"settle": {"reads": [[0, 7]]}}).result()["seen"], 2)
        # The next one gets this number.
        self.assertEqual(self.store.run_numbered(add).number, 2)

    def test_one_that_reads_nothing(self):
        self.set(a=7)
        self.assertEqual(self.store.run_numbered(lambda t: "nothing"), tmem.Outcome(False, 1, result="nothing"))
        self.assertEqual(asyncio.run(self.store.run_numbered_async(lambda t: "nothing")), tmem.Outcome(False, 1, result="nothing"))
        # (without a number nothing is asked for)
        sent = self.watch()
        self.assertEqual(self.store.run(lambda t: "nothing"), "nothing")
        self.assertEqual(sent, [])

    def test_what_it_read_last_counts(self):
        def body(t):
            a = t["a"]
            if not seen:
                seen.append(a)
                self.set(x=1)
                self.set(x=2)
            return a, t["x"]

        seen = []
        # It has its place behind both, since its values of both variables are those from there.
        self.assertEqual(self.store.run_numbered(body), tmem.Outcome(False, 2, result=(0, 2)))

    def test_one_that_began_anew_has_the_later_moment(self):
        def body(t):
            x = t["x"]
            if not seen:
                seen.append(x)
                self.set(x=1, y=1)
            return x, t["y"]

        seen = []
        self.assertEqual(self.store.run_numbered(body), tmem.Outcome(False, 1, result=(1, 1)))

    def test_one_that_waited(self):
        def look(t):
            return t["b"] or t.retry()

        def take(t):
            t["b"] = look(t) - 1
            return t["b"]

        # Behind the transactions 0 and 1; and behind 2 to 4, of which the last wakes it.
        for body, wanted in ((look, tmem.Outcome(False, 2, result=5)), (take, tmem.Outcome(True, 5, result=4))):
            waiter = self.in_thread(self.store.run_numbered, body)
            self.until_waiting(1)
            self.set(x=1)
            self.set(b=5)
            self.assertEqual(waiter.result(), wanted)
            if body is look:
                self.set(b=0)

    def test_a_conflict_has_the_number_of_the_last_run(self):
        def body(t):
            t["a"] += 1
            if not seen:
                seen.append(1)
                self.set(a=10)
            return t["a"]

        seen = []
        self.assertEqual(self.store.run_numbered(body), tmem.Outcome(True, 1, result=11))

    def test_a_choice(self):
        def near(t):
            if t["x"] == 0:
                t.retry()
            t["x"] -= 1
            return "near"

        def far(t):
            if t["y"] == 0:
                t.retry()
            return "far"

        either = tmem.or_else(near, far)
        self.set(y=1)
        self.assertEqual(self.store.run_numbered(either), tmem.Outcome(False, 1, result="far"))
        self.set(x=1)
        self.assertEqual(self.store.run_numbered(either), tmem.Outcome(True, 2, result="near"))
        self.set(y=0)
        with self.assertRaises(tmem.Timeout):
            self.store.run_numbered(either, timeout=0.02)
        waiter = self.in_thread(self.store.run_numbered, either, timeout=60)
        self.until_waiting(1)
        self.set(x=1)
        self.assertEqual(waiter.result(), tmem.Outcome(True, 5, result="near"))

    def test_checks_and_errors(self):
        self.assertEqual(self.store.run_numbered(lambda t: t.check("solvent")), tmem.Outcome(True, 0, result=None))
        with self.assertRaises(tmem.Refused):
            self.store.run_numbered(add, -1)
        with self.assertRaises(tmem.Aborted):
            self.store.run_numbered(lambda t: t.abort(1))
        with self.assertRaises(ZeroDivisionError):
            self.store.run_numbered(lambda t: 1 // t["a"])
        self.assertEqual(self.store.run_numbered(add).number, 1)

    def test_in_an_event_loop(self):
        async def main():
            adds = await asyncio.gather(*(self.store.run_numbered_async(add) for _ in range(5)))
            return adds, await self.store.run_numbered_async(lambda t: t["a"])

        adds, look = asyncio.run(main())
        # The first that committed has the number 0, and found 0.
        self.assertEqual(sorted((it.number, it.result, it.committed) for it in adds), [(k, k + 1, True) for k in range(5)])
        self.assertEqual(look, tmem.Outcome(False, 5, result=5))

    def test_arguments_named_like_its_own(self):
        def body(t, number, committed=None):
            return number, committed

        self.assertEqual(self.store.run_numbered(body, number=3, committed=4).result, (3, 4))


class NumberedByHub(HubCase):
    def test_clients_have_one_count(self):
        stores = [self.store, self.open()]
        found = [stores[k % 2].run_numbered(add).number for k in range(6)]
        self.assertEqual(found, [*range(6)])


class Submitted(StoreCase):
    def test_what_is_no_request_raises(self):
        cases = [({"get": ["x"]}, "/get/0"), ({"get": [99]}, "/get/0"), ({"ask": "nothing"}, "/ask"), ({"do": {"put": [0]}}, "/do/put")]
        cases.append(({"nothing": 1}, ""))
        answers = [self.store.submit(ask) for ask, _ in cases]
        for (ask, at), answer in zip(cases, answers):
            with self.subTest(ask=ask), self.assertRaises(tmem.NoRequest) as caught:
                answer.result(60)
            self.assertIsInstance(answer.exception(), tmem.NoRequest)
            self.assertTrue(caught.exception.why)
            self.assertTrue(caught.exception.at.startswith(at), caught.exception.at)

    def test_answers_are_as_they_came(self):
        self.set(a=1)
        for ask, answer in (
            ({"get": [0]}, {"count": 1, "values": [[0, 1]]}),
            ({"try": "retry"}, {"retry": True}),
            ({"do": {"abort": 3}}, {"aborted": 3}),
            ({"run": "nothing"}, {"found": False}),
            ({"settle": {"reads": [[0, 5]]}}, {"fault": 7, "word": "conflict"}),
            ({"settle": {"writes": [[0, -1]], "check": ["solvent"]}}, {"refused": "solvent", "because": [[0, -1]]}),
        ):
            found = self.store.submit(ask).result(60)
            self.assertEqual({key: value for key, value in found.items() if key != "id"}, answer)

    def test_what_has_no_answer_raises(self):
        answer = self.store.submit({"do": "retry"})
        self.store._link.stream.process.kill()
        with self.assertRaises(tmem.Closed):
            answer.result(60)


if __name__ == "__main__":
    unittest.main()
