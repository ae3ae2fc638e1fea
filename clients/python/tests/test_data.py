"""Transactions as data, which the store runs by itself, and requests as they are."""

import asyncio
import unittest

from support import StoreCase, tmem


class Data(StoreCase):
    """Transactions that the store runs by itself."""

    BUMP = {"seq": [{"put": [1, 1]}, {"read": [0, 0]}, {"step": ["add", [0, 1], 0]}, {"write": [0, 0]}]}

    def test_do_and_try(self):
        done = self.store.do(self.BUMP)
        self.assertEqual((done.committed, done.number, list(done.registers)), (True, 0, [1, 1]))
        seen = self.store.do({"read": [0, 3]})
        self.assertEqual((seen.committed, seen.number, list(seen.registers)), (False, 1, [0, 0, 0, 1]))
        self.assertIsNone(self.store.try_once("retry"))
        with self.assertRaises(tmem.Aborted) as caught:
            self.store.do({"abort": 9})
        self.assertEqual(caught.exception.code, 9)
        with self.assertRaises(tmem.Timeout):
            self.store.do("retry", timeout=0.02)
        self.until_waiting(0)
        with self.assertRaises(tmem.Fault) as caught:
            self.store.do({"put": [16, 1]})
        self.assertEqual((caught.exception.number, caught.exception.word, caught.exception.cause), (12, "badplan", 5))
        self.assertRegex(str(caught.exception), "^fault 12 badplan 5: .*register")
        with self.assertRaises(tmem.NoRequest) as caught:
            self.store.do({"put": [1]})

    def test_in_an_event_loop(self):
        take = {"seq": [{"read": [1, 0]}, {"when": [0, "skip", "retry"]}, {"write": [1, 1]}]}

        async def main():
            self.store.keep("bump", self.BUMP)
            self.assertEqual(await self.store.do_async(self.BUMP), tmem.Outcome(True, 0, [1, 1]))
            self.assertEqual(await self.store.call_async("bump", 41), tmem.Outcome(True, 1, [42, 41]))
            self.assertEqual((await self.store.get_async("a"), await self.store.get_async("a", 0, "b")), (42, (42, 42, 0)))
            self.assertEqual(await self.store.do_async({"read": [0, 3]}, timeout=60), tmem.Outcome(False, 2, [0, 0, 0, 42]))
            with self.assertRaises(tmem.NoRequest):
                await self.store.call_async("bump", 1, 2, 3)
            with self.assertRaises(tmem.Aborted):
                await self.store.do_async({"abort": 9})
            with self.assertRaises(KeyError):
                await self.store.get_async("nope")
            for call in (self.store.do_async, self.store.call_async):
                self.store.keep("take", take)
                what = take if call == self.store.do_async else "take"
                # What waits lets others run, and is taken back behind its time, or with its task.
                with self.assertRaises(tmem.Timeout):
                    await call(what, timeout=0.02)
                cancelled, waiter = asyncio.create_task(call(what)), asyncio.create_task(call(what))
                await asyncio.sleep(0.05)
                cancelled.cancel()
                with self.assertRaises(asyncio.CancelledError):
                    await cancelled
                self.until_waiting(1)
                await self.store.do_async({"seq": [{"put": [0, 1]}, {"write": [1, 0]}]})
                self.assertTrue((await waiter).committed)
                self.assertEqual(await self.store.get_async("b"), 0)

        asyncio.run(main())
        self.until_waiting(0)

    def test_many_are_on_their_way_at_once(self):
        answers = [self.store.submit({"do": self.BUMP}) for _ in range(500)]
        self.assertEqual([it.result()["committed"] for it in answers], [*range(500)])
        self.assertEqual((self.store.get("a"), self.store.durable()), (500, 500))

    def test_what_is_sent_and_what_is_answered_do_not_wait_for_each_other(self):
        # Both are more than the pipes hold, and than is read at once.
        answers = [self.store.submit({"get": [0, 1, 2, 3]}) for _ in range(5000)]
        self.assertEqual({len(it.result(100)["values"]) for it in answers}, {4})

    def test_kept_transactions_share_flushes(self):
        with self.assertRaisesRegex(tmem.NoRequest, "nothing is kept"):
            self.store.call("bump")
        self.store.keep("bump", self.BUMP)
        self.assertEqual(list(self.store.call("bump").registers), [1, 1])
        self.assertEqual(list(self.store.call("bump", 41).registers), [42, 41])
        answers = [self.store.submit(tmem.calling("bump", by)) for by in range(500)]
        self.assertEqual([it.result()["committed"] for it in answers], [*range(2, 502)])
        self.assertEqual(self.store.get("a"), 42 + sum(range(500)))
        self.store.checkpoint()
        stats = self.store.stats()
        self.assertEqual((stats["committed"], stats["kept"]), (502, 1))
        self.assertLess(stats["flushes"], 502)

    def test_a_line_that_is_no_request_finds_who_sent_it(self):
        good = [self.store.submit({"get": [0]}) for _ in range(3)]
        bad = self.store.submit({"get": ["x"]})
        more = self.store.submit({"get": [1]})
        self.assertEqual([it.result()["values"] for it in good], [[[0, 0]]] * 3)
        with self.assertRaises(tmem.NoRequest):
            bad.result()
        self.assertEqual(more.result()["values"], [[1, 0]])

    def test_what_is_no_json_is_not_sent(self):
        with self.assertRaises(TypeError):
            self.store.keep("x", {1, 2})
        with self.assertRaises(ValueError):
            self.store.submit({"id": 1, "get": [0]})
        for number, error in ((1.5, TypeError), ("1", TypeError), (True, TypeError), (2**63, OverflowError)):
            with self.assertRaises(error):
                self.store.call("bump", 1, number)
        # None of these was counted as a line: the next line that is no request still finds who sent it.
        with self.assertRaises(tmem.NoRequest):
            self.store.submit({"do": {"put": [0]}}).result(timeout=20)


if __name__ == "__main__":
    unittest.main()
