"""The program itself, over its two pipes: its limits, and clients that die, send what is no text, or never read."""

import json
import os
import select
import subprocess
import tempfile
import time
import unittest

from support import PROGRAM, tmem

SHAPE = {
    "vars": 1024,
    "slots": 4,
    "invariants": [
        {"name": "solvent", "sum": [[1, 0]], "least": 0},
        {"name": "always", "sum": [[1, 1]], "least": 0, "always": True},
        *({"name": f"other{letter}", "sum": [[1, 2]], "least": -5} for letter in "abcdefghij"),
    ],
    "names": {"alice": 0},
}
ADD = {"seq": [{"put": [1, 1]}, {"read": [0, 0]}, {"step": ["add", [0, 1], 0]}, {"write": [0, 0]}]}


class ServeCase(unittest.TestCase):
    def setUp(self):
        room = tempfile.TemporaryDirectory()
        self.addCleanup(room.cleanup)
        self.path = os.path.join(room.name, "store")
        tmem.create(self.path, SHAPE)
        self.start()

    def start(self):
        self.process = subprocess.Popen([PROGRAM, "serve", self.path], stdin=subprocess.PIPE, stdout=subprocess.PIPE, stderr=subprocess.PIPE)
        self.addCleanup(self.stop, self.process)
        self.first = json.loads(self.process.stdout.readline())

    @staticmethod
    def stop(process):
        if process.poll() is None:
            process.kill()
        for pipe in (process.stdin, process.stdout, process.stderr):
            try:
                pipe.close()
            except OSError:
                pass
        process.wait()

    def send(self, *lines):
        for line in lines:
            self.process.stdin.write(line if isinstance(line, bytes) else json.dumps(line).encode())
            self.process.stdin.write(b"\n")
        self.process.stdin.flush()

    def answer(self):
        return json.loads(self.process.stdout.readline())

    def ask(self, line):
        self.send(line)
        return self.answer()

    def end(self):
        """The rest of the answers, and the status."""
        self.process.stdin.close()
        rest = [json.loads(line) for line in self.process.stdout]
        return rest, self.process.wait()

    def values(self, *variables):
        return [value for _, value in self.ask({"id": 0, "get": list(variables)})["values"]]

    def refused(self, line):
        """What a line is answered that is no request, without its number."""
        it = self.ask(line)
        self.assertEqual((it.get("fault"), it.get("word")), (0, "norequest"), it)
        self.assertEqual({*it}, {"line", "fault", "word", "why", "at"})
        return it


class Lines(ServeCase):
    def test_the_first_line(self):
        # (one transaction registers the invariant that always holds)
        self.assertEqual(self.first, {"opened": 1, "vars": 1024, "names": {"alice": 0}})
        self.assertEqual(self.end(), ([], 0))

    def test_the_last_line_may_lack_its_break(self):
        self.process.stdin.write(b'{"id":1,"settle":{"writes":[[0,5]]}}\n{"id":2,"get":[0]}')
        answers, status = self.end()
        self.assertEqual((answers[1]["values"], status), ([[0, 5]], 0))

    def test_pieces_of_a_line(self):
        for piece in (b'{"id":7,', b'"get"', b":[0", b"]}\n"):
            self.process.stdin.write(piece)
            self.process.stdin.flush()
            time.sleep(0.02)
        self.assertEqual(self.answer(), {"id": 7, "count": 1, "values": [[0, 0]]})

    def test_the_length_of_a_line(self):
        line = b'{"id":1,"get":[0]}'
        self.assertIn("values", self.ask(line + b" " * (65536 - len(line))))
        self.refused(line + b" " * (65537 - len(line)))
        self.refused(b"x" * 1_000_000)
        self.assertEqual(self.ask(line)["id"], 1)

    def test_what_is_no_text(self):
        for line in (b"\xff\xfe{}", b'{"id":1,"keep":["\xc3","skip"]}', b"\0", b'{"id":1,"ask":"\xed\xa0\x80"}', b"\xef\xbb\xbf{}"):
            with self.subTest(line=line):
                self.refused(line)
        self.assertEqual(self.values(0), [0])

    def test_the_number_of_a_line(self):
        self.send(b"", b"x", {"id": 1, "get": [0]}, {"id": 1, "get": [1024]}, b"[]")
        found = [self.answer() for _ in range(5)]
        self.assertEqual([it.get("line") for it in found], [1, 2, None, 4, 5])
        self.assertEqual((found[3]["at"], found[4]["at"]), ("/get/0", ""))

    def test_any_order_of_keys_and_the_last_of_a_key(self):
        self.assertEqual(self.ask(b'{"get":[0],"id":3}')["id"], 3)
        self.assertEqual(self.ask(b'{"id":4,"get":[9999],"get":[1],"id":5}'), {"id": 5, "count": 1, "values": [[1, 0]]})
        for id in (2**63 - 1, -(2**63)):
            self.assertEqual(self.ask({"id": id, "get": [0]})["id"], id)
        self.refused({"id": 2**63, "get": [0]})


class Requests(ServeCase):
    def test_limits_of_a_settle(self):
        def settle(**parts):
            return {"id": 1, "settle": parts}

        others = [f"other{letter}" for letter in "abcdefghij"]
        good = [
            settle(),
            settle(reads=[[k, 0] for k in range(500)]),
            settle(writes=[[k, 1] for k in range(960, 1024)]),
            settle(check=others[:8]),
            settle(retire=others[:8]),
            settle(writes=[[0, 2**63 - 1], [1, 0]]),
        ]
        for line in good:
            it = self.ask(line)
            self.assertTrue({"committed", "seen"} & {*it}, it)
        bad = [
            settle(reads=[[k, 0] for k in range(501)]),
            settle(writes=[[k, 1] for k in range(65)]),
            settle(check=others[:9]),
            settle(retire=others[:9]),
            settle(reads=[[0, 0], [0, 0]]),
            settle(writes=[[0, 0], [0, 1]]),
            settle(check=["solvent", "solvent"]),
            settle(check=["solvent"], retire=["solvent"]),
            settle(retire=["always"]),
            settle(check=["unknown"]),
            settle(writes=[[1024, 1]]),
            settle(writes=[[0, 2**63]]),
            settle(writes=[[0, 1.5]]),
            settle(read=[]),
        ]
        for line in bad:
            with self.subTest(line=str(line)[:60]):
                self.refused(line)

    def test_what_always_holds_is_not_retired(self):
        for key, tx in (("do", {"retire": "always"}), ("try", {"orelse": ["skip", {"seq": [{"retire": "always"}]}]})):
            self.refused({"id": 1, key: tx})
        self.assertEqual(self.ask({"id": 1, "settle": {"writes": [[1, -1]]}})["refused"], "always")
        self.assertEqual(self.ask({"id": 1, "ask": "state"})["names"], ["always"])

    def test_a_refusal_and_a_conflict_change_nothing(self):
        self.assertEqual(self.ask({"id": 1, "settle": {"check": ["solvent"], "writes": [[0, 5]]}})["committed"], 1)
        refused = {"id": 2, "refused": "solvent", "because": [[0, -7]]}
        self.assertEqual(self.ask({"id": 2, "settle": {"writes": [[0, -7], [2, 1]]}}), refused)
        conflict = self.ask({"id": 3, "settle": {"reads": [[0, 4]], "writes": [[2, 1]]}})
        self.assertEqual(conflict, {"id": 3, "fault": 7, "word": "conflict"})
        self.assertEqual(self.values(0, 2), [5, 0])
        self.assertEqual(self.ask({"id": 4, "ask": "state"})["count"], 2)

    def test_transactions_as_data(self):
        self.assertEqual(self.ask({"id": 1, "do": ADD}), {"id": 1, "committed": 1, "registers": [1, 1]})
        self.assertEqual(self.ask({"id": 2, "try": {"read": [0, 2]}}), {"id": 2, "seen": 2, "registers": [0, 0, 1]})
        self.assertEqual(self.ask({"id": 3, "try": "retry"}), {"id": 3, "retry": True})
        self.assertEqual(self.ask({"id": 4, "do": {"abort": 77}}), {"id": 4, "aborted": 77})
        self.assertEqual(self.ask({"id": 5, "do": {"put": [16, 1]}})["cause"], 5)
        self.assertEqual(self.ask({"id": 6, "ask": "look"}), {"id": 6, "durable": 2})
        self.assertEqual(self.ask({"id": 7, "ask": "checkpoint"}), {"id": 7, "checkpointed": True})

    def test_those_that_wait(self):
        wait = {"seq": [{"read": [0, 0]}, {"when": [0, "skip", "retry"]}]}
        self.send({"id": 1, "do": wait}, {"id": 2, "changed": [[0, 0], [5, 0]]}, {"id": 3, "changed": [[5, 0]]}, {"id": 4, "get": [0]})
        self.assertEqual(self.answer()["id"], 4)
        self.send({"id": 5, "do": ADD})
        found = [self.answer() for _ in range(3)]
        self.assertEqual([it["id"] for it in found], [5, 1, 2])
        self.assertEqual((found[1]["seen"], found[2]["values"]), (2, [[0, 1], [5, 0]]))
        self.assertEqual(self.ask({"id": 6, "changed": [[0, 0]]}), {"id": 6, "count": 2, "values": [[0, 1]]})
        self.send({"id": 7, "cancel": 3}, {"id": 8, "cancel": 3})
        found = [self.answer() for _ in range(3)]
        self.assertEqual([it for it in found if it["id"] == 3], [{"id": 3, "cancelled": True}])
        self.assertEqual([it for it in found if it["id"] != 3], [{"id": 7, "found": True}, {"id": 8, "found": False}])

    def test_one_that_waits_wakes_another(self):
        def moves(here, there):
            return {"seq": [{"read": [here, 0]}, {"when": [0, "skip", "retry"]}, {"put": [1, 0]}, {"write": [here, 1]}, {"write": [there, 0]}]}

        self.send({"id": 1, "do": moves(6, 7)}, {"id": 2, "do": moves(5, 6)}, {"id": 3, "settle": {"writes": [[5, 9]]}})
        found = [self.answer() for _ in range(3)]
        self.assertEqual([(it["id"], it["committed"]) for it in found], [(3, 1), (2, 2), (1, 3)])
        self.assertEqual(self.values(5, 6, 7), [0, 0, 9])

    def test_how_many_may_wait(self):
        self.send(*({"id": k, "changed": [[0, 0]]} for k in range(1024)))
        self.assertEqual(self.ask({"id": 2000, "changed": [[0, 0]]}), {"id": 2000, "fault": 5, "word": "full"})
        self.assertEqual(self.ask({"id": 2001, "do": "retry"}), {"id": 2001, "fault": 5, "word": "full"})
        self.assertEqual(self.ask({"id": 2002, "do": ADD})["committed"], 1)
        self.assertEqual([self.answer()["id"] for _ in range(1024)], [*range(1024)])
        self.send({"id": 1, "changed": [[0, 1]]}, {"id": 2, "get": [0]})
        self.assertEqual(self.answer()["id"], 2)
        answers, status = self.end()
        self.assertEqual((answers, status), ([{"id": 1, "fault": 3, "word": "closed"}], 0))

    def test_many_transactions_at_once(self):
        self.send(*({"id": k, "do": ADD} for k in range(1000)))
        found = [self.answer() for _ in range(1000)]
        self.assertEqual([(it["id"], it["committed"], it["registers"][0]) for it in found], [(k, k + 1, k + 1) for k in range(1000)])


class Kept(ServeCase):
    def test_keep_and_run(self):
        self.assertEqual(self.ask({"id": 1, "run": "bump"}), {"id": 1, "found": False})
        self.assertEqual(self.ask({"id": 2, "keep": ["bump", ADD]}), {"id": 2, "kept": "bump"})
        self.assertEqual(self.ask({"id": 3, "run": "bump"})["registers"], [1, 1])
        self.assertEqual(self.ask({"id": 4, "run": "bump", "numbers": [41]})["registers"], [42, 41])
        self.assertEqual(self.ask({"id": 5, "run": "bump"})["registers"], [43, 1])
        self.assertEqual(self.ask({"id": 6, "run": "bump", "numbers": [1, 2]}), {"id": 6, "found": False})
        self.assertEqual(self.ask({"id": 7, "keep": ["bump", "skip"]}), {"id": 7, "kept": "bump"})
        self.assertEqual(self.ask({"id": 8, "run": "bump"}), {"id": 8, "seen": 4, "registers": []})
        self.assertEqual(self.ask({"id": 9, "keep": ["bump", {"put": [16, 0]}]})["cause"], 5)

    def test_how_many_are_kept(self):
        words = [a + b for a in "abcdefghijklmnop" for b in "abcdefghijklmnop"][:256]
        for word in words:
            self.assertEqual(self.ask({"id": 1, "keep": [word, "skip"]}), {"id": 1, "kept": word})
        self.assertEqual(self.ask({"id": 1, "keep": ["zz", "skip"]}), {"id": 1, "fault": 5, "word": "full"})
        self.assertEqual(self.ask({"id": 1, "keep": [words[7], ADD]}), {"id": 1, "kept": words[7]})

    def test_one_that_is_kept_waits_too(self):
        need = {"seq": [{"put": [1, 3]}, {"read": [0, 0]}, {"step": ["need", [0, 1], 2]}]}
        self.ask({"id": 1, "keep": ["need", need]})
        self.send({"id": 2, "run": "need", "numbers": [2]}, {"id": 3, "do": ADD})
        self.assertEqual(self.answer()["id"], 3)
        # What is kept under the word later changes nothing for one that waits.
        self.ask({"id": 4, "keep": ["need", "skip"]})
        self.send({"id": 5, "do": ADD})
        self.assertEqual([self.answer() for _ in range(2)][1], {"id": 2, "seen": 3, "registers": [2, 2, 2]})

    def test_the_counts(self):
        self.ask({"id": 1, "do": ADD})
        self.ask({"id": 1, "keep": ["add", ADD]})
        self.ask({"id": 1, "settle": {"reads": [[0, 7]]}})
        self.ask({"id": 1, "settle": {"writes": [[1, -1]]}})
        self.send({"id": 9, "do": "retry"})
        self.ask({"id": 1, "ask": "checkpoint"})
        stats = self.ask({"id": 1, "ask": "stats"})["stats"]
        wanted = {"committed": 1, "refused": 1, "conflicts": 1, "waiting": 1, "kept": 1, "checkpoints": 1}
        self.assertEqual({key: stats[key] for key in wanted}, wanted)
        self.assertEqual({*stats}, {*wanted, "flushes", "free_slots"})


class Ends(ServeCase):
    def test_a_client_that_dies_in_a_line(self):
        self.assertEqual(self.ask({"id": 1, "do": ADD})["committed"], 1)
        self.process.stdin.write(b'{"id":2,"settle":{"writes":[[0,9]')
        answers, status = self.end()
        self.assertEqual((answers[0]["line"], len(answers), status), (2, 1, 0))
        self.start()
        self.assertEqual((self.first["opened"], self.values(0)), (2, [1]))

    def test_what_was_answered_outlives_a_kill(self):
        count = 0
        for _ in range(5):
            self.assertEqual(self.ask({"id": 1, "do": ADD})["committed"], count + 1)
            self.send({"id": 2, "do": "retry"}, {"id": 3, "do": ADD}, {"id": 4, "do": ADD})
            self.process.kill()
            self.process.wait()
            self.start()
            # The two that were not answered are there, or not.
            found = self.values(0)[0]
            self.assertIn(found, (count + 1, count + 2, count + 3))
            self.assertEqual(self.first["opened"], found + 1)
            count = found

    def test_a_client_that_never_reads_holds_up_its_own_server_alone(self):
        other = self.path + ".other"
        tmem.create(other, SHAPE)
        line = json.dumps({"id": 1, "do": ADD}).encode() + b"\n"
        os.set_blocking(self.process.stdin.fileno(), False)
        sent, idle = 0, 0
        while idle < 10:
            # (nothing can be sent for a second: both pipes are full)
            if select.select([], [self.process.stdin], [], 0.1)[1]:
                try:
                    sent += os.write(self.process.stdin.fileno(), (line * 200)[sent % len(line) :])
                    idle = 0
                except BlockingIOError:
                    idle += 1
            else:
                idle += 1
        with tmem.open(other) as store:
            self.assertEqual(store.do(ADD).registers[0], 1)
        # It reads at last, and finds an answer to each line.
        whole, rest = divmod(sent, len(line))
        os.set_blocking(self.process.stdin.fileno(), True)
        count = 0
        for answer in self.process.stdout:
            count += 1
            self.assertEqual(json.loads(answer)["committed"], count)
            if count == whole:
                break
        # (what was sent of the last line is no request)
        answers, status = self.end()
        self.assertEqual(([it["line"] for it in answers], status), ([whole + 1] if rest else [], 0))

    def test_a_client_that_goes_away_without_reading(self):
        line = json.dumps({"id": 1, "do": ADD}).encode() + b"\n"
        os.write(self.process.stdin.fileno(), line * 600)
        self.process.stdout.close()
        self.process.stdin.close()
        # (it may have printed all before)
        self.assertIn(self.process.wait(60), (0, 1))
        self.start()
        self.assertEqual(self.values(0), [self.first["opened"] - 1])

    def test_one_process_has_the_store(self):
        for words in (["serve", self.path], ["init", self.path, f"{self.path}.json"]):
            ended = subprocess.run([PROGRAM, *words], stdin=subprocess.DEVNULL, stdout=subprocess.PIPE, stderr=subprocess.PIPE, check=False)
            self.assertEqual((ended.returncode, ended.stdout), (1, b""))
            self.assertIn(b"tmem: ", ended.stderr)
        self.assertEqual(self.ask({"id": 1, "do": ADD})["committed"], 1)


if __name__ == "__main__":
    unittest.main()
