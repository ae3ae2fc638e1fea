"""Making and opening a store: what may be there, and what is told where it cannot be done."""

import json
import os
import shutil
import signal
import socket
import tempfile
import unittest

from support import PROGRAM, SHAPE, HubCase, InThread, StoreCase, tmem


class Making(StoreCase):
    def create(self, path, shape=SHAPE, **more):
        tmem.create(path, shape, exist_ok=True, **more)

    def written(self, path, text):
        with open(path, "w", encoding="utf-8") as file:
            file.write(text)

    def read(self, path):
        with open(path, "rb") as file:
            return file.read()

    def test_a_service_that_starts_again_finds_its_store(self):
        path = f"{self.folder}/service.store"
        for count in range(3):
            self.create(path)
            with tmem.open(path) as store:
                self.assertEqual(store.get("a"), count)
                store.run(lambda t: t.__setitem__("a", t["a"] + 1))

    def test_a_store_of_the_same_shape_is_left_as_it_is(self):
        self.set(a=5)
        # (it may be open, and no program is started)
        before = self.read(self.path), self.read(f"{self.path}.json")
        self.create(self.path, program="/nothing/here")
        self.assertEqual((self.read(self.path), self.read(f"{self.path}.json")), before)
        self.assertEqual(self.store.get("a"), 5)

    def test_shapes_are_compared_as_json(self):
        same = json.dumps(dict(reversed(SHAPE.items())), indent=3).replace('"held"', '"\\u0068eld"')
        self.written(f"{self.path}.json", same)
        self.create(self.path)
        self.create(self.path, {**SHAPE, "invariants": tuple(SHAPE["invariants"])})
        self.assertEqual(self.read(f"{self.path}.json").decode(), same)

    def test_another_shape_is_refused_with_the_difference(self):
        solvent, balanced = SHAPE["invariants"]
        cases = [
            ({"vars": 9}, "has 8 at /vars, where the one given has 9"),
            ({"vars": 8.0}, "has 8 at /vars, where the one given has 8.0"),
            ({"names": {**SHAPE["names"], "held": 5}}, "has 4 at /names/held, where the one given has 5"),
            ({"names": {**SHAPE["names"], "more": 5}}, "has nothing at /names/more, where the one given has 5"),
            ({"names": {"a": 0, "b": 1, "x": 2, "y": 3}}, "has 4 at /names/held, where the one given has nothing"),
            ({"invariants": [solvent]}, 'at /invariants/1, where the one given has nothing'),
            ({"invariants": [balanced, solvent]}, 'has nothing at /invariants/0/most, where the one given has 0'),
            ({"invariants": [{**solvent, "least": True}, balanced]}, "has 0 at /invariants/0/least, where the one given has true"),
            ({"invariants": [{**solvent, "always": True}, balanced]}, "has nothing at /invariants/0/always, where the one given has true"),
            ({"invariants": {}}, "at /invariants, where the one given has {}"),
        ]
        self.set(a=5)
        before = self.read(self.path), self.read(f"{self.path}.json")
        for change, why in cases:
            with self.subTest(change=change), self.assertRaises(tmem.TmemError) as caught:
                self.create(self.path, {**SHAPE, **change})
            told = str(caught.exception)
            self.assertTrue(told.startswith(f"cannot create {self.path}: another shape is there already: {self.path}.json "), told)
            self.assertTrue(told.endswith(why), told)
        self.assertEqual((self.read(self.path), self.read(f"{self.path}.json")), before)

    def test_a_store_without_its_shape_is_refused(self):
        beside = f"{self.path}.json"
        self.written(beside, "{")
        with self.assertRaisesRegex(tmem.TmemError, f"cannot be read: {beside}: this is not JSON"):
            self.create(self.path)
        os.unlink(beside)
        with self.assertRaisesRegex(tmem.TmemError, f"something is there already, and its shape cannot be read: {beside}: No such file"):
            self.create(self.path)

    def test_without_the_keyword_nothing_may_be_there(self):
        self.set(a=5)
        for shape in (SHAPE, {**SHAPE, "vars": 9}):
            for kind in (tmem.Exists, FileExistsError):
                with self.assertRaises(kind) as caught:
                    tmem.create(self.path, shape)
                self.assertEqual(str(caught.exception), f"cannot create {self.path}: tmem: something is there already")
                self.assertEqual(caught.exception.path, self.path)
        self.assertEqual(self.store.get("a"), 5)

    def test_a_program_of_before_says_it_in_other_words(self):
        for said, kind in (("tmem: the store is there already", tmem.Exists), ("tmem: another shape is there already", tmem.TmemError)):
            with self.assertRaisesRegex(tmem.TmemError, said) as caught:
                tmem.create(f"{self.folder}/new.store", SHAPE, program=["sh", "-c", f"echo '{said}' >&2; exit 1"])
            self.assertIs(type(caught.exception), kind)

    def cut_off(self, text):
        """A store of which only the shape got to its place."""
        path = f"{self.folder}/cut.store"
        self.written(f"{path}.json", text)
        return path

    def test_what_was_cut_off_is_finished(self):
        # (as another program may have written it)
        text = json.dumps(SHAPE, indent=1, sort_keys=True) + "\r\n"
        path = self.cut_off(text)
        with self.assertRaisesRegex(tmem.TmemError, "a.* shape is there already"):
            tmem.create(path, SHAPE)
        with self.assertRaisesRegex(tmem.TmemError, "another shape is there already: .* has 8 at /vars"):
            self.create(path, {**SHAPE, "vars": 9})
        self.assertFalse(os.path.exists(path))
        self.create(path)
        self.assertEqual(self.read(f"{path}.json"), text.encode().replace(b"\n", os.linesep.encode()))
        self.assertEqual(self.open(path).get("a"), 0)

    def test_several_make_a_store_at_once(self):
        for turn in range(5):
            path = f"{self.folder}/{turn}.store"
            makers = [self.in_thread(self.create, path) for _ in range(4)]
            for it in makers:
                it.result()
            with tmem.open(path) as store:
                self.assertEqual(store.get("a"), 0)

    def test_another_process_makes_it_meanwhile(self):
        other = f"{self.folder}/other.json"
        self.written(other, json.dumps({**SHAPE, "vars": 9}))
        # (the first call in each is the one of the other process)
        same, another = ['"$0" "$@"; exec "$0" "$@"', f'"$0" init "$2" {other}; exec "$0" "$@"']
        for number, (script, exist_ok, why) in enumerate([(same, True, None), (same, False, "something is there already"), (another, True, "has 9 at /vars")]):
            path, program = f"{self.folder}/{number}.store", ["sh", "-c", script, PROGRAM]
            if why is None:
                tmem.create(path, SHAPE, exist_ok=exist_ok, program=program)
                self.assertEqual(self.open(path).get("a"), 0)
            else:
                with self.assertRaisesRegex(tmem.TmemError, why):
                    tmem.create(path, SHAPE, exist_ok=exist_ok, program=program)

    def test_a_shape_is_changed(self):
        # (as docs/CLIENTS.md says it)
        few = {"name": "few", "sum": [[1, 5, "nonzero"], [1, 6, "nonzero"]], "most": 1}
        shape = {**SHAPE, "invariants": [*SHAPE["invariants"], few], "names": {**SHAPE["names"], "first": 5, "second": 6}}
        self.set(a=7)
        self.store.close()
        self.written(f"{self.path}.json", json.dumps(shape))
        with tmem.open(self.path) as store:
            self.assertEqual((store.get("a", "first"), store.state().names), ((7, 0), []))
            store.run(lambda t: t.check("few"))
        few["always"] = True
        self.written(f"{self.path}.json", json.dumps(shape))
        self.create(self.path, shape)
        store = self.open()
        self.assertEqual((store.state().names, store.get("a")), (["few"], 7))
        with self.assertRaises(tmem.Refused):
            store.run(lambda t: (t.__setitem__("first", 1), t.__setitem__("second", 1)))
        with self.assertRaises(tmem.NoRequest):
            store.run(lambda t: t.retire("few"))

    def test_what_the_program_refuses_is_told_with_the_path(self):
        for path, shape, why in (
            (f"{self.folder}/none/x.store", SHAPE, "tmem: fault 2 device"),
            (f"{self.folder}/x.store", {**SHAPE, "vars": 0}, "tmem: bad shape"),
        ):
            for exist_ok in (False, True):
                with self.subTest(path=path), self.assertRaises(tmem.TmemError) as caught:
                    tmem.create(path, shape, exist_ok=exist_ok)
                told = str(caught.exception)
                self.assertIn(f"cannot create {path}: {why}", told)
                self.assertNotIsInstance(caught.exception, tmem.Exists)
                # (what the program has read is gone again)
                self.assertRegex(told.split("\n")[1], f"^tmem: ({path}|the shape): ")


class NotOpened(StoreCase):
    def refused(self, path, **more):
        with self.assertRaises(tmem.NotOpened) as caught:
            tmem.open(path, **more)
        self.assertIsInstance(caught.exception, tmem.Closed)
        self.assertEqual(caught.exception.path, path)
        return caught.exception

    def explained(self, it, line, why):
        """The program has said this, and more in a second line, which names a path and why."""
        said, more = it.line.split("\n")
        self.assertEqual((said, it.status), (line, 1))
        self.assertRegex(more, f"^tmem: {self.folder}/[^:]*: .*{why}")

    def test_it_is_missing(self):
        path = f"{self.path}.none"
        it = self.refused(path)
        self.explained(it, "tmem: cannot read shape", "nothing has this path")
        self.assertEqual(str(it), f"cannot open {path}, which is not there: {it.line}")
        shutil.copy(f"{self.path}.json", f"{path}.json")
        self.explained(self.refused(path), "tmem: fault 2 device", "")

    def test_it_is_in_use(self):
        it = self.refused(self.path)
        self.explained(it, "tmem: fault 2 device", "another program has it open")
        self.assertEqual(str(it), f"cannot open {self.path}: {it.line}")
        self.assertEqual(self.store.get("a"), 0)

    def test_it_has_another_shape(self):
        self.store.close()
        other = f"{self.folder}/other.json"
        with open(other, "w", encoding="utf-8") as file:
            json.dump({**SHAPE, "vars": 9}, file)
        it = self.refused(self.path, shape=other)
        self.explained(it, "tmem: fault 17 geometry", "")
        with open(other, "w", encoding="utf-8") as file:
            file.write("{}")
        it = self.refused(self.path, shape=other)
        self.assertRegex(it.line, "^tmem: bad shape: ")

    def test_it_is_damaged(self):
        self.store.close()
        with open(self.path, "r+b") as file:
            file.write(b"\xff" * 512)
        it = self.refused(self.path)
        self.explained(it, "tmem: fault 8 notformatted", "")

    def test_a_signal_ends_the_opening(self):
        it = self.refused(self.path, program=["sh", "-c", "kill -9 $$"])
        self.assertEqual((it.line, it.status), ("tmem ended with status -9", -signal.SIGKILL))

    def test_what_ends_later_is_closed_alone(self):
        self.store._link.stream.process.kill()
        with self.assertRaises(tmem.Closed) as caught:
            self.store.do("retry")
        self.assertNotIsInstance(caught.exception, tmem.NotOpened)
        self.store.close()
        with self.assertRaises(tmem.Closed) as caught:
            self.store.get("a")
        self.assertNotIsInstance(caught.exception, tmem.NotOpened)


class NoHub(HubCase):
    def test_there_is_no_hub(self):
        for path, why in ((f"{self.path}.none", "No such file or directory"), (f"{self.path}.json", "Connection refused")):
            with self.assertRaises(tmem.NotOpened) as caught:
                tmem.open(f"unix:{path}")
            it = caught.exception
            self.assertEqual((it.path, it.line, it.status), (f"unix:{path}", f"no hub is there: {why}", None))
            self.assertEqual(str(it), f"cannot open unix:{path}: no hub is there: {why}")


class LostHub(unittest.TestCase):
    """A hub that ends before it has read all: what is left unread resets the connection."""

    FIRST = b'{"opened":0,"vars":1,"names":{}}\n'

    def served(self):
        """The path of a socket that serves until something is asked."""
        folder = tempfile.TemporaryDirectory()
        self.addCleanup(folder.cleanup)
        path, server = f"{folder.name}/sock", socket.socket(socket.AF_UNIX)
        self.addCleanup(server.close)
        server.bind(path)
        server.listen(1)

        def serve():
            client, _ = server.accept()
            client.sendall(self.FIRST)
            # (a look at what is there takes nothing of it)
            client.recv(1, socket.MSG_PEEK)
            client.close()

        self.serving = InThread(serve)
        return path

    def test_what_was_asked_is_told_that_it_is_closed(self):
        store = tmem.open(f"unix:{self.served()}")
        for _ in range(2):
            with self.assertRaises(tmem.Closed) as caught:
                store.get(0)
            self.assertEqual(str(caught.exception), "the hub has closed the connection")
        self.serving.result()


class NoProgram(StoreCase):
    """Each wrong program is told alike where a store is made and where it is opened."""

    def told(self, program, why, named=None):
        path = f"{self.folder}/new.store"
        calls = [lambda: tmem.create(path, SHAPE, program=program), lambda: tmem.open(self.path, program=program)]
        calls.append(lambda: tmem.create(path, SHAPE, exist_ok=True, program=program))
        if isinstance(program, str):
            calls += [lambda: self.by_variable(program, tmem.create, path, SHAPE), lambda: self.by_variable(program, tmem.open, self.path)]
        for number, call in enumerate(calls):
            with self.subTest(program=program, call=number), self.assertRaises(tmem.NoProgram) as caught:
                call()
            self.assertEqual(caught.exception.path, named or program)
            self.assertRegex(caught.exception.why, why)
            self.assertEqual(str(caught.exception), f"cannot start {caught.exception.path}: {caught.exception.why}")
            self.assertFalse(os.path.exists(path))

    def by_variable(self, program, call, *args):
        os.environ["TMEM"] = program
        try:
            call(*args)
        finally:
            os.environ["TMEM"] = PROGRAM

    def test_there_is_none(self):
        self.told(f"{self.folder}/none", "^No such file or directory$")

    def test_it_may_not_run(self):
        path = f"{self.folder}/plain"
        with open(path, "w", encoding="utf-8") as file:
            file.write("#!/bin/sh\n")
        self.told(path, "^Permission denied$")

    def test_it_is_a_folder(self):
        self.told(self.folder, "^it is a folder$")

    def test_it_is_of_another_format(self):
        path = f"{self.folder}/text"
        with open(path, "w", encoding="utf-8") as file:
            file.write("text\n")
        os.chmod(path, 0o755)
        self.told(path, "^Exec format error$")

    def test_it_is_no_tmem(self):
        self.told(shutil.which("true"), "^it is no tmem: it ended with status 0$")
        self.told(shutil.which("false"), "^it is no tmem: it ended with status 1$")
        self.told(shutil.which("cat"), "^it is no tmem: it (ended with status 1, and said .*cat: |printed '.*'$)")
        self.told(shutil.which("echo"), "^it is no tmem: it (ended with status 0|printed 'serve .*')$")
        self.told(["sh", "-c", "exit 7"], "^it is no tmem: it ended with status 7$", "sh")

    def test_it_prints_without_an_end(self):
        with self.assertRaises(tmem.NoProgram) as caught:
            tmem.open(self.path, program=[shutil.which("yes"), "--"])
        self.assertRegex(str(caught.exception), "^cannot start .*yes: it is no tmem: it printed 'serve .*'$")

    def test_none_is_known(self):
        path, folders = os.environ.pop("TMEM"), os.environ["PATH"]
        os.environ["PATH"] = self.folder
        try:
            for call in (lambda: tmem.open(self.path), lambda: tmem.create(f"{self.folder}/new.store", SHAPE)):
                with self.assertRaises(tmem.NoProgram) as caught:
                    call()
                self.assertEqual(str(caught.exception), "cannot start tmem: give program=.., set TMEM, or put it on the path")
        finally:
            os.environ["TMEM"], os.environ["PATH"] = path, folders


if __name__ == "__main__":
    unittest.main()
