"""The examples print what stands beside them; the shell and the one in C too; and the package installs."""

import glob
import importlib.machinery
import importlib.util
import os
import re
import shutil
import signal
import subprocess
import sys
import tempfile
import time
import unittest
from unittest import mock

from support import TOP, HubCase, StoreCase

# What the second run of an example prints where it is not what stands beside it: the store goes on from what the first one left.
SECOND = {
    "balances.py": """\
moved: 144 66
refused: bobsolvent
refused: balanced
bonus: 148 72
accounts: 148 72 220
""",
    "config.py": """\
half changed: 0
last seen by all: 3
version, rate and burst: 100 50 100
""",
    # (the first run ended with 2006 hits, after 1004 transactions)
    "counter.py": """\
hit 2007
hit 2008
hit 2009
transactions 1007 to 2006
doubled 6018
found 6018 after 2008 transactions
""",
    # (the first run had six transactions: three took a lease, and three gave one back)
    "leases.py": """\
client 7 has lease1
client 8 has lease2 and fencing token 7
client 9 would have to wait
no: 7 does not hold lease2
client 9 has lease2
held: 2 by 7 9
""",
}

SHELL = """\
> get a held
a = 0
held = 0
> set a 9 held 2
a = 9
held = 2
> add held 5 a -3 7 1
held = 7
a = 6
7 = 1
> check solvent
registered: solvent
> add a -7
refused: solvent would not hold: a = -1
> get a
a = 6
> retire solvent
registered: none
> set nope 1
the store has no variable nope
> set 8 1
the store has the variables 0 to 7, and not 8
> set x 1 y 2 x 3
x is named twice
> set x 1 y 2 2 3
x and 2 are the same variable
> set 7 1 07 2
7 is named twice
> add x 1 x 1
x is named twice
> get x y x
x = 0
y = 0
x = 0
> set a
set VARIABLE VALUE ..
> set a x
x is no number
> set a 9223372036854775808
9223372036854775808 is no signed integer of 64 bits
> foo
no word foo: .help lists them
> .state
4 transactions, registered: none
a = 6
b = 0
x = 0
y = 0
held = 7
7 = 1
> .names
a 0
b 1
held 4
x 2
y 3
> .checkpoint
checkpointed
> .quit
"""


def run(words, **more):
    it = subprocess.run(words, stdout=subprocess.PIPE, stderr=subprocess.PIPE, text=True, timeout=120, check=False, **more)
    return it.returncode, it.stdout, it.stderr


class Examples(unittest.TestCase):
    def test_they_print_what_stands_beside_them(self):
        found = sorted(glob.glob(os.path.join(TOP, "examples", "*.py")))
        self.assertEqual(len(found), 4)
        for path in found:
            with self.subTest(path=path), tempfile.TemporaryDirectory() as room, open(f"{path}.stdout", encoding="utf-8") as wanted:
                self.assertEqual(run([sys.executable, path], cwd=room), (0, wanted.read(), ""))
                self.assertEqual(run([sys.executable, path], cwd=room), (0, SECOND[os.path.basename(path)], ""))


class Shell(StoreCase):
    def test_its_lines(self):
        self.store.close()
        given = "".join(line[2:] + "\n" for line in SHELL.splitlines() if line.startswith("> "))
        wanted = "".join(line + "\n" for line in SHELL.splitlines() if not line.startswith("> "))
        self.assertEqual(run([sys.executable, "-m", "tmem", self.path], input=given), (1, wanted, ""))
        for end in (".quit", "quit", " exit "):
            good = f"set a 5\n\nadd a 1\n{end}\nset a 9\n"
            self.assertEqual(run([sys.executable, "-m", "tmem", self.path], input=good), (0, "a = 5\na = 6\n", ""))

    def test_its_other_words(self):
        self.store.run(lambda t: (t.check("solvent"), t.__setitem__("a", 4)))
        self.store.close()
        usage = {"get": "get VARIABLE ..", "add a": "add VARIABLE NUMBER ..", "add a 1 b": "add VARIABLE NUMBER ..", "set": "set VARIABLE VALUE .."}
        usage.update({"check": "check INVARIANT ..", "retire": "retire INVARIANT ..", "wait": "wait VARIABLE", "wait a b": "wait VARIABLE"})
        self.assertEqual(run([sys.executable, "-m", "tmem", self.path], input="\n".join(usage)), (1, "\n".join([*usage.values(), ""]), ""))
        given = "retire solvent\ncheck solvent balanced\nadd a -4 b 1\n.stats\n.help\n"
        status, printed, told = run([sys.executable, "-m", "tmem", self.path], input=given)
        self.assertEqual((status, told), (0, ""))
        first, second, a, b, *stats = printed.splitlines()
        self.assertEqual([first, second, a, b], ["registered: none", "registered: solvent, balanced", "a = 0", "b = 1"])
        self.assertEqual(stats[0:1], ["committed 3"])
        self.assertIn("waiting 0", stats)
        # Each of its words is in the help, with what follows it.
        for line in {*usage.values(), ".state", ".names", ".stats", ".checkpoint", ".help", ".quit, quit, exit"}:
            self.assertRegex(printed, f"(?m)^{re.escape(line)}  ")

    def test_it_ends_with_the_store(self):
        self.store.close()
        shell = subprocess.Popen([sys.executable, "-m", "tmem", self.path], stdin=subprocess.PIPE, stdout=subprocess.PIPE, stderr=subprocess.PIPE, text=True)
        shell.stdin.write("get a\n")
        shell.stdin.flush()
        self.assertEqual(shell.stdout.readline(), "a = 0\n")
        (child,) = subprocess.run(["ps", "-o", "pid=", "--ppid", str(shell.pid)], stdout=subprocess.PIPE, check=True).stdout.split()
        os.kill(int(child), signal.SIGKILL)
        printed, told = shell.communicate("get a\nget a\n", 60)
        self.assertEqual((printed, shell.returncode), ("", 1))
        self.assertIn("status -9", told)

    def test_it_says_where_there_is_no_store(self):
        path = f"{self.path}.none"
        status, printed, told = run([sys.executable, "-m", "tmem", path], input="")
        self.assertEqual((status, printed), (1, ""))
        self.assertRegex(told, f"^cannot open {path}, which is not there: tmem: cannot read shape\ntmem: {path}[^\n]*: nothing has this path[^\n]*\n$")

    def test_it_says_where_there_is_no_program(self):
        wanted = 1, "", f"cannot start {self.folder}: it is a folder\n"
        self.assertEqual(run([sys.executable, "-m", "tmem", self.path], input="", env={**os.environ, "TMEM": self.folder}), wanted)

    def test_a_value_is_set_once(self):
        self.set(a=3)
        self.store.close()
        given = "set a 1 a 2\nadd a 1 0 2\nset b 1 a 2 b 3\n.state\n"
        wanted = "a is named twice\na and 0 are the same variable\nb is named twice\n1 transactions, registered: none\n"
        wanted += "a = 3\nb = 0\nx = 0\ny = 0\nheld = 0\n"
        self.assertEqual(run([sys.executable, "-m", "tmem", self.path], input=given), (1, wanted, ""))

    def test_who_reads_its_output_may_go_away(self):
        self.store.close()
        words = [sys.executable, "-m", "tmem", self.path]
        # (more than a pipe holds, of which one line is read)
        lines = f"{self.folder}/lines"
        with open(lines, "w", encoding="utf-8") as file:
            file.write("set a 5\n" + ".help\n" * 500 + "set a 7\n")
        status = "| head -1; echo ${PIPESTATUS[0]}"
        ended = run(["bash", "-c", f"{' '.join(words)} < {lines} {status}"])
        # It ends as `yes` does.
        ending = run(["bash", "-c", f"yes {status}"])[1].split()[-1]
        self.assertEqual((ended, ending), ((0, f"a = 5\n{ending}\n", ""), "141"))
        self.assertEqual(run(words, input="get a\n"), (0, "a = 5\n", ""))
        # One that has ended before it prints anything.
        reads, writes = os.pipe()
        os.close(reads)
        shell = subprocess.Popen(words, stdin=subprocess.PIPE, stdout=writes, stderr=subprocess.PIPE, text=True)
        os.close(writes)
        self.assertEqual((shell.communicate("set a 6\nset a 7\n", 60)[1], shell.returncode), ("", 141))
        self.assertEqual(run(words, input="get a\n"), (0, "a = 6\n", ""))

    def test_completion(self):
        self.store.close()
        script = "import sys, readline, tmem.shell as it, tmem; s = it.Shell(tmem.open(sys.argv[1])); it.prepare(s)\n"
        script += "c = readline.get_completer(); print([c('h', 0), c('h', 1), c('.st', 0), c('.st', 1), c('.st', 2), c('ge', 0)])"
        history = os.path.join(self.folder, "history")
        env = {**os.environ, "TMEM_HISTORY": history}
        self.assertEqual(run([sys.executable, "-c", script, self.path], env=env), (0, "['held ', None, '.state ', '.stats ', None, 'get ']\n", ""))
        self.assertTrue(os.path.exists(history))
        # Where no history can be kept, nothing is said of it.
        self.assertEqual(run([sys.executable, "-c", script, self.path], env={**env, "TMEM_HISTORY": f"{history}/none"})[::2], (0, ""))


class ShellByHub(HubCase):
    def test_it_waits(self):
        self.set(a=5)
        shell = self.in_thread(run, [sys.executable, "-m", "tmem", f"unix:{self.path}.sock"], input="wait a\nget a b\n")
        self.until(lambda: self.store.stats()["waiting"] == 1)
        self.set(b=1)
        self.assertEqual((self.store.stats()["waiting"], shell.is_running()), (1, True))
        self.set(a=0)
        self.assertEqual(shell.result(), (0, "a = 0\na = 0\nb = 1\n", ""))


class InC(HubCase):
    shape = {"vars": 2, "slots": 4, "invariants": []}

    @unittest.skipUnless(shutil.which("cc"), "there is no C compiler")
    def test_leases(self):
        program = os.path.join(self.folder, "leases")
        source = os.path.join(os.path.dirname(TOP), "c", "leases.c")
        self.assertEqual(run(["cc", "-Wall", "-Wextra", "-Werror", "-o", program, source]), (0, "", ""))
        socket = f"{self.path}.sock"
        self.assertEqual(run([program, socket, "7"]), (0, "client 7 has lease 0\nand has given it back\n", ""))
        self.store.run(lambda t: t.__setitem__(0, 5))
        self.assertEqual(run([program, socket, "7"]), (0, "client 7 has lease 1\nand has given it back\n", ""))
        self.store.run(lambda t: t.__setitem__(1, 6))
        waiter = self.in_thread(run, [program, socket, "7"])
        time.sleep(0.3)
        self.assertTrue(waiter.is_running())
        self.store.run(lambda t: t.__setitem__(0, 0))
        self.assertEqual(waiter.result(), (0, "client 7 has lease 0\nand has given it back\n", ""))
        self.assertEqual(self.store.get(0, 1), (0, 6))
        self.assertEqual(run([program, socket])[0], 2)
        self.assertEqual(run([program, f"{socket}.none", "7"]), (1, "", f"{socket}.none: No such file or directory\n"))


class WrongClients(unittest.TestCase):
    """The bugs that trials/wrong_clients plants, which takes too long for each run of these tests."""

    def test_each_is_an_edit_of_the_package_and_names_tests(self):
        path = os.path.join(TOP, "trials", "wrong_clients")
        loader = importlib.machinery.SourceFileLoader("wrong_clients", path)
        trial = importlib.util.module_from_spec(importlib.util.spec_from_loader("wrong_clients", loader))
        # (it lies beside the package, where nothing is to be left)
        with mock.patch("sys.dont_write_bytecode", True):
            loader.exec_module(trial)
        self.assertGreater(len(trial.WRONG), 100)
        for name, (file, old, new, tests, *more) in trial.WRONG.items():
            with self.subTest(name=name), open(os.path.join(TOP, file), encoding="utf-8") as it:
                text = it.read()
                for here, there in [(old, new), *zip(more[::2], more[1::2])]:
                    self.assertEqual(text.count(here), 1)
                    text = text.replace(here, there)
                compile(text, file, "exec")
                found = unittest.defaultTestLoader.loadTestsFromNames(tests.split())
                self.assertEqual((found.countTestCases() > 0, "_FailedTest" in str(found)), (True, False))


class Installed(unittest.TestCase):
    @unittest.skipUnless(importlib.util.find_spec("ensurepip"), "this Python makes no environment with pip")
    def test_it_installs_without_a_network(self):
        with tempfile.TemporaryDirectory() as room:
            shutil.copytree(TOP, f"{room}/source", ignore=shutil.ignore_patterns("__pycache__"))
            self.assertEqual(run([sys.executable, "-m", "venv", f"{room}/venv"])[0], 0)
            python = f"{room}/venv/bin/python3"
            install = [python, "-m", "pip", "--disable-pip-version-check", "install", "-q", "--no-index", f"{room}/source"]
            self.assertEqual(run(install)[0], 0)
            env = {key: value for key, value in os.environ.items() if key != "PYTHONPATH"}
            where = run([python, "-c", "import tmem; print(tmem.__file__)"], cwd=room, env=env)
            self.assertIn(f"{room}/venv/lib", where[1])
            self.assertEqual(run([python, "-m", "tmem.hub", "--help"], cwd=room, env=env)[0], 0)


if __name__ == "__main__":
    unittest.main()
