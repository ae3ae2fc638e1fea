"""What the prover says of a crate with wrong bodies in place, for .ci/mutants and .ci/wrong-bodies."""
import glob
import os
import re
import shutil
import subprocess

from edit import read

KIT = os.path.dirname(subprocess.run(["rt", "doc"], check=True, stdout=subprocess.PIPE, text=True).stdout.strip())
PARTS = "src", "specs", "proofs"
SECONDS = 3600
PLACED = re.compile(r"(?:note: )?(?:\./)?(\S+?):(\d+):\d+: (.*)")
# A proof file that names what the edit took away is refused whatever the contract says.
NAMES = re.compile(r"has no field|is not in scope|has no `|was not admitted|\(nearest: ")
UNREAD = re.compile(r"is not in scope|has no field|is no name|operand is missing|expected the end|cannot continue")


def files_of(folder, parts=PARTS):
    found = [it for part in parts for it in glob.glob(f"{folder}/{part}/**", recursive=True)]
    return sorted(it for it in found if os.path.isfile(it) and "__pycache__" not in it)


class Crates:
    """The crates as crates.txt lists them, each with those that it stands on."""

    def __init__(self, top):
        self.top, self.lines, self.uses = top, {}, {}
        for line in read(f"{top}/crates.txt").splitlines():
            name, _, rest = line.partition("#")[0].partition(":")
            if name.strip():
                self.lines[name.split()[0]], self.uses[name.split()[0]] = line, rest.split()
        self.deps = {name: [it for it in uses if it in self.uses] for name, uses in self.uses.items()}

    def below(self, name):
        """The crates of the repository below this one, each after those that it uses."""
        found = []
        for dep in self.deps[name]:
            found += [it for it in [*self.below(dep), dep] if it not in found]
        return found

    def folder(self, name):
        return f"{self.top}/crates/{name}"


def run(folder, *words, seconds=SECONDS):
    """Runs a command in a folder, and answers its status and what it said. Without an end the status is None."""
    try:
        ran = subprocess.run(words, cwd=folder, stdin=subprocess.DEVNULL, stdout=subprocess.PIPE, stderr=subprocess.STDOUT, errors="replace", timeout=seconds)
    except subprocess.TimeoutExpired:
        return None, ""
    return ran.returncode, ran.stdout


class Copy:
    """A copy of a crate in a folder, over the libraries of those below it, which stand in a tree."""

    def __init__(self, crates, name, room, tree):
        self.folder = f"{room}/{name}"
        shutil.rmtree(self.folder, ignore_errors=True)
        for part in PARTS:
            if os.path.isdir(f"{crates.folder(name)}/{part}"):
                shutil.copytree(f"{crates.folder(name)}/{part}", f"{self.folder}/{part}")
        rlib = lambda it: f"{tree}/crates/{it}/out/rlib/{it}.rlib" if it in crates.deps else f"{KIT}/rlibs/{it}.rlib"
        file = next(it for it in ("src/lib.rt", "src/main.rt") if os.path.isfile(f"{self.folder}/{it}"))
        self.words = [f"{KIT}/bin/rattle", "check", "--crate-name", name, file, "--links", f"{name}=", "--jobs", "1"]
        self.words += [word for it in ["std", *crates.uses[name]] for word in ("--extern", f"{it}={rlib(it)}")]
        for it in [f"{KIT}/rlibs", *(os.path.dirname(rlib(it)) for it in crates.below(name))]:
            self.words += ["-L", f"dependency={it}"]
        self.words += ["--antt-project", f"{KIT}/rattle/logic/antt-project.json", "--logic-built", f"{KIT}/logic_built"]


class Check:
    """What a check of a copy says with edits in place, and with more flags: that of `rt check`, which builds what is below first, and
    here it stands."""

    def __init__(self, copy, edits, *flags, seconds=SECONDS):
        texts = {}
        for edit in edits:
            edit.apply(texts, copy.folder)
        before = {file: read(f"{copy.folder}/{file}") for file in texts}
        try:
            write(copy.folder, texts)
            self.status, said = run(copy.folder, *copy.words, *flags, seconds=seconds)
        finally:
            write(copy.folder, before)
        self.lines = said.splitlines()
        self.open = re.findall(r"(?m)^fn (\S+): (?:not proved|no proof)", said)
        told = [PLACED.match(it) for it in self.lines if ": error" in it or it.startswith("note: ")]
        self.told = [(it[1], int(it[2]), it[3]) for it in told if it]
        self.goals = [it for it in self.told if "`" in it[2] and not (it[0].startswith("proofs/") and NAMES.search(it[2]))]
        has_verdict = any(it.startswith(("logic=", "only=")) for it in self.lines) and "Run the lower steps again" not in said
        unread = next((f"{it[0]}:{it[1]}: {it[2]}" for it in self.told if is_unread(it)), None)
        self.why_not = unread or (None if has_verdict else next((it for it in self.lines if "error" in it), (self.lines or ["no end"])[-1]))


def write(folder, texts):
    for file, text in texts.items():
        with open(f"{folder}/{file}", "w", encoding="utf-8") as it:
            it.write(text)


def is_unread(told):
    """Whether a line says that a text could not be read, where an edit that only makes a statement false reads well."""
    file, _, said = told
    at = re.match(r"error: (?:(`[^`]*`): )?(.*)", said)
    return bool(at) and file.startswith(("src/", "specs/")) and (not at[1] or bool(UNREAD.search(re.sub(r"`[^`]*`", "", at[2]))))


def is_named(line, crate, function):
    """Whether the name of a function that a check prints is that of this function, or of a closure in it."""
    module, holder, name = function
    # (a method goes by the module of its type, which may be another one)
    if holder and re.fullmatch(rf"{crate}::(?:.*::)?{holder}\w*::{name}", line):
        return True
    path = f"{crate}::{module}::" if module else f"{crate}::"
    if not line.startswith(path):
        return False
    rest = line[len(path) :]
    return bool(re.fullmatch(rf"{holder}\w*::{name}" if holder else name, rest)) or f"::{name}::" in f"::{rest}"


def is_of(goal, function, place):
    """Whether a goal is one of this function."""
    (module, holder, name), (file, first, last) = function, place
    if goal[0] == file:
        return first <= goal[1] <= last
    if holder and re.match(rf"proofs/(.*/)?{holder}\w*/{name}/", goal[0]):
        return True
    return goal[0].startswith(f"proofs/{module.replace('::', '/')}/") and f"/{name}/" in goal[0]
