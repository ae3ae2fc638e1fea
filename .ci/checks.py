"""What the parts of `make test` share. A part runs at the top of the repository, tells what it wanted and what it had, and ends with
a line 'N passed, M failed', and by that with its status."""
import os
import shutil
import stat
import subprocess
import sys
import tempfile
import zlib

os.chdir(os.path.dirname(os.path.dirname(os.path.abspath(__file__))))
passed = failed = 0
AS_USER = "setpriv --reuid=65534 --regid=65534 --clear-groups" if os.getuid() == 0 else ""


def tell(name, wanted, had):
    global passed, failed
    passed, failed = passed + (wanted == had), failed + (wanted != had)
    if wanted != had:
        print(f"{name}\nwanted {wanted!r:.3000}\nhad    {had!r:.3000}", flush=True)


def end():
    print(f"{passed} passed, {failed} failed")
    sys.exit(failed > 0)


def program(at, usual):
    """The program whose path is the word at this place of the command line, or else where `make test` leaves it."""
    return os.path.abspath((sys.argv[at:] or [usual])[0])


def text(path, other=b""):
    if not os.path.isfile(path):
        return other
    with open(path, "rb") as it:
        return it.read()


def listed(*patterns):
    """The files of the repository."""
    names = subprocess.run(["git", "ls-files", "-z", *patterns], check=True, stdout=subprocess.PIPE).stdout.decode().split("\0")
    return [name for name in names if os.path.isfile(name)]


class KeptStore:
    """A store that is kept as text: `numbers` of variables and of log slots, its `parts`, each an offset and the bytes from there on, its
    `content`, which has 0 elsewhere, and the content `after` an opening. Below comments, the first line of the file has the numbers and
    the size in bytes, and each further line a part, whose bytes are in hexadecimal. Beside it, with `.after`, are the parts that an
    opening changes."""

    def __init__(self, path):
        (*self.numbers, size), *parts = (line.split() for line in text(path).decode().splitlines() if not line.startswith("#"))
        self.numbers = [*map(int, self.numbers)]
        self.parts = [(int(at), bytes.fromhex(part)) for at, part in parts]
        self.content = self.with_parts(bytes(int(size)), self.parts)
        changed = (line.split() for line in text(f"{path}.after").decode().splitlines())
        self.after = self.with_parts(self.content, [(int(at), bytes.fromhex(part)) for at, part in changed])

    @staticmethod
    def with_parts(content, parts):
        content = bytearray(content)
        for at, part in parts:
            content[at : at + len(part)] = part
        return bytes(content)


def by_version_1(content, vars, slots):
    """What a program that knows version 1 alone answers to a content, by the plain model of fuzz/: how many transactions it opens, or a
    fault."""
    sys.path.append("fuzz")
    from model import Layout, Opened, Refused

    try:
        return f"opened {Opened(bytearray(content), Layout(vars, slots), 1).count}"
    except Refused as refused:
        return str(refused)


def run(words, given=b"", room=None, **env):
    """Runs a program on an input: its status, its output, and what it says on the error stream."""
    try:
        it = subprocess.run(words, input=given, stdout=subprocess.PIPE, stderr=subprocess.PIPE, cwd=room, env={**os.environ, **env}, timeout=120)
    except subprocess.TimeoutExpired:
        return "no end", b"", b""
    return it.returncode, it.stdout, it.stderr


def watched(room, words, given=b"", **env):
    """Runs a program in a folder, under watch.c with these variables: what it does, and its calls (name, file, offset, bytes)."""
    library, calls = f"{room}/watch.so", f"{room}/calls"
    if not os.path.exists(library):
        subprocess.run([os.environ.get("CC", "cc"), "-O1", "-shared", "-fPIC", "-o", library, ".ci/watch.c", "-ldl"], check=True)
    open(calls, "w", encoding="utf-8").close()
    told = run(words, given, room, LD_PRELOAD=library, CALLS=calls, **env)
    with open(calls, encoding="utf-8") as lines:
        return told, [(call, name, int(at), int(count)) for call, name, at, count in map(str.split, lines)]


def contents(folder):
    """What stands in a folder: each name with its rights, and of a file the time of its last write, its length and a sum."""
    found = {}
    for at, folders, files in os.walk(folder):
        for path in (os.path.join(at, name) for name in folders + files):
            it = os.lstat(path)
            is_file = stat.S_ISREG(it.st_mode)
            found[path] = it.st_mode, is_file and (it.st_mtime_ns, it.st_size, os.access(path, os.R_OK) and zlib.crc32(text(path)))
    return found


def commands_of(lines):
    """The commands that stand behind '$ ', each with the lines below it."""
    found = []
    for line in lines:
        if line.startswith("$ "):
            found.append((line[2:], []))
        elif found:
            found[-1][1].append(line)
    return found


def bash(command, room, seconds=900, **env):
    """Runs a command of a shell, as `run` does; its status is 124 where it does not end in time."""
    # As from a reader's shell: what a `make` above hands down would change what a `make` here prints.
    own = {name: value for name, value in os.environ.items() if not name.startswith(("MAKE", "MFLAGS"))}
    words = ["timeout", str(seconds), "bash", "-c", command]
    it = subprocess.run(words, cwd=room, env={**own, **env}, stdin=subprocess.DEVNULL, stdout=subprocess.PIPE, stderr=subprocess.PIPE)
    return it.returncode, it.stdout.decode(errors="backslashreplace"), it.stderr.decode(errors="backslashreplace")


def play_transcript(file, tmem):
    """Runs the commands of a file by bash, one after another in a folder of their own. Below each stands what it prints, then each
    line that it says on the error stream behind '! ', and its status where that is not 0; a command with such a status leaves
    every file as it was. A last line without its break ends in a backslash. A comment begins with '# ', and a blank line
    may stand above it or a command."""
    with open(file, encoding="utf-8") as it:
        lines = it.read().rstrip("\n").replace("\n\n$ ", "\n$ ").replace("\n\n# ", "\n# ").split("\n")
    with tempfile.TemporaryDirectory() as room:
        os.chmod(room, 0o755)
        os.mkdir(f"{room}/bin")
        os.mkdir(f"{room}/work")
        shutil.copy2(tmem, f"{room}/bin/tmem")
        for command, printed in commands_of(line for line in lines if not line.startswith("# ")):
            before = contents(f"{room}/work")
            status, out, err = bash(f"set -o pipefail; {command}", f"{room}/work", 30, PATH=f"{room}/bin:{os.environ['PATH']}", AS_USER=AS_USER)
            had = out + "\\\n" * (out[-1:] not in ("", "\n")) + "".join(f"! {line}\n" for line in err.splitlines())
            tell(f"{file}: {command}", "".join(f"{line}\n" for line in printed), had + f"status {status}\n" * (status != 0))
            if status:
                tell(f"{file}: {command}: every file stays as it was", before, contents(f"{room}/work"))
