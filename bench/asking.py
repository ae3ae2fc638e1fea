"""Runs one slice, and answers what it came to. Whatever computed something else than was asked fails here.

A driver checks its sums itself. `tmem bench` does not, so the store of its job is kept and looked at here: there the values have to
agree with the rate that was printed, which is rounded, and whose time is not told: it is as long as was asked for, and then until all
is durable, but no longer than the program ran beside its two syncs. They agree exactly where each add was one flush."""
import os
import re
import shutil
import subprocess
import time

from jobs import ADD, LINES, MANY_VARS, OPEN, TRANSFER, command_of, name_of
from servers import bound

DEPOSIT = 10**12
PATIENCE = 60
# the file of two syncs has as many bytes
SYNCED_BYTES = 32


class WrongWork(Exception):
    """A slice failed, or did something else than was asked."""


def run(command, beside=None):
    """What a command prints, which has to end well, while something else is done with its process. It does not outlive this one."""
    with subprocess.Popen([*bound("KILL"), *command], stdin=subprocess.DEVNULL, stdout=subprocess.PIPE, stderr=subprocess.PIPE, text=True) as it:
        try:
            if beside:
                beside(it)
            out, errors = it.communicate(timeout=PATIENCE)
        except BaseException:
            it.kill()
            raise
    if it.returncode:
        raise WrongWork(f"{' '.join(command)}: status {it.returncode}: {errors.strip()[-500:]}")
    return out


def ask_driver(it, seconds, where):
    """Runs a driver, which prints how many operations it did in how many seconds."""
    operations, time = run(command_of(it, seconds, where)).split()
    return {"operations": int(operations), "seconds": float(time), "rate": int(operations) / float(time)}


def values_of(program, store):
    """The values that a store has once it is opened, and how many transactions made them."""
    found = re.search(r"^state count=(\d+) names=\S* values=(\S+)$", run([program, "show", store]), re.MULTILINE)
    if not found:
        raise WrongWork(f"{store} cannot be opened")
    return int(found[1]), [int(value) for value in found[2].split(",")]


class Kept:
    """The file of a job, opened while the job goes on, since `tmem bench` removes it in the end. (Another name for it would not do: an
    opening looks how many it has.)"""

    def __init__(self, path):
        self.path, self.file = path, None

    def find(self, process):
        """Opens it. Before a job and after it the file of two syncs has the path."""
        end = time.monotonic() + PATIENCE
        while self.file is None and process.poll() is None and time.monotonic() < end:
            time.sleep(0.005)
            try:
                found = open(self.path, "rb")
            except FileNotFoundError:
                continue
            if os.fstat(found.fileno()).st_size > SYNCED_BYTES:
                self.file = found
            else:
                found.close()

    def copy(self, path):
        """Copies what it had in the end."""
        if self.file is None:
            raise WrongWork(f"{self.path} was not there while its job went on")
        with self.file, open(path, "wb") as out:
            shutil.copyfileobj(self.file, out)


def check_store(it, least, most, figures, count, values):
    """The values of a store after a job are those that the printed line comes to, in a time between these two. Answers how many operations
    that were, and in how many seconds."""
    done = 0
    if it.job == OPEN:
        good = len(values) == MANY_VARS and set(values) == {1} and count == 4096
    else:
        moved = values[2] - DEPOSIT
        done = moved if it.job == TRANSFER else values[0]
        others = (values[0] if it.job == TRANSFER else moved, values[1] + values[2] - 2 * DEPOSIT, sum(values[3:]))
        # the deposit is a transaction too
        good = others == (0, 0, 0) and count == done + 1
        good = good and least * (figures["rate"] - 0.5) <= done <= most * (figures["rate"] + 0.5)
        if figures["flushers"] == "none" and it.job == ADD:
            good = good and done == figures["flushes"]
    if not good:
        raise WrongWork(f"tmem bench, line {it.line}: {figures} does not agree with {count} transactions and the values {values[:4]}")
    return {"operations": done, "seconds": done / figures["rate"]} if done else {}


def ask_tmem(it, seconds, where):
    """Runs one job of `tmem bench`, and takes its line."""
    store, wanted = f"{where.folder}/store", LINES[it.line - 1]
    kept = Kept(store) if wanted[0] == "file" else None
    millis = round(seconds * 1000)
    command = [where.program, "bench", "--disk", store, "--millis", str(millis), "--job", str(it.line)]
    begun = time.monotonic()
    lines = run(command, kept and kept.find).splitlines()
    # two syncs are timed once in the beginning, and before the job and after it, each time for a quarter of its time
    least, most = millis / 1000, time.monotonic() - begun - 0.75 * millis / 1000
    text = lines[-1] if len(lines) == 2 else ""
    words = (text[:8].strip(), text[8:33].strip(), text[33:40].strip(), text[42:51].strip())
    if words != wanted:
        raise WrongWork(f"tmem bench: {len(lines)} lines, and the last one is {text!r}, not of {wanted}")
    figures = {"rate": float(text[51:66]), "flushers": words[3], "flushes": int(text[66:75])}
    if text[75:87].strip() != "-":
        figures["baseline"] = float(text[75:87])
    if kept:
        kept.copy(f"{store}.kept")
        figures.update(check_store(it, least, most, figures, *values_of(where.program, f"{store}.kept")))
    return figures


def ask(it, seconds, where):
    """A sample: the slice, and what it came to."""
    figures = ask_tmem(it, seconds, where) if it.line else ask_driver(it, seconds, where)
    return {"part": it.part, "job": it.job, "name": name_of(it.part, it.job), "peer": it.peer, "callers": it.callers, "at": it.at, **figures}


def ask_in_folder(it, seconds, where, room, in_memory=False):
    """A sample of a slice that runs in a new folder, which is removed."""
    where.folder = room.new("slice", in_memory)
    try:
        return ask(it, seconds, where)
    finally:
        shutil.rmtree(where.folder)
