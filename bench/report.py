"""What the samples come to: medians with the least and the most, as a table, as Markdown, and as JSON with the machine."""
import hashlib
import json
import os
import platform
import statistics
import subprocess
from collections import defaultdict

from jobs import FORMS, LABELS, NAMES, ORDER, SYNCS, name_of

PARTS = {
    "durable": "Durable jobs: operations a second, and the ratio to two syncs (write 32 bytes, sync, write 1 byte, sync)",
    "memory": "In memory: operations a second",
    "opening": "Openings: a second, and the ratio to two reads of the same file, in turn with the openings",
    "variables": "As variables grow, in memory, 64 adds at once: transactions a second, by variables",
    "invariants": "As invariants over what changes grow, in memory, one transfer: transactions a second, by invariants",
    "slots": "As slots grow, in memory, 1024 variables, 64 adds at once: transactions a second, by slots",
}


def spread(values):
    """The median, the least and the most; and the one in the middle, or the two, as the lower and the upper one."""
    middle = [statistics.median_low(values), statistics.median_high(values)]
    return {"median": statistics.median(values), "least": min(values), "most": max(values), "middle": middle}


def summarize(samples):
    """A row for each job of each peer. The ratio of a sample is to the median of the two syncs of its own round; that of openings is to
    the two reads that `tmem bench` times beside them, and the peers have none."""
    syncs, groups = defaultdict(list), defaultdict(list)
    for it in samples:
        if it["job"] == SYNCS:
            syncs[it["round"]].append(it["rate"])
        at = 0 if it["job"] == SYNCS else it["at"]
        groups[it["part"], it["job"], it["callers"], at, it["peer"]].append(it)
    rows = []
    for (part, job, callers, at, peer), those in groups.items():
        row = {"part": part, "job": job, "callers": callers, "at": at, "peer": peer, "samples": len(those)}
        row["rate"] = spread([it["rate"] for it in those])
        if part == "durable":
            row["ratio"] = spread([it["rate"] / statistics.median(syncs[it["round"]]) for it in those])
        if part == "opening" and all("baseline" in it for it in those):
            row["ratio"] = spread([it["rate"] / it["baseline"] for it in those])
        rows.append(row)
    order = {name: place for place, name in enumerate([SYNCS, *NAMES])}
    parts = list(PARTS)
    return sorted(rows, key=lambda row: (parts.index(row["part"]), order[row["job"]], row["at"], row["callers"], ORDER.index(row["peer"])))


def figure(value):
    """A number with three digits."""
    for size, letter in [(1e6, "M"), (1e3, "k")]:
        if value >= size * 0.9995:
            return f"{value / size:#.3g}".rstrip(".") + letter
    return f"{value:#.3g}".rstrip(".")


def table(rows):
    """The rows as text."""
    lines = []
    for part, title in PARTS.items():
        those = [row for row in rows if row["part"] == part]
        if not those:
            continue
        lines += ["", title, f"{'job':<35}{'callers':>7}{'at':>6}  {'peer':<12}{'median':>7}{'least to most':>18}{'ratio':>9}{'least to most':>16}"]
        for row in those:
            rate, ratio = row["rate"], row.get("ratio")
            text = f"{name_of(part, row['job']):<35}{row['callers']:>7}{row['at'] or '':>6}  {LABELS[row['peer']]:<12}{figure(rate['median']):>7}"
            text += f"{figure(rate['least']) + ' to ' + figure(rate['most']):>18}"
            if ratio:
                text += f"{figure(ratio['median']):>9}{figure(ratio['least']) + ' to ' + figure(ratio['most']):>16}"
            lines.append(text)
    return "\n".join(lines)


def batches(samples):
    """Of each durable job of `tmem bench`, how many operations a flush made durable, and how long one took from the last, as a multiple of
    the two syncs that were timed before the job and after it."""
    groups, lines = defaultdict(list), []
    for it in samples:
        if it["part"] == "durable" and it.get("flushes"):
            groups[it["job"], it["callers"]].append((it["operations"] / it["flushes"], it["seconds"] / it["flushes"] * it["baseline"]))
    for (job, callers), those in sorted(groups.items(), key=lambda group: (list(NAMES).index(group[0][0]), group[0][1])):
        size, time = (spread([had[k] for had in those]) for k in (0, 1))
        text = [f"{figure(it['median'])} ({figure(it['least'])} to {figure(it['most'])})" for it in (size, time)]
        lines.append(f"- {NAMES[job]}, {callers}: {text[0]} a flush, and one each {text[1]} of two syncs.")
    return "\n".join(lines)


def markdown(rows, part, key):
    """A table of medians, a column for each peer, whose least and most stand in brackets."""
    those = [row for row in rows if row["part"] == part and row["job"] != SYNCS]
    peers = [peer for peer in ORDER if any(row["peer"] == peer for row in those)]
    cells = {(row["job"], row["callers"], row["peer"]): row.get(key) for row in those}
    peers = [peer for peer in peers if any(cells.get((row["job"], row["callers"], peer)) for row in those)]
    unit = "a second" if key == "rate" else "as a ratio"
    lines = [f"| Job, {unit} | {' | '.join(LABELS[peer] for peer in peers)} |", f"|---|{'---|' * len(peers)}"]
    for job, callers in dict.fromkeys((row["job"], row["callers"]) for row in those):
        had = [cells.get((job, callers, peer)) for peer in peers]
        texts = [f"{figure(it['median'])} ({figure(it['least'])} to {figure(it['most'])})" if it else "" for it in had]
        lines.append(f"| {name_of(part, job)}, {callers} | {' | '.join(texts)} |")
    return "\n".join(lines)


def forms(rows):
    """How the peers are asked, each in a line."""
    return "\n".join(f"- {LABELS[peer]}: {FORMS[peer]}." for peer in ORDER if peer in FORMS and any(row["peer"] == peer for row in rows))


def file_system(path):
    """The kind of file system that a path is on, and its device."""
    path, best = os.path.realpath(path), ("", "", "")
    with open("/proc/self/mountinfo", encoding="utf-8") as mounts:
        for line in mounts:
            before, after = line.split(" - ")
            at, (kind, device) = before.split()[4], after.split()[:2]
            if (path + "/").startswith(at.rstrip("/") + "/") and len(at) >= len(best[0]):
                best = (at, kind, device)
    return f"{best[1]} on {best[2]}"


def field_of(path, name):
    """The first value of a name in a file of lines NAME: VALUE."""
    with open(path, encoding="utf-8") as text:
        return next((line.split(":", 1)[1].strip() for line in text if line.startswith(name)), "")


def machine(place):
    """What ran it."""
    system = dict(line.rstrip().split("=", 1) for line in open("/etc/os-release", encoding="utf-8") if "=" in line)
    return {
        "processor": field_of("/proc/cpuinfo", "model name"),
        "processors": os.cpu_count(),
        "memory": field_of("/proc/meminfo", "MemTotal"),
        "system": system.get("PRETTY_NAME", "").strip('"'),
        "kernel": platform.release(),
        "file_system": file_system(place),
        "load_before": os.getloadavg()[0],
    }


def program(path):
    """Which program was timed."""
    top = os.path.dirname(os.path.dirname(os.path.abspath(__file__)))
    with open(path, "rb") as it:
        checksum = hashlib.sha256(it.read()).hexdigest()
    asked = [[path, "--version"], ["git", "-C", top, "describe", "--always", "--dirty"]]
    told = [subprocess.run(words, stdin=subprocess.DEVNULL, stdout=subprocess.PIPE, stderr=subprocess.DEVNULL, text=True).stdout.strip() for words in asked]
    return {"version": told[0], "commit": told[1], "sha256": checksum}


def write_json(path, head, samples, rows):
    """All samples with what they were taken on."""
    with open(path, "w", encoding="utf-8") as out:
        json.dump({**head, "summary": rows, "samples": samples}, out, indent=1)
        out.write("\n")
