#!/usr/bin/env python3
"""Where the gate's time goes.

    tools/gate_time.py run RECORD         runs `rt ci --anew` at the top, and writes what it sampled to the file RECORD
    tools/gate_time.py table RECORD       the processor seconds of each crate: proof, tests, builds, edits
    tools/gate_time.py edits RECORD       the processor seconds of each edit, dearest first
    tools/gate_time.py compare OLD NEW    the sums of two records, crate by crate

A run samples its own processes ten times a second. What one of them used after its last sample is lost: about a tenth of a
second for each of its threads. The whole, which the kernel counts, stands beside the sum. Run nothing else meanwhile.

A crate with two edits or more is proved once more before them, and once more behind them over what that left; both are
`before edits`. An edit that is tried from nothing, as an only one is, is told as the first of its crate.
"""
import collections
import json
import os
import re
import resource
import subprocess
import sys
import time

TICK = os.sysconf("SC_CLK_TCK")
TOP = os.path.dirname(os.path.dirname(os.path.abspath(__file__)))
PARTS = ["proof", "tests", "builds", "before edits", "edits"]


def processes():
    """Each process that there is: its parent, the processor seconds that it used, and when it began."""
    found = {}
    for pid in filter(str.isdigit, os.listdir("/proc")):
        try:
            with open(f"/proc/{pid}/stat", errors="replace") as stat:
                fields = stat.read().rpartition(")")[2].split()
        except OSError:
            continue
        used = (int(fields[11]) + int(fields[12])) / TICK
        found[int(pid)] = int(fields[1]), used, int(fields[19])
    return found


def words_of(pid):
    try:
        with open(f"/proc/{pid}/cmdline", errors="replace") as line:
            return line.read().split("\0")
    except OSError:
        return []


def folder_of(pid):
    try:
        return os.path.basename(os.readlink(f"/proc/{pid}/cwd"))
    except OSError:
        return ""


def after(words, flag):
    return words[words.index(flag) + 1] if flag in words[:-1] else ""


def task_of(words, folder):
    """The crate and the part of the gate that a process of the prover works for, if it is one."""
    if not words or os.path.basename(words[0]) != "rattle" or "--crate-name" not in words:
        return None
    crate, over = after(words, "--crate-name"), os.path.basename(after(words, "--incremental"))
    if over.isdigit():
        return crate, "edits", int(over)
    if over == "seed":
        return crate, "before edits", None
    if folder.startswith("rt-edit-"):
        return crate, "edits", 0
    if after(words, "-o").rpartition("/")[2].startswith(f"{crate}_tests"):
        return crate, "tests", None
    if "--crate-checked" in words:
        return crate, "builds", None
    return crate, "proof", None


def worker(pid, found, gate, tasks):
    """Whether a process is one of the gate's, and the task of the prover that it works for, if there is one."""
    task = None
    while pid in found and pid != gate:
        key = pid, found[pid][2]
        if tasks.get(key) is None:
            tasks[key] = task_of(words_of(pid), folder_of(pid))
        task, pid = task or tasks[key], found[pid][0]
    return pid == gate, task


def run(record):
    began = time.monotonic()
    gate = subprocess.Popen(["rt", "ci", "--anew"], cwd=TOP)
    tasks, seen = {}, {}
    while gate.poll() is None:
        now, found = time.monotonic() - began, processes()
        for pid, (_, used, start) in found.items():
            is_ours, task = worker(pid, found, gate.pid, tasks)
            if is_ours:
                whole = seen.setdefault((pid, start), {"task": None, "from": now})
                whole.update(task=task or whole["task"], used=used, to=now)
        time.sleep(0.1)
    usage = resource.getrusage(resource.RUSAGE_CHILDREN)
    whole = {
        "status": gate.returncode,
        "clock": time.monotonic() - began,
        "processor": usage.ru_utime + usage.ru_stime,
        "processors": len(os.sched_getaffinity(0)),
        "uses": below(),
        "names": {it: edits_of(it) for it in below()},
        "processes": list(seen.values()),
    }
    with open(record, "w") as out:
        json.dump(whole, out)
    return gate.returncode


def edits_of(crate):
    folder = f"{TOP}/crates/{crate}/must-fail"
    return sorted(it for it in os.listdir(folder) if it.endswith(".edit")) if os.path.isdir(folder) else []


def below():
    """The crates of the repository that each of them uses."""
    found = {}
    with open(f"{TOP}/crates.txt") as lines:
        for line in lines:
            name, _, uses = line.partition("#")[0].partition(":")
            if name.strip():
                found[name.split()[0]] = uses.split()
    return {it: [use for use in uses if use in found] for it, uses in found.items()}


def read(record):
    with open(record) as it:
        return json.load(it)


def sums(whole):
    used, clock = collections.Counter(), {}
    for it in whole["processes"]:
        if not it["task"]:
            used["", "rest"] += it["used"]
            continue
        crate, part, _ = it["task"]
        used[crate, part] += it["used"]
        first, last = clock.get((crate, part), (it["from"], it["to"]))
        clock[crate, part] = min(first, it["from"]), max(last, it["to"])
    return used, {it: last - first for it, (first, last) in clock.items()}


def chain(uses, clock):
    """The crates one above the other whose proofs take longest by the clock, and how long."""
    best = {}

    def longest(crate):
        if crate not in best:
            under = max((longest(it) for it in uses[crate]), default=(0, []))
            best[crate] = under[0] + clock.get((crate, "proof"), 0), [*under[1], crate]
        return best[crate]

    return max(longest(it) for it in uses)


def seconds_of(whole):
    """The processor seconds of each edit, by its crate and its number."""
    each = collections.Counter()
    for it in whole["processes"]:
        if it["task"] and it["task"][1] == "edits":
            each[it["task"][0], it["task"][2]] += it["used"]
    return each


def row(*cells):
    print("| " + " | ".join(f"{it:.0f}" if isinstance(it, float) else str(it) for it in cells) + " |")


def table(record):
    whole = read(record)
    used, clock = sums(whole)
    each = seconds_of(whole)
    whole_of = lambda crate: float(sum(used[crate, part] for part in PARTS))
    row("crate", *PARTS, "number of edits", "each edit", "sum")
    row(*["---"] * (len(PARTS) + 4))
    for crate in sorted(whole["uses"], key=whole_of, reverse=True):
        took = [each[crate, number] for number in range(len(whole["names"][crate]))]
        span = f"{min(took):.0f} to {max(took):.0f}" if took else ""
        row(f"`{crate}`", *[used[crate, part] or "" for part in PARTS], len(took) or "", span, whole_of(crate))
    parts = [float(sum(used[crate, part] for crate in whole["uses"])) for part in PARTS]
    row("all", *parts, sum(len(it) for it in whole["names"].values()), "", sum(parts))
    print(f"\nBeside these {used['', 'rest']:.0f} seconds of the gate itself, of programs and of tests that ran.")
    tell_whole(whole)
    took, names = chain(whole["uses"], clock)
    print(f"The longest chain of proofs took {took / 60:.1f} minutes by the clock: {', '.join(names)}.")


def tell_whole(whole):
    print(f"In all {whole['processor'] / 60:.1f} processor minutes, {whole['clock'] / 60:.1f} by the clock on {whole['processors']} processors.")
    if whole["status"]:
        print(f"The gate failed, with status {whole['status']}.")


def edits(record):
    whole = read(record)
    for (crate, number), seconds in seconds_of(whole).most_common():
        print(f"{seconds:6.1f} {crate}/{whole['names'][crate][number]}")


def compare(old, new):
    both = [read(old), read(new)]
    used = [sums(it)[0] for it in both]
    whole_of = lambda side, crate: float(sum(used[side][crate, part] for part in PARTS))
    proof_of = lambda side, crate: float(used[side][crate, "proof"] + used[side][crate, "tests"])
    crates = sorted({*both[0]["uses"], *both[1]["uses"]}, key=lambda it: -whole_of(0, it))
    row("crate", "proof and tests", "edits", "sum", "proof and tests now", "edits now", "sum now")
    row(*["---"] * 7)
    for crate in crates:
        cells = []
        for side in (0, 1):
            is_there = crate in both[side]["uses"]
            number = len(both[side]["names"].get(crate, [])) or ""
            cells += [proof_of(side, crate), number, whole_of(side, crate)] if is_there else [""] * 3
        row(f"`{crate}`", *cells)
    cells = []
    for side in (0, 1):
        names = both[side]["names"]
        cells += [sum(proof_of(side, it) for it in names), sum(map(len, names.values())), sum(whole_of(side, it) for it in names)]
    row("all", *cells)
    for whole in both:
        tell_whole(whole)


if __name__ == "__main__":
    calls = {("run", 1): run, ("table", 1): table, ("edits", 1): edits, ("compare", 2): compare}
    call = calls.get((sys.argv[1] if len(sys.argv) > 1 else "", len(sys.argv) - 2))
    if not call:
        sys.exit(__doc__)
    sys.exit(call(*sys.argv[2:]))
