#!/usr/bin/env python3
"""Runs the gate and tells where its processor time goes, crate by crate.

    python3 bench/gate_times.py [--anew] [--table FILE] LOG

Runs `rt ci` at the top of the repository (with --anew: all of it, from nothing) and writes its lines to LOG. Reads the
clocks of its processes five times a second and prints, for each crate, the processor minutes of its proof, of its tests
and of its must-fail edits, and the most memory that one process took; each minute also to FILE. Only a run from nothing,
alone on the machine, measures the gate: what an earlier run kept takes no time here.
"""

import collections
import os
import subprocess
import sys
import time

TICK = os.sysconf("SC_CLK_TCK")
PARTS = ("proof", "tests", "edits", "other")


def children_of(top, parents):
    """The numbers of all processes below `top`."""
    below = collections.defaultdict(list)
    for child, parent in parents.items():
        below[parent].append(child)
    found, left = [], [top]
    while left:
        for child in below[left.pop()]:
            found.append(child)
            left.append(child)
    return found


def stat_of(number):
    """The parent of a process and the seconds that it has taken itself, or None where it has ended."""
    try:
        with open(f"/proc/{number}/stat", encoding="utf-8", errors="replace") as file:
            fields = file.read().rsplit(")", 1)[1].split()
    except (OSError, IndexError):
        return None
    return int(fields[1]), (int(fields[11]) + int(fields[12])) / TICK


def place_of(number):
    """The crate that a process works for, and for which part of the gate."""
    try:
        with open(f"/proc/{number}/cmdline", "rb") as file:
            words = file.read().decode("utf-8", "replace").split("\0")
        folder = os.readlink(f"/proc/{number}/cwd")
    except OSError:
        return None
    if "--crate-name" in words:
        crate = words[words.index("--crate-name") + 1]
        if "/rt-edit" in folder:
            return crate, "edits"
        return crate, "tests" if "--test" in words else "proof"
    return os.path.basename(words[0]) or "rt", "other"


def memory_of(number):
    """The most memory that a process has held, in bytes."""
    try:
        with open(f"/proc/{number}/status", encoding="utf-8", errors="replace") as file:
            for line in file:
                if line.startswith("VmHWM:"):
                    return int(line.split()[1]) * 1024
    except OSError:
        pass
    return 0


def sample(top, seen):
    """Reads the clocks of all processes below `top`."""
    stats = {}
    for name in os.listdir("/proc"):
        if name.isdigit():
            found = stat_of(int(name))
            if found:
                stats[int(name)] = found
    for number in children_of(top, {it: found[0] for it, found in stats.items()}):
        place = seen.get(number, (None,))[0]
        if place is None or place[1] == "other":
            place = place_of(number) or place
        if place:
            most = max(memory_of(number), seen.get(number, (None, 0, 0))[2])
            seen[number] = place, stats[number][1], most


def table(seen, wall):
    """The lines of the table, the dearest crate first."""
    spent = collections.defaultdict(lambda: dict.fromkeys(PARTS, 0.0))
    most = collections.defaultdict(int)
    for (crate, part), seconds, memory in seen.values():
        row = crate if part != "other" else "(compilers, programs, rt)"
        spent[row][part] += seconds / 60
        most[row] = max(most[row], memory)
    lines = [f"{'crate':<28}{'proof':>8}{'tests':>8}{'edits':>8}{'all':>8}  largest process"]
    for crate, row in sorted(spent.items(), key=lambda it: -sum(it[1].values())):
        every = sum(row.values())
        lines.append(f"{crate:<28}{row['proof']:>8.2f}{row['tests']:>8.2f}{row['edits']:>8.2f}{every:>8.2f}{most[crate] / 1e9:>9.2f} GB")
    sums = {part: sum(row[part] for row in spent.values()) for part in PARTS}
    every = sum(sums.values())
    lines.append(f"{'all':<28}{sums['proof']:>8.2f}{sums['tests']:>8.2f}{sums['edits']:>8.2f}{every:>8.2f}")
    lines.append(f"processor minutes {every:.1f}; {wall / 60:.1f} minutes by the clock on {os.cpu_count()} processors")
    return lines


def main():
    words = sys.argv[1:]
    anew = [it for it in words if it == "--anew"]
    words = [it for it in words if it != "--anew"]
    to = words.pop(words.index("--table") + 1) if "--table" in words else None
    words = [it for it in words if it != "--table"]
    if len(words) != 1:
        sys.exit(__doc__)
    top = os.path.dirname(os.path.dirname(os.path.abspath(__file__)))
    with open(words[0], "w", encoding="utf-8") as log:
        begun, seen = time.time(), {}
        run = subprocess.Popen(["rt", "ci", *anew], cwd=top, stdout=log, stderr=subprocess.STDOUT, stdin=subprocess.DEVNULL)
        shown = 0.0
        while run.poll() is None:
            sample(run.pid, seen)
            if to and time.time() > shown + 60:
                shown = time.time()
                with open(to, "w", encoding="utf-8") as file:
                    file.write("\n".join(table(seen, shown - begun)) + "\n")
            time.sleep(0.2)
        lines = table(seen, time.time() - begun)
    if to:
        with open(to, "w", encoding="utf-8") as file:
            file.write("\n".join(lines) + "\n")
    print("\n".join(lines))
    return run.returncode


if __name__ == "__main__":
    sys.exit(main())
