#!/usr/bin/env python3
"""Makes the tables of docs/COMPARISON.md and docs/EXAMPLES.md anew.

usage: compare.py [PROGRAM]          for example: python3 compare/compare.py ./sil

PROGRAM is the program, whose report `PROGRAM check FILE` is read. Without it the intervals are those of
tests/forward.py, which has the same method; the page says which it was. Where the fault-tree program SCRAM (the package
`scram` of Debian) is not installed its columns stay empty. Takes some minutes, and a second with PROGRAM.
Standard library only.
"""
import math
import os
import subprocess
import sys
from concurrent.futures import ThreadPoolExecutor
from decimal import ROUND_CEILING, ROUND_FLOOR, Context, Decimal
from pathlib import Path

TOP = Path(__file__).resolve().parent.parent
sys.path.insert(0, str(TOP / "tests"))

import chain
import fault_tree
import formulas
from loop_reader import read_loop

# For each loop: what it is; then why the formulas and the fault tree differ, for PFDavg and for PFH.
EXAMPLES = {
    "one-channel": ("1oo1, never tested", "a", "", "a", "n"),
    "transmitter": ("1oo1 transmitter with diagnostics", "a", "h", "l", "m"),
    "two-with-diagnostics": ("1oo2 with diagnostics (no 1oo2D)", "ab", "j", "l", "m"),
    "common-cause": ("2oo3 with common cause", "abe", "jk", "l", "m"),
    "partial-tests": ("1oo1 valve, partial tests", "a", "h", "a", "m"),
    "partial-stroke-valves": ("1oo2 valves, partial strokes", "ab", "j", "a", "m"),
    "simultaneous-valves": ("1oo2 valves, tested together", "ab", "", "a", "m"),
    "staggered-valves": ("1oo2 valves, staggered", "abd", "", "ad", "m"),
    "high-demand": ("high demand, read by PFH", "a", "", "a", "m"),
    "tripped-repair": ("1oo1, tripped repair", "a", "i", "a", "n"),
    "three-subsystems": ("sensors, logic and valves", "ab", "", "l", "m"),
    "shared-types": ("transmitters of two kinds and valves", "abg", "j", "lg", "m"),
    "undecided": ("made to be `undecided`", "a", "", "l", "m"),
    "undecided-tested-sooner": ("the same, tested ten hours sooner", "a", "", "l", "m"),
    "undecided-shorter-mission": ("the same, over one year", "a", "", "l", "m"),
}
VOTES = {
    "1oo1": ("1oo1", "a", "h", "l", "m"),
    "1oo2": ("1oo2", "ab", "h", "l", "m"),
    "2oo2": ("2oo2", "a", "h", "l", "m"),
    "1oo3": ("1oo3", "ab", "h", "l", "m"),
    "2oo3": ("2oo3", "ab", "h", "l", "m"),
    "1oo2-common-cause": ("1oo2, common cause", "ab", "j", "l", "m"),
    "2oo2-common-cause": ("2oo2, common cause", "ac", "", "l", "m"),
    "1oo3-common-cause": ("1oo3, common cause", "ab", "j", "l", "m"),
    "2oo3-common-cause": ("2oo3, common cause", "ab", "j", "l", "m"),
    "1oo1-tripped": ("1oo1, tripped", "a", "hi", "a", "m"),
    "1oo2-tripped": ("1oo2, tripped", "a", "hi", "a", "m"),
    "2oo2-tripped": ("2oo2, tripped", "a", "hi", "a", "m"),
    "1oo3-tripped": ("1oo3, tripped", "a", "hi", "a", "m"),
    "2oo3-tripped": ("2oo3, tripped", "a", "hi", "a", "m"),
    "1oo2-common-cause-tripped": ("1oo2, common cause, tripped", "a", "hi", "a", "m"),
    "2oo2-common-cause-tripped": ("2oo2, common cause, tripped", "ac", "hi", "ac", "m"),
    "1oo3-common-cause-tripped": ("1oo3, common cause, tripped", "a", "hi", "a", "m"),
    "2oo3-common-cause-tripped": ("2oo3, common cause, tripped", "a", "hi", "a", "m"),
}


class Row:
    def __init__(self, path, title, reasons, program):
        self.path, self.title, self.reasons = path, title, reasons
        self.name = path.stem
        loop = read_loop(path)
        command = [program, "check", path] if program else [sys.executable, TOP / "tests" / "forward.py", path]
        report = subprocess.run(command, capture_output=True, text=True).stdout
        self.report = dict(line.split(" ", 1) for line in report.splitlines())
        if not {"pfd", "pfh"} <= set(self.report):
            sys.exit(f"{path}: no figures: {report}")
        self.ends = [[Decimal(text) for text in self.report[key].split()[:3:2]] for key in ("pfd", "pfh")]
        self.bands = [self.report[key].split(" ", 3)[3] for key in ("pfd", "pfh")]
        self.exponential = chain.figures_of(loop)
        self.formula = formulas.figures_of(loop)
        self.tree = fault_tree.figures_of(loop) if fault_tree.program() else None

    def is_inside(self):
        """Whether the double-precision figures lie in the intervals, up to their last two digits or so."""
        return all(low - slack <= Decimal(x) <= high + slack for (low, high), x in zip(self.ends, self.exponential)
                   for slack in [Decimal(x) * Decimal("1e-11")])

    def cells(self, figure):
        exact = self.exponential[figure]
        reasons = self.reasons[2 * figure] + self.reasons[2 * figure + 1]
        tree = self.tree and self.tree[figure]
        return [self.title, interval(self.ends[figure]), beside(self.formula[figure], exact), power_of_ten(exact, 11),
                beside(tree, exact), " ".join(sorted(set(reasons)))]


def interval(ends):
    low = Context(prec=7, rounding=ROUND_FLOOR).plus(ends[0])
    high = Context(prec=7, rounding=ROUND_CEILING).plus(ends[1])
    return f"{low:.6E} .. {high:.6E}".replace("E-0", "E-")


def power_of_ten(x, places):
    return f"{x:.{places}E}".replace("E-0", "E-")


def beside(x, exact):
    if x is None:
        return "none"
    share = 100 * (x / exact - 1)
    shown = f"{share:+.{2 if abs(share) < 1 else 1}f}".replace("-0.00", "+0.00")
    return f"{power_of_ten(x, 3)} ({shown} %)"


def table(head, rows):
    lines = ["| " + " | ".join(head) + " |", "|" + "---|" * len(head)]
    return lines + ["| " + " | ".join(row) + " |" for row in rows]


def comparison_table(rows, figure):
    return table(["Loop", "`sil`: proved interval", "Formulas", "Matrix exponential", "SCRAM", "Why"],
                 [row.cells(figure) for row in rows])


def source_lines(rows, program):
    who = "the program" if program else "`tests/forward.py`, the program's method written apart in Python"
    inside = sum(row.is_inside() for row in rows)
    lines = [f"The intervals were computed by {who}. "
             f"The figure by matrix exponentials lies inside in {inside} of the {len(rows)} loops."]
    if all(row.tree for row in rows):
        off = max(abs(row.tree[1] / row.tree[3] - 1) for row in rows)
        lines.append(f"SCRAM was version {fault_tree.version()}, in steps of an hour. In every row its PFH is the mean of "
                     f"p(t)/t over its own curve p(t), to {-math.floor(math.log10(off))} digits.")
    else:
        lines.append("SCRAM was not installed.")
    return lines


def examples_table(rows):
    cells = [[f"[{row.name}](../examples/{row.path.name})", row.title, row.report["phases"], row.report["states"],
              row.report["beats"], f"{interval(row.ends[0])} **{row.bands[0]}**",
              f"{interval(row.ends[1])} **{row.bands[1]}**"] for row in rows]
    return table(["File", "Loop", "Phases", "States", "Beats", "PFDavg", "PFH"], cells)


def put(page, sections):
    """Replaces what stands between the marks of each section."""
    text = page.read_text()
    for name, lines in sections.items():
        start, end = f"<!-- {name}, made by compare/compare.py -->\n", f"<!-- end of {name} -->"
        before, rest = text.split(start)
        text = before + start + "\n" + "\n".join(lines) + "\n\n" + end + rest.split(end)[1]
    page.write_text(text)


def main():
    program = str(Path(sys.argv[1]).resolve()) if len(sys.argv) > 1 else None
    missing = {path.stem for path in (TOP / "examples").glob("*.toml")} ^ set(EXAMPLES)
    if missing:
        sys.exit(f"the table and the folder of examples differ: {missing}")
    wanted = [(TOP / "examples" / f"{name}.toml", said) for name, said in EXAMPLES.items()]
    wanted += [(TOP / "compare" / "loops" / f"{name}.toml", said) for name, said in VOTES.items()]
    with ThreadPoolExecutor(max(1, (os.cpu_count() or 2) // 2)) as pool:
        rows = list(pool.map(lambda one: Row(one[0], one[1][0], one[1][1:], program), wanted))
    examples, votes = rows[:len(EXAMPLES)], rows[len(EXAMPLES):]
    put(TOP / "docs" / "COMPARISON.md", {
        "source": source_lines(rows, program),
        "PFDavg of the examples": comparison_table(examples, 0), "PFDavg of the votes": comparison_table(votes, 0),
        "PFH of the examples": comparison_table(examples, 1), "PFH of the votes": comparison_table(votes, 1)})
    put(TOP / "docs" / "EXAMPLES.md", {"reports": examples_table(examples)})
    for row in rows:
        if not row.is_inside():
            print(f"{row.name}: the matrix exponential is outside")


if __name__ == "__main__":
    main()
