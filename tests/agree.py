#!/usr/bin/env python3
"""Do the figures agree? Closed forms, independent.py, forward.py and, where asked, the program.

usage: agree.py FOLDER [PROGRAM [--stored]]        for example: python3 tests/agree.py tests/loops crates/sil/out/sil

The folder has loop files and expected.txt, whose lines are a file's name and its figures by independent.py, cut off
after 20 decimals. For each loop the figures are computed anew and have to be in the intervals of forward.py and of the
program, which may be no wider than the count of all roundings allows; that share is printed. Ends with 1 where
something disagrees. `loops` takes two minutes, `larger` ten. With --stored, nothing is computed anew: the intervals of the
program alone have to hold the figures of expected.txt, which takes seconds. Standard library only.
"""
import subprocess
import sys
from decimal import Decimal, getcontext
from fractions import Fraction
from pathlib import Path

from forward import Mission
from independent import decimal, figures_of
from loop_reader import read_loop

getcontext().prec = 80


def times(left, right):
    """The product of two sums of exponentials, held as factors by how often each of the two exponents occurs."""
    result = {}
    for (i, j), x in left.items():
        for (k, m), y in right.items():
            result[i + k, j + m] = result.get((i + k, j + m), 0) + x * y
    return result


def parallel(du, dd, repair, mission, *sizes):
    """PFDavg and PFH of 1ooN subsystems in series, N of each given, of equal channels without tests and common cause.

    A channel then works with the chance p = a e^(slow t) + (1 - a) e^(fast t), with p(0) = 1 and p'(0) = -(du + dd),
    independently of all others.
    """
    du, dd, mu = Decimal(du), Decimal(dd), 1 / Decimal(repair)
    half = (du + dd + mu) / 2
    root = (half * half - mu * du).sqrt()
    slow, fast = -half + root, -half - root
    a = (-(du + dd) - fast) / (slow - fast)

    def mean(polynomial):
        exponents = (((i * slow + j * fast) * mission, x) for (i, j), x in polynomial.items())
        return sum(x * (e.exp() - 1) / e if e else x for e, x in exponents)

    def power(n):
        result = {(0, 0): Decimal(1)}
        for _ in range(n):
            result = times(result, {(0, 0): Decimal(1), (1, 0): -a, (0, 1): a - 1})
        return result

    def up(skipped):
        result = {(0, 0): Decimal(1)}
        for number, n in enumerate(sizes):
            if number != skipped:
                some = {term: -x for term, x in power(n).items()}
                some[0, 0] += 1
                result = times(result, some)
        return result

    entry = Decimal(0)
    for number, n in enumerate(sizes):
        last_one = times({(1, 0): a, (0, 1): 1 - a}, power(n - 1))
        entry += n * (du + dd) * mean(times(last_one, up(number)))
    return 1 - mean(up(None)), entry


CLOSED = {
    "untested-1oo1": parallel("1e-6", 0, 8, 8760, 1),
    "untested-1oo2": parallel("1e-6", 0, 8, 8760, 2),
    "untested-1oo8": parallel("5e-5", 0, 8, 87600, 8),
    "never-tested-in-time": parallel("1e-6", 0, 8, 8760, 1),
    "mission-1": parallel("1e-6", 0, 8, 1, 1),
    "lost-one": parallel("1e-6", "1e-5", 8, 8760, 1),
    "eleven-channels": parallel("1e-6", "1e-6", 8, 400, 8, 3),
    "restart-fault": (Decimal("0.01"), Decimal("0.0002")),
    "down-before-tests": (Decimal("0.525"), Decimal("0.01")),
    "rates-zero": (Decimal(0), Decimal(0)),
}
TOO_LARGE = {"eleven-channels"}


def is_close(fraction, closed):
    return abs(Decimal(fraction.numerator) / Decimal(fraction.denominator) - closed) < Decimal("1e-40")


def contains(ends, fraction):
    return ends[0] <= fraction * 10**18 <= ends[1]


def printed(program, path):
    """The two intervals of a report, in steps of 10^-18."""
    text = subprocess.run([program, "check", path], capture_output=True, text=True).stdout
    ends = {}
    for line in text.splitlines():
        words = line.split()
        if words and words[0] in ("pfd", "pfh"):
            ends[words[0]] = (int(Decimal(words[1]).scaleb(18)), int(Decimal(words[3]).scaleb(18)))
    if len(ends) < 2:
        sys.exit(f"{path}: no figures: {text}")
    return ends["pfd"], ends["pfh"]


def faults_beside_stored(path, line, program):
    for stored, ends in zip(line, printed(program, path)):
        least = Fraction(stored)
        # What was cut off is less than a unit of the last decimal.
        if ends[1] < least * 10**18 or (least + Fraction(1, 10**20)) * 10**18 < ends[0]:
            yield f"the program {ends} lacks {stored}"


def faults_of(path, line, program):
    name, loop = path.stem, read_loop(path)
    if name in TOO_LARGE:
        figures = [Fraction(closed) for closed in CLOSED[name]]
    else:
        figures = figures_of(loop)
        if name in CLOSED and not all(map(is_close, figures, CLOSED[name])):
            yield f"closed form {CLOSED[name]}"
    if [decimal(figure, 20) for figure in figures] != line:
        yield f"expected.txt has {line}"
    mission = Mission(loop)
    intervals = [("forward.py", mission.compute())] + ([("the program", printed(program, path))] if program else [])
    for who, ends in intervals:
        for figure, pair, widest in zip(figures, ends, mission.widest()):
            if not contains(pair, figure):
                yield f"{who} {pair} lacks {float(figure)}"
            if pair[1] - pair[0] > widest:
                yield f"{who} {pair} is wider than {widest}"
    if intervals[0][1] != intervals[-1][1]:
        print(f"{name}: the ends are not those of forward.py: {intervals}")
    shares = [f"{(pair[1] - pair[0]) / widest:.4f}" for pair, widest in zip(intervals[-1][1], mission.widest())]
    print(f"{name}: {shares[0]} and {shares[1]} of the width allowed", flush=True)


def main():
    words = [it for it in sys.argv[1:] if it != "--stored"]
    compare = faults_beside_stored if "--stored" in sys.argv else faults_of
    if not 1 <= len(words) <= 2 or compare is faults_beside_stored and len(words) < 2:
        sys.exit(__doc__)
    folder, program = Path(words[0]), words[1] if len(words) > 1 else None
    lines = [line.split() for line in (folder / "expected.txt").read_text().splitlines() if line[0] != "#"]
    if sorted(line[0] for line in lines) != sorted(path.stem for path in folder.glob("*.toml")):
        sys.exit("expected.txt has other names than the folder")
    faults = []
    for name, *line in lines:
        faults += [f"{name}: {fault}" for fault in compare(folder / f"{name}.toml", line, program)]
    print("\n".join(faults) or f"{len(lines)} loops agree")
    sys.exit(1 if faults else 0)


if __name__ == "__main__":
    main()
