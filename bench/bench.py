#!/usr/bin/env python3
"""Times `check` on a handful of loops, and says how many products and ticks the method makes of each.

usage: bench/bench.py PROGRAM [RUNS]        for example: bench/bench.py crates/sil/out/sil 5

Time and peak memory are those of the whole program, from start to end, the best of so many runs (5, if not said). Places,
ticks and products are counted here, apart from the program, by the method that docs/MODEL.md describes, which is run for
it and takes a minute: of each phase the binary digits of its beats, of each block of beats the ticks of its rung, of each
tick the ways with a weight between the count vectors that the phase goes over; where a phase goes by the powers of its
beat, one beat from each count vector and the products of matrices; where each subsystem passes it for itself, the same of
each subsystem, the products of its matrices and the vector, and one beat of the loop. No figure is a test. Standard
library only.
"""
import subprocess
import sys
import tempfile
import time
from dataclasses import replace
from itertools import product
from pathlib import Path

TOP = Path(__file__).resolve().parent.parent
sys.path.insert(0, str(TOP / "tests"))
from forward import Mission  # noqa: E402
from loop_reader import read_loop  # noqa: E402

LARGEST_WORK = """version = 1
mission = 3100
order = 16
[[subsystem]]
name = "a"
vote = "1oo8"
du = "1.0E-6"
dd = "1.0E-6"
coverage = "0.5"
repair = 4
[[subsystem]]
name = "b"
vote = "1oo3"
du = "1.0E-6"
dd = "1.0E-6"
coverage = "0.5"
repair = 4
"""


def all_states(lumped):
    """All count vectors, those that cannot be reached too."""
    shares = [[(n - i, i - j, j - k, k) for i in range(n + 1) for j in range(i + 1) for k in range(j + 1)]
              for _, _, n in lumped.groups]
    return product(*shares)


def all_ways(lumped):
    """How many ways with a rate lead between all count vectors, and to each of them from itself."""
    return sum(1 + len({target for target, _, _ in lumped.events(state)}) for state in all_states(lumped))


class Whole(Mission):
    """The method over all count vectors."""

    def reach(self):
        self.states = list(all_states(self.lumped))
        self.numbers = {state: number for number, state in enumerate(self.states)}
        self.events = [self.lumped.events(state) for state in self.states]
        self.in_order = range(len(self.states))


class Counted(Mission):
    """The method, with a count of its ticks and products, and of the most count vectors that a phase goes over."""

    def __init__(self, loop):
        self.ticks = self.products = self.places = 0
        self.timed_for = None
        super().__init__(loop)

    def count(self, low, numbers, places, ways):
        ticks = low + len(numbers) - 1
        self.ticks += ticks
        # The last tail is 0, and before the first number nothing is weighed if there is no tick.
        self.products += ticks * ways + (2 * len(numbers) - (low == 0)) * places

    def pass_over(self, vector, chain, beats):
        places = sum(any(weights) for _, weights in chain)
        ways = sum(weight > 0 for _, weights in chain for weight in weights)
        self.places = max(self.places, places)
        blocks, left = self.ladder.blocks_of(beats)
        if not self.ladder.is_made:
            places, ways = self.lumped.state_count, all_ways(self.lumped)
        for _, low, numbers in blocks + [(1, 0, self.ends)] * left:
            self.count(low, numbers, places, ways)
        return super().pass_over(vector, chain, beats)

    def powers(self, hours, beats):
        states, self.places = self.lumped.state_count, self.lumped.state_count
        if (hours, beats) not in self.kept:
            for _ in range(states):
                self.count(0, self.ends, states, all_ways(self.lumped))
            joins = beats.bit_length() - 1 + bin(beats).count("1") - 1
            self.products += joins * 2 * states**3
        self.products += 2 * states**2
        return super().powers(hours, beats)


    def alone(self):
        if not self.separate:
            self.separate = [Whole(replace(self.loop, subsystems=[s])) for s in self.loop.subsystems]
        return super().alone()

    def pass_separately(self, vector, hours, beats):
        subsystems = self.alone()
        cubes = sum(len(alone.states)**3 for alone in subsystems)
        if self.timed_for != (hours, beats):
            self.timed_for = hours, beats
            for alone in subsystems:
                for _ in alone.states:
                    self.count(0, self.ends, len(alone.states), all_ways(alone.lumped))
            self.products += 4 * cubes
        self.products += (beats.bit_length() - 1 + bin(beats).count("1") - 1) * cubes
        self.count(0, self.ends, self.lumped.state_count, all_ways(self.lumped))
        return super().pass_separately(vector, hours, beats)

    def along(self, vector, matrices):
        self.places = max(self.places, sum(x > 0 for x in vector))
        for i, rows in enumerate(matrices):
            # The lines that differ in the digit i alone and have something, each once for each entry of the matrix.
            lines = {digits[:i] + digits[i + 1:] for x, digits in zip(vector, self.digits) if x}
            self.products += len(lines) * sum(weight > 0 for row in rows for weight in row)
            vector = self.along_one(vector, i, rows)
        return vector


def counted(path):
    mission = Counted(read_loop(path))
    mission.compute()
    return mission


def timed(program, path):
    """Seconds from start to end."""
    start = time.perf_counter()
    subprocess.run([program, "check", path], stdout=subprocess.DEVNULL, check=True)
    return time.perf_counter() - start


def peak_memory(program, path):
    """The greatest memory that was seen during a run, in kB. Looking at it slows the run down, so this one is not timed."""
    child = subprocess.Popen([program, "check", path], stdout=subprocess.DEVNULL)
    peak = 0
    while child.poll() is None:
        with open(f"/proc/{child.pid}/status") as status:
            peak = max([peak] + [int(line.split()[1]) for line in status if line.startswith("VmHWM")])
    assert child.returncode == 0, path
    return peak


def main():
    program = sys.argv[1]
    runs = int(sys.argv[2]) if len(sys.argv) > 2 else 5
    with tempfile.TemporaryDirectory() as folder:
        largest = Path(folder) / "largest-work.toml"
        largest.write_text(LARGEST_WORK)
        paths = [TOP / "examples/one-channel.toml", TOP / "examples/three-subsystems.toml",
                 TOP / "tests/larger/generated-7.toml", TOP / "tests/larger/eleven-channels.toml",
                 TOP / "tests/loops/hourly-tests.toml", largest]
        print(f"{'loop':22} {'states':>6} {'places':>7} {'beats':>7} {'ticks':>8} {'products':>12} "
              f"{'ms':>9} {'ns/product':>10} {'kB':>6}")
        for path in paths:
            method = counted(path)
            best = min(timed(program, str(path)) for _ in range(runs))
            peak = max(peak_memory(program, str(path)) for _ in range(runs))
            print(f"{path.stem:22} {method.lumped.state_count:6} {method.places:7} {method.lumped.beats:7} {method.ticks:8} "
                  f"{method.products:12} {best * 1e3:9.2f} {best * 1e9 / method.products:10.2f} {peak:6}")


main()
