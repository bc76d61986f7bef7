#!/usr/bin/env python3
"""The loop of a number: three subsystems with figures drawn from it, as a loop file.

usage: generator.py NUMBER [FOLDER COUNT]

With a folder and a count, COUNT files from NUMBER on are written there as loop-NUMBER.toml. The numbers run through
the linear congruential generator of 64 bits with the multiplier 6364136223846793005 and the increment
1442695040888963407, of which the upper 31 bits are used. Standard library only.
"""
import sys
from pathlib import Path


class Draws:
    def __init__(self, number):
        self.state = number

    def below(self, n):
        self.state = (6364136223846793005 * self.state + 1442695040888963407) % 2**64
        return self.state // 2**33 % n


def loop_file(number):
    draws = Draws(number)
    mission = 8760 * (3 + draws.below(3))
    repair = 24 * (1 + draws.below(3))
    lines = ["version = 1", f"mission = {mission}"]
    for name in ("sensors", "logic", "valves"):
        vote = {"sensors": ("1oo2", "2oo3", "1oo3")[draws.below(3)] if name == "sensors" else "",
                "logic": "1oo1", "valves": "1oo2"}[name]
        du = 100000 * (1 + draws.below(50))
        dd = 100000 * draws.below(100)
        beta = 10 * draws.below(11)
        coverage = 1000 - 50 * draws.below(3)
        restart_fault = 100 * draws.below(6)
        full_each = 1 + draws.below(3)
        lines += ["", "[[subsystem]]", f'name = "{name}"', f'vote = "{vote}"', f'du = "{du}E-12"', f'dd = "{dd}E-12"',
                  f'beta = "{beta}E-3"', f'beta_d = "{beta // 2}E-3"', f'coverage = "{coverage}E-3"',
                  f'restart_fault = "{restart_fault}E-6"', f"repair = {repair}",
                  f"test = {{ every = 8760, full_each = {full_each} }}"]
    return "\n".join(lines) + "\n"


if __name__ == "__main__":
    number = int(sys.argv[1])
    if len(sys.argv) == 2:
        print(loop_file(number), end="")
    else:
        folder = Path(sys.argv[2])
        folder.mkdir(parents=True, exist_ok=True)
        for n in range(number, number + int(sys.argv[3])):
            (folder / f"loop-{n}.toml").write_text(loop_file(n))
