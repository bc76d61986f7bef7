#!/usr/bin/env python3
"""PFDavg and PFH of a loop over full states, by another method than the program's.

usage: independent.py FILE..

Every channel has its own state and no states are lumped. A phase is the exponential of the generator over its hours,
made by a Taylor series on a short stretch and repeated squaring, in whole numbers with 256 binary places; two columns
beside the generator gather the time down and the entries into it. Tests are maps of single channels. The model is that
of docs/MODEL.md, taken to its limit: the exact Markov process.

Prints a line `FILE PFDAVG PFH` for each file, cut off after 20 decimals. More than 25 decimals are correct. A loop of
five channels takes some seconds, one of six a minute or more. Standard library only.
"""
import sys
from fractions import Fraction

from loop_reader import read_loop

PLACES = 256
ONE = 1 << PLACES
WORK, HIDDEN, DEEP, REPAIR = range(4)


def fixed(fraction):
    return (fraction.numerator << PLACES) // fraction.denominator


class Process:
    """The full states that can be reached, the rates between them, and what counts as down."""

    def __init__(self, loop):
        self.loop = loop
        self.channels = [(s, i) for s in loop.subsystems for i in range(s.channels)]
        self.numbers = {}
        self.rows = []
        self.down = []
        self.entry = []
        waiting = [(WORK,) * len(self.channels)]
        self.numbers[waiting[0]] = 0
        states = list(waiting)
        while waiting:
            state = waiting.pop()
            for target in [t for t, _ in self.events(state)] + list(self.tested_anyhow(state)):
                if target not in self.numbers:
                    self.numbers[target] = len(states)
                    states.append(target)
                    waiting.append(target)
        self.states = states
        for state in states:
            self.add_row(state)

    def is_up(self, state):
        first = 0
        for s in self.loop.subsystems:
            own = state[first:first + s.channels]
            if own.count(WORK) + (own.count(REPAIR) if s.tripped else 0) < s.needed:
                return False
            first += s.channels
        return True

    def events(self, state):
        """Pairs of a target and a rate per hour, of the events that change the state."""
        found = []
        for c, (s, _) in enumerate(self.channels):
            if state[c] == WORK:
                moves = [(HIDDEN, (1 - s.beta) * s.coverage * s.du), (DEEP, (1 - s.beta) * (1 - s.coverage) * s.du),
                         (REPAIR, (1 - s.beta_d) * s.dd)]
            elif state[c] == REPAIR:
                moves = [(WORK, Fraction(1, s.repair))]
            else:
                moves = []
            found += [(state[:c] + (to,) + state[c + 1:], rate) for to, rate in moves]
        for subsystem in self.loop.subsystems:
            for to, rate in ((HIDDEN, subsystem.beta * subsystem.coverage * subsystem.du),
                             (DEEP, subsystem.beta * (1 - subsystem.coverage) * subsystem.du),
                             (REPAIR, subsystem.beta_d * subsystem.dd)):
                target = tuple(to if self.channels[c][0] is subsystem and was == WORK else was
                               for c, was in enumerate(state))
                found.append((target, rate))
        return [(target, rate) for target, rate in found if rate and target != state]

    def after_test(self, subsystem, was, full):
        """Pairs of a channel's state after a test and its chance."""
        if was == WORK:
            return [(HIDDEN, subsystem.restart_fault), (WORK, 1 - subsystem.restart_fault)]
        if was == HIDDEN or (was == DEEP and full):
            return [(REPAIR, Fraction(1))]
        return [(was, Fraction(1))]

    def tested_anyhow(self, state):
        for c, (s, _) in enumerate(self.channels):
            if s.test is not None:
                for full in (False, True):
                    for to, chance in self.after_test(s, state[c], full):
                        if chance:
                            yield state[:c] + (to,) + state[c + 1:]

    def add_row(self, state):
        row, entry, leaving = {}, Fraction(0), Fraction(0)
        for target, rate in self.events(state):
            number = self.numbers[target]
            row[number] = row.get(number, 0) + rate
            leaving += rate
            if self.is_up(state) and not self.is_up(target):
                entry += rate
        row[self.numbers[state]] = row.get(self.numbers[state], 0) - leaving
        self.rows.append(row)
        self.down.append(not self.is_up(state))
        self.entry.append(entry)


def product(left, right):
    result = []
    for row in left:
        sums = {}
        for middle, a in row.items():
            for column, b in right[middle].items():
                sums[column] = sums.get(column, 0) + a * b
        result.append({column: total >> PLACES for column, total in sums.items() if total >> PLACES})
    return result


def exponential(rows):
    """The exponential of a square matrix of fractions, given by its rows as dictionaries; fixed point rows."""
    greatest = max(sum(abs(x) for x in row.values()) for row in rows)
    halvings = max(0, int(greatest).bit_length() + 8)
    short = [{column: fixed(x / 2**halvings) for column, x in row.items() if x} for row in rows]
    identity = [{number: ONE} for number in range(len(rows))]
    total, term, k = [dict(row) for row in identity], identity, 0
    while any(term):
        k += 1
        term = [{c: x // k for c, x in row.items() if x // k not in (0, -1)} for row in product(term, short)]
        for row, more in zip(total, term):
            for column, x in more.items():
                row[column] = row.get(column, 0) + x
    for _ in range(halvings):
        total = product(total, total)
    return total


class Figures:
    def __init__(self, loop):
        self.loop = loop
        self.process = Process(loop)
        self.phases = {}

    def phase(self, hours):
        """The exponential over so many hours; the last two columns are the mean share down and the entries."""
        if hours not in self.phases:
            process, n = self.process, len(self.process.states)
            rows = []
            for number in range(n):
                row = {column: rate * hours for column, rate in process.rows[number].items()}
                row[n] = Fraction(process.down[number])
                row[n + 1] = process.entry[number] * hours
                rows.append(row)
            self.phases[hours] = exponential(rows + [{}, {}])[:n]
        return self.phases[hours]

    def tested(self, vector, hour):
        """The vector after all tests of the hour, one channel after another."""
        process = self.process
        for c, (s, i) in enumerate(process.channels):
            full = s.test_of(i, hour)
            if full is None:
                continue
            after = [0] * len(vector)
            for number, x in enumerate(vector):
                if x:
                    state = process.states[number]
                    for to, chance in process.after_test(s, state[c], full):
                        if chance:
                            target = process.numbers[state[:c] + (to,) + state[c + 1:]]
                            after[target] += x * chance.numerator // chance.denominator
            vector = after
        return vector

    def compute(self):
        loop, process, n = self.loop, self.process, len(self.process.states)
        vector = [ONE] + [0] * (n - 1)
        hours_down = entries = 0
        hour = 0
        # Of each phase its start, its hours, the mean and the chance at its end, before the tests.
        self.by_phase = []
        for end in loop.test_hours() + [loop.mission]:
            sums = [0] * (n + 2)
            for x, row in zip(vector, self.phase(end - hour)):
                if x:
                    for column, y in row.items():
                        sums[column] += x * y
            sums = [total >> PLACES for total in sums]
            vector = sums[:n]
            hours_down += sums[n] * (end - hour)
            entries += sums[n + 1]
            down = sum(x for x, d in zip(vector, process.down) if d)
            self.by_phase.append((hour, end - hour, Fraction(sums[n], ONE), Fraction(down, ONE)))
            if end < loop.mission:
                was_up = self.tested([0 if d else x for x, d in zip(vector, process.down)], end)
                was_down = self.tested([x if d else 0 for x, d in zip(vector, process.down)], end)
                entries += sum(x for x, d in zip(was_up, process.down) if d)
                vector = [a + b for a, b in zip(was_up, was_down)]
            hour = end
        return Fraction(hours_down, ONE * loop.mission), Fraction(entries, ONE * loop.mission)


def figures_of(loop):
    """PFDavg, and PFH per hour, as fractions that are correct to far more than 25 decimals."""
    return Figures(loop).compute()


def phases_of(loop):
    """Of each phase its start, its hours, the mean over it and the chance of being down at its end, before the tests."""
    figures = Figures(loop)
    figures.compute()
    return figures.by_phase


def decimal(fraction, places):
    # A hair is added first, so that a figure with few decimals is not shown a step below itself.
    digits = int((fraction + Fraction(1, 10**(places + 15))) * 10**places)
    return f"{digits // 10**places}.{digits % 10**places:0{places}}"


if __name__ == "__main__":
    for path in sys.argv[1:]:
        pfd, pfh = figures_of(read_loop(path))
        print(path, decimal(pfd, 20), decimal(pfh, 20), flush=True)
