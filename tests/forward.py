#!/usr/bin/env python3
"""The report of a loop by the program's own method, written apart from the program.

usage: forward.py FILE..

One lumped vector is pushed forward in whole numbers, 2^48 being the whole, each rounding towards less; what the vector
lacks at the end widens the interval. docs/MODEL.md says the method. Where a loop is above a limit the line of the
refusal is printed. Vectors have only the states that can be reached, which does not change a digit. Standard library
only; a loop of three subsystems takes about ten seconds.
"""
import sys
from dataclasses import replace
from fractions import Fraction
from math import comb, factorial, prod
from operator import itemgetter, mul

from loop_reader import Refused, read_loop

ONE = 1 << 48
# The greatest block has 2^12 beats; the numbers of a block lack at most so much for each beat, and their tails for each pair.
LAST_RUNG, MOST_MISSING = 12, 200
# Below so many states at all beats no block is made, and none of more beats than one for each so many of them.
SMALL_WORK, BLOCK_WORK = 16_384, 64
# A loop of at most so many states may pass its phases by powers of the beat.
POWERS_STATES = 64
# The subsystems of a loop pass a phase each for itself where that takes at most so many products for each state and beat, each
# has at most so many states, and there are fewer beats than these.
SEPARATE_PRODUCTS, SEPARATE_STATES, SEPARATE_BEATS = 2, 64, 1 << 15
# What so many beats more have of a vector bounds what is lost of it, divided by 2 to this power, for each beat.
BEATS_ON, PART_ON = 16, 46
# For fewer beats no states are chosen; those into which the beats bring at most so much for each of them are left out.
LEAST_BEATS, LEAST_MASS = 8, 16
# With fewer beats before its greatest blocks a phase is passed in one part.
LEAST_EARLY = 64
WORK, HIDDEN, DEEP, REPAIR = range(4)
PFD_BANDS = ((10**17, "no SIL"), (10**16, "SIL 1"), (10**15, "SIL 2"), (10**14, "SIL 3"), (10**13, "SIL 4"))
PFH_BANDS = tuple((lower // 10**4, name) for lower, name in PFD_BANDS)


def upward(numerator, denominator):
    return -(-numerator // denominator)


def in_steps(fraction, step):
    assert (fraction * step).denominator == 1
    return int(fraction * step)


def series_weights(order):
    """For a beat: weights of what k ticks leave at its end, and of what they add to its mean."""
    # The whole series of 1/k! is below its sum to 40 and this tail.
    bound = sum(Fraction(1, factorial(k)) for k in range(41)) + Fraction(1, 40 * factorial(40))
    ends = [int(ONE / bound)]
    for k in range(1, order + 1):
        ends.append(ends[-1] // k)
    means = [sum(ends[k + 1:]) for k in range(order)]
    missing = ONE - sum(ends[:order])
    while not ends[-1]:
        ends.pop()
    return ends, means[:len(ends) - 1], missing


def times(row, columns):
    """A row times a matrix of these columns, rounded down."""
    return [sum(map(mul, row, column)) >> 48 for column in columns]


def followed(first, second):
    """The columns of the matrices of the beats of a first pair, followed by those of a second one."""
    rows = list(zip(*first[0]))
    end, dwell = ([[sum(map(mul, row, column)) >> 48 for row in rows] for column in matrix] for matrix in second)
    return end, [[a + b for a, b in zip(*columns)] for columns in zip(first[1], dwell)]


def product(first, second):
    """The product of two matrices of rows, rounded down."""
    columns = list(zip(*second))
    return [[sum(map(mul, row, column)) >> 48 for column in columns] for row in first]


def added(first, second):
    return [a + b for a, b in zip(first, second)]


class Ladder:
    """The numbers of 2, 4, 8, .. beats at once: of k ticks `numbers[k - low]`, each list the square of the one before it."""

    def __init__(self, lumped):
        numbers, low, self.rungs = series_weights(16)[0], 0, []
        in_blocks = [beats for _, beats in lumped.phases if not lumped.passes_separately(beats) and not lumped.passes_by_powers(beats)]
        work, longest = sum(in_blocks) * lumped.state_count, max(in_blocks, default=0)
        greatest = min(longest, work // BLOCK_WORK) if work >= SMALL_WORK else 0
        self.is_made = greatest > 0
        for exponent in range(1, LAST_RUNG + 1):
            if greatest < 1 << exponent:
                break
            numbers, low = self.squared(numbers), 2 * low
            first = next(k for k, x in enumerate(numbers) if x)
            numbers, low = numbers[first:], low + first
            if not self.is_close(1 << exponent, low, numbers):
                break
            self.rungs.append((1 << exponent, low, numbers))

    @staticmethod
    def squared(numbers):
        square = [0] * (2 * len(numbers) - 1)
        for i, x in enumerate(numbers):
            for j, y in enumerate(numbers):
                square[i + j] += x * y
        square = [x >> 48 for x in square]
        while not square[-1]:
            square.pop()
        return square

    @staticmethod
    def is_close(beats, low, numbers):
        dwell = sum((low + k) * x for k, x in enumerate(numbers))
        return ONE - sum(numbers) <= MOST_MISSING * beats and beats * ONE - dwell <= MOST_MISSING * beats * beats

    def early_beats(self, beats):
        """How many beats of a phase come before its greatest blocks, as a part of their own."""
        early = beats % max([1] + [of_rung for of_rung, _, _ in self.rungs if of_rung <= beats])
        return early if early >= LEAST_EARLY else 0

    def blocks_of(self, beats):
        """The blocks of a phase of so many beats, the greatest first, and how many beats are left for themselves."""
        blocks = []
        for rung in reversed(self.rungs):
            blocks += [rung] * (beats // rung[0])
            beats %= rung[0]
        return blocks, beats


class Lumped:
    """Count vectors (for each group four counts), their events, and the loop's sizes."""

    def __init__(self, loop):
        self.loop = loop
        self.groups = []
        for s in loop.subsystems:
            apart = s.test is not None and s.test.stagger > 0
            self.groups += [(s, i, 1) for i in range(s.channels)] if apart else [(s, 0, s.channels)]
        self.test_hours = loop.test_hours()
        self.rate = sum(s.channels * (in_steps(s.du + s.dd, 10**12) + upward(10**12, s.repair))
                        for s in loop.subsystems)
        ends = self.test_hours + [loop.mission]
        self.phases = [(end - start, self.beats_of(end - start)) for start, end in zip([0] + ends, ends)]
        self.state_count = 1
        for _, _, size in self.groups:
            self.state_count *= comb(size + 3, 3)
        self.beats = sum(beats for _, beats in self.phases)
        self.check_limits()

    def beats_of(self, hours):
        return max(1, upward(hours * self.rate, 10**12))

    def passes_by_powers(self, beats):
        """Whether a phase takes fewer products, at most, by the powers of its beat than beat by beat."""
        states, order, events = self.state_count, self.loop.order, self.event_count()
        of_beat = states * (order * (events + 1) + 2 * order + 1)
        of_powers = states * of_beat + 4 * states**3 * beats.bit_length() + 2 * states**2
        return states <= POWERS_STATES and of_powers < beats * of_beat

    def sizes(self):
        """For each subsystem how many states it has, and how many events lead from each."""
        groups = [[size for s, _, size in self.groups if s is subsystem] for subsystem in self.loop.subsystems]
        return [(prod(comb(size + 3, 3) for size in sizes), 4 * len(sizes) + 3) for sizes in groups]

    def passes_separately(self, beats):
        """Whether a phase takes few products, at most, where each subsystem passes it for itself, and loses little so."""
        sizes, states, events, digits = self.sizes(), self.state_count, self.event_count(), beats.bit_length()
        if len(sizes) < 2 or max(size for size, _ in sizes) > SEPARATE_STATES or beats >= SEPARATE_BEATS:
            return False
        of_beat = lambda count, ways: count * (16 * (ways + 1) + 33)
        along, cubes = states * sum(size for size, _ in sizes), sum(size**3 for size, _ in sizes)
        products = sum(size * of_beat(size, ways) + 4 * size**3 for size, ways in sizes) \
            + 2 * digits * (along + cubes) + 3 * along + of_beat(states, events)
        of_powers = states * states * (self.loop.order * (events + 1) + 2 * self.loop.order + 1) \
            + 4 * states**3 * digits + 2 * states**2
        lack, rounded = sum(2 * ways + 3 * size + 13 for size, ways in sizes), len(sizes) * states
        vectors = 2 * beats * lack + 3 * rounded + 16 * lack + 16 * (beats + 16)
        all_lost = beats * lack + rounded + 2 * states + 9 * beats + 2 * events + 2 * states + 13 + 256
        return products <= SEPARATE_PRODUCTS * beats * states and (states > POWERS_STATES or products <= of_powers) \
            and states * vectors <= 1 << 46 and all_lost <= beats * (2 * events + 2 * states + 200)

    def event_count(self):
        return 4 * len(self.groups) + 3 * len(self.loop.subsystems)

    def number_of(self, state):
        """The number of a state among all: a digit for each group, that of the first one being the least."""
        number = 0
        for counts in reversed(state):
            a, b, c = sum(counts[HIDDEN:]), sum(counts[DEEP:]), counts[REPAIR]
            number = number * comb(sum(counts) + 3, 3) + comb(a + 2, 3) + comb(b + 1, 2) + c
        return number

    def check_limits(self):
        tests = sum(len(range(s.test.first + i * s.test.stagger, self.loop.mission, s.test.every))
                    for s in self.loop.subsystems if s.test for i in range(s.channels))
        work = self.beats * self.loop.order * self.state_count
        for text, count, limit in (("{} channel tests", tests, 4096), ("{} states", self.state_count, 4096),
                                   ("{} beats", self.beats, 10**6), ("work {}", work, 2**34)):
            if count > limit:
                raise Refused(f"refused: {text.format(count)}, limit {limit}")

    def groups_of(self, subsystem):
        return [g for g, (s, _, _) in enumerate(self.groups) if s is subsystem]

    def is_up(self, state):
        return all(sum(state[g][WORK] + (state[g][REPAIR] if s.tripped else 0) for g in self.groups_of(s)) >= s.needed
                   for s in self.loop.subsystems)

    def moved(self, state, groups, origin, to, every):
        """The state with one channel of the groups moved from one place to another, or every one of them."""
        result = list(state)
        for g in groups:
            counts = list(state[g])
            n = counts[origin] if every else 1
            counts[origin] -= n
            counts[to] += n
            result[g] = tuple(counts)
        return tuple(result)

    def events(self, state):
        """Triples of a target, a rate in 10^-18 per hour, and the rate as a fraction per hour; failures come first."""
        failures, repairs = {}, []
        for g, (s, _, _) in enumerate(self.groups):
            for to, rate in ((HIDDEN, (1 - s.beta) * s.coverage * s.du),
                             (DEEP, (1 - s.beta) * (1 - s.coverage) * s.du), (REPAIR, (1 - s.beta_d) * s.dd)):
                if rate and state[g][WORK]:
                    target = self.moved(state, [g], WORK, to, False)
                    failures[target] = failures.get(target, 0) + state[g][WORK] * rate
            if state[g][REPAIR]:
                repairs.append((self.moved(state, [g], REPAIR, WORK, False), Fraction(state[g][REPAIR], s.repair)))
        for s in self.loop.subsystems:
            groups = self.groups_of(s)
            for to, rate in ((HIDDEN, s.beta * s.coverage * s.du), (DEEP, s.beta * (1 - s.coverage) * s.du),
                             (REPAIR, s.beta_d * s.dd)):
                if rate and any(state[g][WORK] for g in groups):
                    target = self.moved(state, groups, WORK, to, True)
                    failures[target] = failures.get(target, 0) + rate
        return [(target, in_steps(rate, 10**18), rate) for target, rate in failures.items()] + \
               [(target, 0, rate) for target, rate in repairs]

    def tested(self, state, g, full):
        """Pairs of how many channels in work fail at the test and the state that this leaves."""
        s, (work, hidden, deep, repair) = self.groups[g][0], state[g]
        found = hidden + (deep if full else 0)
        for failed in range(work + 1 if s.restart_fault else 1):
            counts = (work - failed, failed, 0 if full else deep, repair + found)
            yield failed, state[:g] + (counts,) + state[g + 1:]


class Mission:
    def __init__(self, loop):
        self.loop = loop
        self.lumped = lumped = Lumped(loop)
        self.ends, self.means, self.missing = series_weights(loop.order)
        self.ladder, self.kept, self.separate, self.digits = Ladder(lumped), {}, [], []
        self.reach()
        self.up = [lumped.is_up(state) for state in self.states]
        self.entry = [sum(steps for target, steps, _ in events if not self.up[self.numbers[target]]) if up else 0
                      for events, up in zip(self.events, self.up)]
        self.fault_rows = {s.name: self.fault_rows_of(s) for s in loop.subsystems}

    def reach(self):
        start = tuple((size, 0, 0, 0) for _, _, size in self.lumped.groups)
        self.states, self.numbers, self.events = [start], {start: 0}, []
        for state in self.states:
            events = self.lumped.events(state)
            self.events.append(events)
            targets = [target for target, _, _ in events]
            for g, (s, _, _) in enumerate(self.lumped.groups):
                for full in ((False, True) if s.test else ()):
                    targets += [target for _, target in self.lumped.tested(state, g, full)]
            for target in targets:
                if target not in self.numbers:
                    self.numbers[target] = len(self.states)
                    self.states.append(target)
        self.in_order = sorted(range(len(self.states)), key=lambda number: self.lumped.number_of(self.states[number]))

    def columns(self, hours, beats):
        """For each state the sources of one tick and their weights, in two lists."""
        columns = [([], []) for _ in self.states]
        for number, events in enumerate(self.events):
            taken = 0
            for target, _, rate in events:
                share = rate * hours / beats * ONE
                sources, weights = columns[self.numbers[target]]
                sources.append(number)
                weights.append(int(share))
                taken += upward(share.numerator, share.denominator)
            columns[number][0].append(number)
            columns[number][1].append(max(0, ONE - taken))
        return columns

    @staticmethod
    def chain_over(columns, places):
        """The tick over some states: for each of them a getter of its sources and their weights, and none for others."""
        chain = []
        for number, (sources, weights) in enumerate(columns):
            pairs = [(source, weight) for source, weight in zip(sources, weights) if source in places] if number in places else []
            # A getter of one place gives no list, so a second place of weight 0 stands beside it.
            chain.append((itemgetter(*[source for source, _ in pairs], 0, 0), [weight for _, weight in pairs] + [0, 0]))
        return chain

    def chain(self, hours, beats):
        return self.chain_over(self.columns(hours, beats), range(len(self.states)))

    @staticmethod
    def reached_from(vector, columns):
        """The states that a vector can reach."""
        places = {number for number, x in enumerate(vector) if x}
        while True:
            more = {number for number, (sources, weights) in enumerate(columns) if number not in places
                    and any(weight and source in places for source, weight in zip(sources, weights))}
            if not more:
                return places
            places |= more

    def heavy(self, vector, columns, ticks, least):
        """The states that hold more than `least` or into which so many ticks bring more, by an estimate."""
        masses = list(vector)

        def flow(number):
            sources, weights = columns[number]
            comes = sum(masses[source] * weight for source, weight in zip(sources, weights) if source != number)
            return comes >> 24, sum(weight for source, weight in zip(sources, weights) if source == number)

        for number in self.in_order + self.in_order[::-1]:
            comes, stays = flow(number)
            held = min(ticks, ONE // max(1, ONE - stays))
            masses[number] = min(ONE, vector[number] + (comes * held >> 24))
        return {number for number, x in enumerate(vector) if x + (flow(number)[0] * ticks >> 24) > least}

    def chosen(self, vector, columns, beats, reached):
        """The states over which blocks of beats are tried, or `None`."""
        if beats < LEAST_BEATS or not self.ladder.is_made:
            return None
        states, events = self.lumped.state_count, self.lumped.event_count()
        entries = lambda those: sum(weight and source in those for number in those for source, weight in zip(*columns[number]))
        of_beat = lambda those: 16 * entries(those) + 33 * len(those)
        left = beats * states * (16 * (events + 1) + 33) - 3 * states * (events + 2)
        if beats * of_beat(reached) > left:
            return None
        places = self.heavy(vector, columns, beats + beats // 4, LEAST_MASS * beats)
        clearly_fewer = 16 * entries(places) <= 15 * entries(reached)
        return places if clearly_fewer and beats * (of_beat(places) + of_beat(reached)) <= left else None

    def loses_little(self, before, after, dwell, beats):
        loss = 2 * self.lumped.event_count() + 2 * self.lumped.state_count + 200
        return 2 * (sum(before) - sum(after)) <= beats * loss and \
            2 * (beats * sum(before) - sum(dwell)) <= beats * beats * loss

    def run_phase(self, vector, hours, beats):
        if self.lumped.passes_separately(beats):
            vector, total = self.pass_separately(vector, hours, beats)
        elif self.lumped.passes_by_powers(beats):
            end, dwell = self.powers(hours, beats)
            vector, total = times(vector, end), times(vector, dwell)
        else:
            vector, total = self.pass_blocks(vector, hours, beats)
        return vector, [hours * (x // beats) + hours * (x % beats) // beats for x in total]

    def pass_separately(self, vector, hours, beats):
        """The beats of each subsystem, as the powers of the matrix of one beat of it, along its digit of the vector."""
        one = [alone.beat_rows(hours, beats) for alone in self.alone()]
        sixteen, power, visited, whole = one, one, vector, sum(vector)
        for _ in range(4):
            sixteen = [product(rows, rows) for rows in sixteen]
        for digit in bin(beats)[3:]:
            visited, power = added(visited, self.along(visited, power)), [product(rows, rows) for rows in power]
            if digit == "1":
                visited, power = added(visited, self.along(vector, power)), [product(*pair) for pair in zip(power, one)]
        end = self.along(vector, power)
        end = self.lowered(end, self.along(end, sixteen), beats, 1, whole)
        visited = self.lowered(visited, self.along(visited, sixteen), beats, beats, whole)
        ends, means, _ = series_weights(16)
        _, dwell = self.pass_block(self.chain(hours, beats), [x // beats for x in visited], 0, ends, means)
        return end, [x * beats for x in dwell]

    def alone(self):
        """A mission of each subsystem for itself, and for each state of the loop the numbers of its states there."""
        if not self.separate:
            self.separate = [Mission(replace(self.loop, subsystems=[s])) for s in self.loop.subsystems]
        if not self.digits:
            ends = [len(alone.lumped.groups) for alone in self.separate]
            self.digits = [tuple(alone.numbers[state[sum(ends[:i]):sum(ends[:i + 1])]] for i, alone in enumerate(self.separate))
                           for state in self.states]
            self.place_of = {digits: place for place, digits in enumerate(self.digits)}
        return self.separate

    def beat_rows(self, hours, beats):
        """Row i is what is left of the whole at the state i after one beat."""
        chain, (ends, means, _), size = self.chain(hours, beats), series_weights(16), len(self.states)
        return [self.pass_block(chain, [ONE if j == i else 0 for j in range(size)], 0, ends, means)[0] for i in range(size)]

    def along(self, vector, matrices):
        """What a matrix of each subsystem brings of a vector, one after another."""
        for i, rows in enumerate(matrices):
            vector = self.along_one(vector, i, rows)
        return vector

    def along_one(self, vector, i, rows):
        total = [0] * len(vector)
        for x, digits in zip(vector, self.digits):
            for to, weight in enumerate(rows[digits[i]] if x else []):
                if weight:
                    total[self.place_of[digits[:i] + (to,) + digits[i + 1:]]] += x * weight
        return [x >> 48 for x in total]

    def lowered(self, vector, later, beats, times, whole):
        """A vector less what ticks beyond the order of a beat may have brought into it."""
        lacked = 2 * times * whole - sum(vector) - sum(later) + 16 * times * (beats + BEATS_ON)
        return [max(0, (x << PART_ON) - beats * (x + y + lacked)) >> PART_ON for x, y in zip(vector, later)]

    def powers(self, hours, beats):
        """The columns of the matrix of so many beats and of that of the dwell in them, by the binary digits of the beats."""
        if (hours, beats) in self.kept:
            return self.kept[hours, beats]
        chain, size = self.chain(hours, beats), len(self.states)
        rows = [self.pass_block(chain, [ONE if j == i else 0 for j in range(size)], 0, self.ends, self.means)
                for i in range(size)]
        one = [list(map(list, zip(*matrix))) for matrix in zip(*rows)]
        pair = one
        for digit in bin(beats)[3:]:
            for second in (pair, one)[:1 + int(digit)]:
                pair = followed(pair, second)
        self.kept[hours, beats] = pair
        return pair

    def pass_blocks(self, vector, hours, beats):
        """The beats before the greatest blocks of a phase, and these."""
        columns, total = self.columns(hours, beats), [0] * len(vector)
        early = self.ladder.early_beats(beats)
        for part in (early, beats - early):
            if part:
                vector, dwell = self.pass_part(vector, columns, part)
                total = [a + b for a, b in zip(total, dwell)]
        return vector, total

    def pass_part(self, vector, columns, beats):
        """Some beats over chosen states, where little is lost so, and else over all that are reached."""
        reached = self.reached_from(vector, columns)
        places = self.chosen(vector, columns, beats, reached)
        if places is not None:
            start = [x if number in places else 0 for number, x in enumerate(vector)]
            after, dwell = self.pass_over(start, self.chain_over(columns, places), beats)
            if self.loses_little(vector, after, dwell, beats):
                return after, dwell
        return self.pass_over(vector, self.chain_over(columns, reached), beats)

    def pass_over(self, vector, chain, beats):
        dwell = [0] * len(vector)
        blocks, left = self.ladder.blocks_of(beats)
        beat = (1, 0, self.ends)
        for _, low, numbers in blocks + [beat] * left:
            tails = self.means if numbers is self.ends else [sum(numbers[k + 1:]) for k in range(len(numbers) - 1)]
            vector, more = self.pass_block(chain, vector, low, numbers, tails)
            dwell = [total + x for total, x in zip(dwell, more)]
        return vector, dwell

    def pass_block(self, chain, vector, low, numbers, tails):
        """The vector at the end of some beats, and what it dwells in them."""
        tick = lambda v: [sum(map(mul, weights, sources(v))) >> 48 for sources, weights in chain]
        flat, end_sums, mean_sums = sum(numbers), [0] * len(vector), [0] * len(vector)
        for _ in range(low):
            mean_sums = [total + flat * x for total, x in zip(mean_sums, vector)]
            vector = tick(vector)
        for k, (end, mean) in enumerate(zip(numbers, tails + [0])):
            if k:
                vector = tick(vector)
            end_sums = [total + end * x for total, x in zip(end_sums, vector)]
            mean_sums = [total + mean * x for total, x in zip(mean_sums, vector)]
        return [total >> 48 for total in end_sums], [total >> 48 for total in mean_sums]

    def fault_rows_of(self, s):
        """Row w has the chances that 0, 1, .. of w channels in work fail at a test, rounded down."""
        fault = int(s.restart_fault * ONE)
        sound = int((1 - s.restart_fault) * ONE)
        rows = [[ONE]]
        for _ in range(s.channels):
            old = rows[-1]
            rows.append([(sound * a + fault * b) >> 48 for a, b in zip(old + [0], [0] + old)])
        return rows

    def tests(self, vector, hour):
        """The vector after the tests of an hour, and bounds of what was up before all of them and is down after."""
        parts = [[x if up else 0 for x, up in zip(vector, self.up)], [0 if up else x for x, up in zip(vector, self.up)]]
        for g, (s, first_channel, _) in enumerate(self.lumped.groups):
            full = s.test_of(first_channel, hour)
            if full is None:
                continue
            for p, part in enumerate(parts):
                after = [0] * len(part)
                for state, x in zip(self.states, part):
                    if x:
                        for failed, target in self.lumped.tested(state, g, full):
                            after[self.numbers[target]] += x * self.fault_rows[s.name][state[g][WORK]][failed]
                parts[p] = [total >> 48 for total in after]
        passed_low = sum(x for x, up in zip(parts[0], self.up) if not up)
        passed_high = ONE - sum(x for x, up in zip(parts[0], self.up) if up) - sum(parts[1])
        return [a + b for a, b in zip(*parts)], passed_low, passed_high

    def compute(self):
        """The two intervals, in steps of 10^-18."""
        loop, lumped = self.loop, self.lumped
        vector = [ONE] + [0] * (len(self.states) - 1)
        hours_in = [0] * len(vector)
        passed_low = passed_high = 0
        for number, (hours, beats) in enumerate(lumped.phases):
            vector, more = self.run_phase(vector, hours, beats)
            hours_in = [a + b for a, b in zip(hours_in, more)]
            if number < len(lumped.test_hours):
                vector, low, high = self.tests(vector, lumped.test_hours[number])
                passed_low += low
                passed_high += high
        mean = [total // loop.mission for total in hours_in]
        down = sum(x for x, up in zip(mean, self.up) if not up)
        up = sum(x for x, up in zip(mean, self.up) if up)
        pfd = (down * 10**18 >> 48, upward((ONE - up) * 10**18, ONE))
        known = sum(map(mul, mean, self.entry))
        low = (known + 10**18 * passed_low // loop.mission) >> 48
        high = upward(known + self.failures() * (ONE - sum(mean)) + upward(10**18 * passed_high, loop.mission), ONE)
        return pfd, (low, high)

    def failures(self):
        """The sum of the rates of all failure events, in 10^-18 per hour."""
        return in_steps(sum(s.channels * ((1 - s.beta) * s.du + (1 - s.beta_d) * s.dd) + s.beta * s.du
                            + s.beta_d * s.dd for s in self.loop.subsystems), 10**18)

    def widest(self):
        """How wide the two intervals may be, in steps of 10^-18, by the count of all roundings."""
        lumped, states, events = self.lumped, self.lumped.state_count, self.lumped.event_count()
        group_tests = sum(s.test_of(first, hour) is not None for hour in lumped.test_hours
                          for s, first, _ in lumped.groups)
        budget = lumped.beats * (2 * events + 3 * states + self.missing + self.loop.order**2) \
            + group_tests * 2 * (states + 32) + len(lumped.phases) * states + 2 * states
        passages = Fraction(len(lumped.test_hours) * 10**18, self.loop.mission)
        return budget * 10**18 // ONE + 2, int(budget * (self.failures() + passages) / ONE) + 3


def band(ends, bands):
    names = [next((name for lower, name in bands if end >= lower), "beyond SIL 4") for end in ends]
    return names[0] if names[0] == names[1] else "undecided"


def decimal18(steps):
    return f"{steps // 10**18}.{steps % 10**18:018}"


def report(loop):
    mission = Mission(loop)
    lines = [f"mission {loop.mission}", f"phases {len(mission.lumped.phases)}",
             f"states {mission.lumped.state_count}", f"beats {mission.lumped.beats}", f"order {loop.order}"]
    pfd, pfh = mission.compute()
    for name, ends, bands in (("pfd", pfd, PFD_BANDS), ("pfh", pfh, PFH_BANDS)):
        lines.append(f"{name} {decimal18(ends[0])} .. {decimal18(ends[1])} {band(ends, bands)}")
    return lines


if __name__ == "__main__":
    for path in sys.argv[1:]:
        if len(sys.argv) > 2:
            print(f"# {path}")
        try:
            print("\n".join(report(read_loop(path))), flush=True)
        except Refused as refusal:
            print(refusal, flush=True)
