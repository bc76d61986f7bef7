"""PFDavg and PFH of a loop in double precision, by matrix exponentials of each subsystem's own Markov chain.

Subsystems share no event and no test, so their states are independent: each is pushed through its phases alone, over
the states of its channels, and what is up together is a product. A phase is cut into stretches that double in length,
and each stretch has ten points of Gauss and Legendre; the exponentials of one stretch are the squares of those of the
one before. No bound on the error is known; in practice some twelve digits are right. Standard library only.
"""
import math
from itertools import product as tuples

WORK, HIDDEN, DEEP, REPAIR = range(4)


def gauss_points(n):
    """Points and weights of the rule of Gauss and Legendre on 0 to 1."""
    points = []
    for i in range(n):
        x = math.cos(math.pi * (i + 0.75) / (n + 0.5))
        for _ in range(100):
            before, value = 1.0, x
            for k in range(2, n + 1):
                before, value = value, ((2 * k - 1) * x * value - (k - 1) * before) / k
            slope = n * (x * value - before) / (x * x - 1)
            x -= value / slope
        points.append(((1 - x) / 2, 1 / ((1 - x * x) * slope * slope)))
    return points


POINTS = gauss_points(10)


def times(left, right):
    rows = []
    for row in left:
        sums = {}
        for middle, a in row.items():
            for column, b in right[middle].items():
                sums[column] = sums.get(column, 0.0) + a * b
        rows.append(sums)
    return rows


def applied(rows, values):
    return [sum(x * values[column] for column, x in row.items()) for row in rows]


def pushed(vector, rows):
    result = [0.0] * len(vector)
    for x, row in zip(vector, rows):
        for column, y in row.items():
            result[column] += x * y
    return result


def exponential(rows, hours):
    """The series of the exponential, for a matrix whose rows times the hours are at most about one."""
    total = [{number: 1.0} for number in range(len(rows))]
    term = total
    for k in range(1, 25):
        term = [{column: x * hours / k for column, x in row.items()} for row in times(term, rows)]
        total = [{column: row.get(column, 0.0) + more.get(column, 0.0) for column in row | more}
                 for row, more in zip(total, term)]
    return total


class Part:
    """One subsystem: the states of its channels, the generator's rows, what is down, and the rate of going there."""

    def __init__(self, s):
        self.subsystem = s
        self.states = list(tuples(range(4), repeat=s.channels))
        self.number = {state: number for number, state in enumerate(self.states)}
        self.down = [float(not self.is_up(state)) for state in self.states]
        self.rows, self.entry = [], []
        for state in self.states:
            row, entry = {}, 0.0
            for target, rate in self.events(state):
                if rate and target != state:
                    row[self.number[target]] = row.get(self.number[target], 0.0) + rate
                    if self.is_up(state) and not self.is_up(target):
                        entry += rate
            row[self.number[state]] = -sum(row.values())
            self.rows.append(row)
            self.entry.append(entry)
        self.vector = [0.0] * len(self.states)
        self.vector[0] = 1.0
        self.phases = {}

    def is_up(self, state):
        return state.count(WORK) + (state.count(REPAIR) if self.subsystem.tripped else 0) >= self.subsystem.needed

    def events(self, state):
        s = self.subsystem
        du, dd, beta, beta_d, found = float(s.du), float(s.dd), float(s.beta), float(s.beta_d), float(s.coverage)
        for c, was in enumerate(state):
            if was == WORK:
                for to, rate in ((HIDDEN, (1 - beta) * found * du), (DEEP, (1 - beta) * (1 - found) * du),
                                 (REPAIR, (1 - beta_d) * dd)):
                    yield state[:c] + (to,) + state[c + 1:], rate
            elif was == REPAIR:
                yield state[:c] + (WORK,) + state[c + 1:], 1 / s.repair
        for to, rate in ((HIDDEN, beta * found * du), (DEEP, beta * (1 - found) * du), (REPAIR, beta_d * dd)):
            yield tuple(to if was == WORK else was for was in state), rate

    def fastest(self):
        return max(-row[number] for number, row in enumerate(self.rows))

    def prepare(self, hours, halvings):
        """For each point the chances, from each state, to be down and to go down; and the whole exponential."""
        if hours not in self.phases:
            length = hours / 2**halvings
            inner = [exponential(self.rows, length * x) for x, _ in POINTS]
            whole = exponential(self.rows, length)
            points = [(applied(m, self.down), applied(m, self.entry)) for m in inner]
            for _ in range(halvings):
                points += [(applied(whole, applied(m, self.down)), applied(whole, applied(m, self.entry)))
                           for m in inner]
                inner, whole = [times(m, m) for m in inner], times(whole, whole)
            self.phases[hours] = points, whole
        return self.phases[hours]

    def chance(self, values, vector=None):
        return math.fsum(x * value for x, value in zip(vector or self.vector, values))

    def tested(self, vector, hour):
        s = self.subsystem
        for c in range(s.channels):
            full = s.test_of(c, hour)
            if full is None:
                continue
            after = [0.0] * len(vector)
            for state, x in zip(self.states, vector):
                if state[c] == WORK:
                    moves = [(HIDDEN, float(s.restart_fault)), (WORK, float(1 - s.restart_fault))]
                elif state[c] == HIDDEN or (state[c] == DEEP and full):
                    moves = [(REPAIR, 1.0)]
                else:
                    moves = [(state[c], 1.0)]
                for to, chance in moves:
                    after[self.number[state[:c] + (to,) + state[c + 1:]]] += x * chance
            vector = after
        return vector


def some_down(chances):
    """The chance that at least one of independent parts is down, without losing digits of small ones."""
    down = 0.0
    for chance in chances:
        down += (1 - down) * chance
    return down


def figures_of(loop):
    """PFDavg and PFH per hour."""
    parts = [Part(s) for s in loop.subsystems]
    fastest = max(part.fastest() for part in parts)
    hours_down = entries = 0.0
    start = 0
    for end in loop.test_hours() + [loop.mission]:
        hours = end - start
        halvings = max(0, math.ceil(math.log2(max(hours * fastest, 1e-9))))
        prepared = [part.prepare(hours, halvings) for part in parts]
        weights = [w for _, w in POINTS]
        for k in range(halvings):
            weights += [w * 2**k for _, w in POINTS]
        for number, weight in enumerate(weights):
            share = hours / 2**halvings * weight
            down = [part.chance(points[number][0]) for part, (points, _) in zip(parts, prepared)]
            going = [part.chance(points[number][1]) for part, (points, _) in zip(parts, prepared)]
            hours_down += share * some_down(down)
            entries += share * sum(g * (1 - some_down(down[:i] + down[i + 1:])) for i, g in enumerate(going))
        for part, (_, whole) in zip(parts, prepared):
            part.vector = pushed(part.vector, whole)
        if end < loop.mission:
            # A passage: every part was up before all tests, and some part is down after them.
            was_up, lost = 1.0, []
            for part in parts:
                up = [x * (1 - down) for x, down in zip(part.vector, part.down)]
                was_up *= math.fsum(up)
                lost.append(part.chance(part.down, part.tested(up, end)) / math.fsum(up) if any(up) else 0.0)
                part.vector = part.tested(part.vector, end)
            entries += was_up * some_down(lost)
        start = end
    return hours_down / loop.mission, entries / loop.mission
