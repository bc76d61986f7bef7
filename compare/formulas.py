"""PFDavg and PFH by simplified formulas after Annex B of IEC 61508-6, as docs/COMPARISON.md states them.

Floating point; None where there is no formula for a vote.
"""


def intervals(s, mission):
    """Pairs of an interval between tests and the share of the undetected failures that are found by such tests."""
    if s.test is None:
        return [(mission, 1.0)]
    every = s.test.every
    full = min(every * s.test.full_each, mission)
    found = float(s.coverage)
    return [(every, found), (full, 1 - found)]


def subsystem_figures(s, mission):
    du, dd, beta, beta_d = map(float, (s.du, s.dd, s.beta, s.beta_d))
    # A repair after a test; a subsystem that is not tested has none, and one that is tripped counts as working then.
    after_test = 0 if s.test is None or s.tripped else s.repair
    detected = 0 if s.tripped else s.repair
    hidden = [sum(share * (interval / part + after_test) for interval, share in intervals(s, mission))
              for part in (2, 3, 4)]
    rate = du + dd
    down = [(du * h + dd * detected) / rate if rate else 0.0 for h in hidden]
    single = (1 - beta_d) * dd + (1 - beta) * du
    common = beta_d * dd * detected + beta * du * hidden[0]
    single_du = (1 - beta) * du
    vote = f"{s.needed}oo{s.channels}"
    pfd = {"1oo1": rate * down[0], "2oo2": 2 * rate * down[0],
           "1oo2": 2 * single**2 * down[0] * down[1] + common,
           "2oo3": 6 * single**2 * down[0] * down[1] + common,
           "1oo3": 6 * single**3 * down[0] * down[1] * down[2] + common}
    pfh = {"1oo1": du, "2oo2": 2 * du,
           "1oo2": 2 * single * single_du * down[0] + beta * du,
           "2oo3": 6 * single * single_du * down[0] + beta * du,
           "1oo3": 6 * single**2 * single_du * down[0] * down[1] + beta * du}
    return pfd.get(vote), pfh.get(vote)


def figures_of(loop):
    """The sums over the subsystems."""
    figures = [subsystem_figures(s, loop.mission) for s in loop.subsystems]
    return tuple(None if None in column else sum(column) for column in zip(*figures))
