#!/usr/bin/env python3
"""Draws the probability of being down over the mission, from what `sil check FILE --series` prints.

    ./sil check --series FILE | python3 docs/pictures/saw_tooth.py > saw_tooth.svg

Reads the lines `phase I start T hours H mean LO .. HI end LO .. HI` from standard input and writes an SVG. Within a phase
the curve is drawn as the straight line that has the printed mean and the printed end, which is what it nearly is; the
intervals are far narrower than the line. Standard library alone.
"""

import sys

WIDTH, HEIGHT = 720, 300
LEFT, RIGHT, TOP, BOTTOM = 70, 12, 14, 42


def phases(lines):
    """The start, the hours, the mean and the end of each phase; of each interval its middle."""
    for line in lines:
        words = line.split()
        if len(words) == 14 and words[0] == "phase":
            mean = (float(words[7]) + float(words[9])) / 2
            end = (float(words[11]) + float(words[13])) / 2
            yield int(words[3]), int(words[5]), mean, end


def steps_of(greatest):
    """A round step for about five marks on an axis."""
    step = 10.0 ** -18
    while greatest / step > 6:
        for factor in (2, 2.5, 2):
            step *= factor
            if greatest / step <= 6:
                return step
    return step


def marks(greatest):
    step = steps_of(greatest)
    count = int(greatest / step + 1e-9)
    return [k * step for k in range(count + 1)]


def main():
    drawn = list(phases(sys.stdin))
    if not drawn:
        sys.exit("saw_tooth: no line of a phase was read; was --series given?")
    mission = drawn[-1][0] + drawn[-1][1]
    greatest = max(max(end, 2 * mean - end) for _, _, mean, end in drawn) or 1.0

    def x(hour):
        return LEFT + (WIDTH - LEFT - RIGHT) * hour / mission

    def y(chance):
        return HEIGHT - BOTTOM - (HEIGHT - TOP - BOTTOM) * chance / (1.05 * greatest)

    out = [
        f'<svg xmlns="http://www.w3.org/2000/svg" viewBox="0 0 {WIDTH} {HEIGHT}" font-family="sans-serif" font-size="12">',
        f'<rect width="{WIDTH}" height="{HEIGHT}" fill="white"/>',
    ]
    for mark in marks(greatest):
        out.append(f'<path d="M{LEFT} {y(mark):.1f}H{WIDTH - RIGHT}" stroke="#ddd"/>')
        out.append(f'<text x="{LEFT - 6}" y="{y(mark) + 4:.1f}" text-anchor="end">{mark:.3g}</text>')
    for mark in marks(mission):
        out.append(f'<text x="{x(mark):.1f}" y="{HEIGHT - BOTTOM + 18}" text-anchor="middle">{mark:.0f}</text>')
    whole = sum(hours * mean for _, hours, mean, _ in drawn) / mission
    out.append(f'<path d="M{LEFT} {y(whole):.1f}H{WIDTH - RIGHT}" stroke="#c60" stroke-dasharray="5 4"/>')
    out.append(f'<text x="{WIDTH - RIGHT}" y="{y(whole) - 5:.1f}" text-anchor="end" fill="#c60">PFDavg {whole:.3g}</text>')
    path = []
    for start, hours, mean, end in drawn:
        begin = max(0.0, 2 * mean - end)
        path.append(f'{"L" if path else "M"}{x(start):.1f} {y(begin):.1f}L{x(start + hours):.1f} {y(end):.1f}')
    out.append(f'<path d="{"".join(path)}" fill="none" stroke="#06c" stroke-width="1.6"/>')
    out.append(f'<path d="M{LEFT} {TOP}V{HEIGHT - BOTTOM}H{WIDTH - RIGHT}" fill="none" stroke="black"/>')
    out.append(f'<text x="{(LEFT + WIDTH - RIGHT) / 2}" y="{HEIGHT - 8}" text-anchor="middle">hours</text>')
    out.append(f'<text x="14" y="{(TOP + HEIGHT - BOTTOM) / 2}" text-anchor="middle" transform="rotate(-90 14 {(TOP + HEIGHT - BOTTOM) / 2})">probability of being down</text>')
    out.append("</svg>")
    print("\n".join(out))


main()
