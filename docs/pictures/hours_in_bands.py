#!/usr/bin/env python3
"""Draws the hours of the mission in each band of PFD, from what `sil check FILE --occupancy` prints.

    ./sil check --occupancy FILE | python3 docs/pictures/hours_in_bands.py > hours_in_bands.svg

Reads the seven lines `hours BAND H` from standard input and writes an SVG, with a bar for each band and its share of the
mission. Standard library alone.
"""

import sys

WIDTH, ROW, LEFT, RIGHT, TOP = 720, 30, 104, 150, 12


def hours_of(lines):
    """The bands and their hours, in the order in which they are printed."""
    for line in lines:
        words = line.split()
        if len(words) > 2 and words[0] == "hours" and words[-1].isdigit():
            yield " ".join(words[1:-1]), int(words[-1])


def main():
    drawn = list(hours_of(sys.stdin))
    mission = sum(hours for _, hours in drawn)
    if not mission:
        sys.exit("hours_in_bands: no hours were read; was --occupancy given?")
    height = 2 * TOP + ROW * len(drawn)
    out = [
        f'<svg xmlns="http://www.w3.org/2000/svg" viewBox="0 0 {WIDTH} {height}" font-family="sans-serif" font-size="12">',
        f'<rect width="{WIDTH}" height="{height}" fill="white"/>',
    ]
    for row, (band, hours) in enumerate(drawn):
        top, length = TOP + ROW * row, (WIDTH - LEFT - RIGHT) * hours / mission
        middle = top + ROW / 2 + 4
        out.append(f'<text x="{LEFT - 8}" y="{middle:.0f}" text-anchor="end">{band}</text>')
        out.append(f'<rect x="{LEFT}" y="{top + 5}" width="{length:.1f}" height="{ROW - 10}" fill="#4a6fa5"/>')
        out.append(f'<text x="{LEFT + length + 8:.1f}" y="{middle:.0f}">{hours:,} h, {100 * hours / mission:.1f} %</text>')
    out.append("</svg>")
    print("\n".join(out))


if __name__ == "__main__":
    main()
