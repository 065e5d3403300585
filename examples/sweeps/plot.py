#!/usr/bin/env python3
"""plot.py TABLE: prints a picture, in SVG, of when the runs of a table ended, and with which answer."""

import collections
import csv
import sys

COLOURS = {"SUCCESS": "#2a7f62", "FAILURE": "#c0392b", "fault": "#6c3483", "none": "#7f8c8d"}
# The milliseconds of a bar, and sizes in the picture: of a bar, of all bars, and of the room around them.
STEP, WIDTH, HEIGHT, MARGIN = 1_000, 18, 240, 48


def bars(runs: "list[dict[str, str]]") -> "list[collections.Counter[str]]":
    """How many runs ended with each answer in each step of time."""
    steps = [collections.Counter() for _ in range(1 + max(int(run["ended"]) for run in runs) // STEP)]
    for run in runs:
        steps[int(run["ended"]) // STEP][run["answer"]] += 1
    return steps


def bar(place: int, counts: "collections.Counter[str]", scale: float) -> "list[str]":
    """The marks of one bar, an answer upon the other, and of the second below it, for each fifth."""
    left, top, marks = MARGIN + place * WIDTH, float(MARGIN + HEIGHT), []
    for answer, colour in COLOURS.items():
        height = counts[answer] * scale
        top -= height
        if height:
            place_of_bar = f'x="{left}" y="{top:.1f}" width="{WIDTH - 2}" height="{height:.1f}"'
            marks.append(f'<rect {place_of_bar} fill="{colour}"><title>{counts[answer]} {answer}</title></rect>')
    if place % 5 == 0:
        marks.append(f'<text x="{left}" y="{MARGIN + HEIGHT + 16}">{place * STEP // 1_000} s</text>')
    return marks


def picture(runs: "list[dict[str, str]]") -> str:
    """The whole picture."""
    steps = bars(runs)
    highest = max(sum(counts.values()) for counts in steps)
    width, height = 2 * MARGIN + WIDTH * len(steps), 2 * MARGIN + HEIGHT
    answers = sum(steps, collections.Counter())
    shares = [f'<tspan fill="{COLOURS[it]}">{it} {answers[it]}</tspan>' for it in COLOURS if answers[it]]
    lines = [
        f'<svg xmlns="http://www.w3.org/2000/svg" viewBox="0 0 {width} {height}" width="{width}" height="{height}"',
        ' font-family="sans-serif" font-size="12">',
        '<rect width="100%" height="100%" fill="white"/>',
        f'<text x="{MARGIN}" y="20">{len(runs)} runs by the second in which they ended: {", ".join(shares)}</text>',
        f'<text x="{MARGIN - 6}" y="{MARGIN + 4}" text-anchor="end">{highest}</text>',
        f'<text x="{MARGIN - 6}" y="{MARGIN + HEIGHT}" text-anchor="end">0</text>',
    ]
    for place, counts in enumerate(steps):
        lines += bar(place, counts, HEIGHT / highest)
    return "\n".join([*lines, "</svg>", ""])


def main(words: "list[str]") -> int:
    """Prints the picture of the table that the words name."""
    if len(words) != 1:
        print(__doc__.split(":")[0], file=sys.stderr)
        return 2
    with open(words[0], newline="") as table:
        runs = list(csv.DictReader(table))
    if not runs:
        print("plot: the table has no runs", file=sys.stderr)
        return 1
    sys.stdout.write(picture(runs))
    return 0


if __name__ == "__main__":
    sys.exit(main(sys.argv[1:]))
