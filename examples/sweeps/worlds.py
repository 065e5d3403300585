#!/usr/bin/env python3
"""worlds.py COUNT FOLDER [SEED]: makes the world scripts 1.world to COUNT.world by drawing numbers for a template.

FOLDER is a new one, so that no world meets what came of another. It also gets draws.csv, the table of what was drawn for
each. A world depends on its number and the seed alone."""

import csv
import pathlib
import random
import string
import sys

HERE = pathlib.Path(__file__).resolve().parent
# The tree is ticked once in so many milliseconds, for somewhat longer than its Timeout lasts.
PERIOD, LENGTH = 100, 36_000
TICKS = "\n".join(f"at {moment}\ntick 1" for moment in range(0, LENGTH, PERIOD))


def drawn(chance: random.Random) -> "dict[str, object]":
    """What is drawn for one world: durations by their least, greatest and likeliest value in milliseconds, and the outcomes
    of three grips, of which six in ten hold."""
    return {
        "to_shelf": round(chance.triangular(6_000, 20_000, 9_000)),
        "grip": round(chance.triangular(1_500, 4_000, 2_000)),
        "outcomes": "".join("S" if chance.random() < 0.6 else "F" for _ in range(3)),
        "to_desk": round(chance.triangular(6_000, 20_000, 9_000)),
    }


def main(words: "list[str]") -> int:
    """Makes the worlds that the words ask for."""
    if len(words) not in (2, 3) or not words[0].isdecimal() or int(words[0]) < 1:
        print(__doc__.split(":")[0], file=sys.stderr)
        return 2
    count, folder, seed = int(words[0]), pathlib.Path(words[1]), (words[2:] or ["1"])[0]
    template = string.Template((HERE / "fetch_parcel.template").read_text())
    try:
        folder.mkdir(parents=True)
    except OSError as fault:
        print(f"worlds: {fault}", file=sys.stderr)
        return 1
    with open(folder / "draws.csv", "w", newline="") as table:
        rows = csv.writer(table, lineterminator="\n")
        for number in range(1, count + 1):
            draw = drawn(random.Random(f"{seed} {number}"))
            if number == 1:
                rows.writerow(["world", *draw])
            rows.writerow([number, *draw.values()])
            (folder / f"{number}.world").write_text(template.substitute(draw, ticks=TICKS))
    return 0


if __name__ == "__main__":
    sys.exit(main(sys.argv[1:]))
