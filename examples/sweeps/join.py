#!/usr/bin/env python3
"""join.py FOLDER: prints one table of all worlds, what was drawn for each and what came of it.

Where a world has no row yet, there is no table: its number is told, and the status is 1."""

import collections
import csv
import pathlib
import sys

sys.dont_write_bytecode = True
from run import COLUMNS  # noqa: E402


def row_of(folder: pathlib.Path, number: str) -> "list[str]":
    """The row of a world, or nothing where it is not there or not whole, as after the machine lost its power."""
    try:
        line = (folder / f"{number}.row").read_text()
    except FileNotFoundError:
        return []
    row = line.rstrip("\n").split(",")
    return row if line.endswith("\n") and len(row) == len(COLUMNS) else []


def main(words: "list[str]") -> int:
    """Prints the table of the folder that the words name, and says how many runs ended with each answer."""
    if len(words) != 1:
        print(__doc__.split(":")[0], file=sys.stderr)
        return 2
    folder = pathlib.Path(words[0])
    with open(folder / "draws.csv", newline="") as draws:
        head, *drawn = csv.reader(draws)
    rows = [row_of(folder, number) for number, *_ in drawn]
    missing = [draw[0] for draw, row in zip(drawn, rows) if not row]
    if missing:
        print(f"join: {len(missing)} of {len(drawn)} worlds have no row: {' '.join(missing)}", file=sys.stderr)
        return 1
    table = csv.writer(sys.stdout, lineterminator="\n")
    table.writerow(head + COLUMNS)
    table.writerows(draw + row for draw, row in zip(drawn, rows))
    answers = collections.Counter(row[0] for row in rows)
    told = ", ".join(f"{count} {answer}" for answer, count in answers.most_common())
    print(f"join: {len(drawn)} worlds: {told}", file=sys.stderr)
    return 0


if __name__ == "__main__":
    sys.exit(main(sys.argv[1:]))
