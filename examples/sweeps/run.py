#!/usr/bin/env python3
"""run.py TREE WORLD: runs the tree over one world, and keeps what came of it beside the world, in a file that ends in .row.

The file is there whole or not at all: it gets its name last, and only where `bt` ended well. Else the status is that of `bt`.
The program is the one that the environment variable BT names, else the `bt` of this repository, else that in the path."""

import os
import pathlib
import subprocess
import sys
from typing import Iterable

BESIDE = pathlib.Path(__file__).resolve().parent.parent.parent / "bt"
# What is told of a run, and the uid of the Grip.
COLUMNS = ["answer", "ended", "grips", "halted"]
GRIP = "5"


def row_of(trace: "Iterable[str]") -> "list[object]":
    """What a trace tells of the first run of its tree: its answer, when it came, how often the robot gripped, and which leaf
    was halted. Ticks after the answer begin anew, and count no more."""
    moment, grips, halted = 0, 0, ""
    for first, *words in map(str.split, trace):
        if first == "tick":
            moment = int(words[-1])
        elif first == "call" and words[1] == "halted":
            halted = words[0]
        elif first == "call":
            grips += words[:2] == [GRIP, "start"]
        elif first == "root" and words[1] != "RUNNING":
            return [words[1], moment, grips, halted]
        elif first == "fault":
            return ["fault", moment, grips, halted]
    return ["none", moment, grips, halted]


def main(words: "list[str]") -> int:
    """Runs the tree over the world that the words name."""
    if len(words) != 2:
        print(__doc__.split(":")[0], file=sys.stderr)
        return 2
    program = os.environ.get("BT") or (str(BESIDE) if BESIDE.exists() else "bt")
    ran = subprocess.run([program, "tick", *words], stdout=subprocess.PIPE)
    # After a fault in the run, 5, the trace is whole too.
    if ran.returncode not in (0, 5):
        return ran.returncode if ran.returncode > 0 else 128 - ran.returncode
    kept = pathlib.Path(words[1]).with_suffix(".row")
    part = kept.with_name(f"{kept.name}.{os.getpid()}")
    part.write_text(",".join(map(str, row_of(ran.stdout.decode().split("\n")[:-1]))) + "\n")
    part.replace(kept)
    return 0


if __name__ == "__main__":
    sys.exit(main(sys.argv[1:]))
