"""The lines of a trace, and the last block of a run that ended in a fault."""

import re
from dataclasses import dataclass, field
from typing import List, Optional, Tuple

HEADER = re.compile(r"(?:(?:tick|halt|finish) ([0-9]+)|set [A-Za-z0-9_]+ -?[0-9]+|tell [0-9]+ [0-9]+ [A-Z]+) at ([0-9]+)")

FAULT = re.compile(r"fault ([0-9]+) ([0-9]+) (.+)")

QUENCH = re.compile(r"quench ([0-9]+) ([0-9]+)")

NODE = re.compile(r"node ([0-9]+) ([A-Z]+) ([A-Z]+)")

# the output of a run that is looked at has no more bytes: where it has so many it is the end of one
MOST_OUTPUT = 1 << 20

# the status of a node that has no line in the end of a trace
UNKNOWN = ""

CALL = re.compile(r"call ([0-9]+) (start|running|halted)(?: ([A-Z]+))?")


@dataclass
class Faulted:
    """How a run ended in a fault."""

    runner: int
    uid: int
    cause: List[str]
    header: str
    moment: str
    before: str = ""
    status: str = "IDLE"
    quenched: List[Tuple[int, int]] = field(default_factory=list)


def faulted(text: str, is_whole: bool = True) -> Optional[Faulted]:
    """How the run of a trace, or of the end of one, ended in a fault, if it did: `fault` stands in the last block, with
    `quench` lines behind."""
    lines = text.split("\n")
    for at in range(len(lines) - 1, -1, -1):
        fault = FAULT.fullmatch(lines[at])
        if fault is not None:
            begun = next((i for i in range(at - 1, -1, -1) if HEADER.fullmatch(lines[i])), None)
            return None if begun is None else ended_by(fault, lines, begun, at, "IDLE" if is_whole else UNKNOWN)
        if HEADER.fullmatch(lines[at]):
            return None
    return None


def ended_by(fault: "re.Match[str]", lines: List[str], begun: int, at: int, status: str) -> Faulted:
    """What the block of a fault tells, between its header and the lines behind the fault; a node had this status at first."""
    runner, uid = fault.group(1), fault.group(2)
    header = HEADER.fullmatch(lines[begun])
    moment = header.group(2) if header is not None else "0"
    quenched = [(int(q.group(1)), int(q.group(2))) for q in map(QUENCH.fullmatch, lines[at + 1:]) if q is not None]
    before = lines[at - 1] if at - 1 > begun else ""
    return Faulted(int(runner), int(uid), fault.group(3).split(" "), lines[begun], moment, before,
                   status_of(lines[:at], runner, uid, status), quenched)


def status_of(lines: List[str], runner: str, uid: str, status: str) -> str:
    """The status of a runner's node behind these lines, which had this one before them."""
    turn = ""
    front = f"node {uid} "
    for line in lines:
        if line.startswith(("tick ", "halt ", "finish ")):
            turn = line.split(" ")[1]
        elif turn == runner and line.startswith(front):
            status = line.rsplit(" ", 1)[1]
    return status
