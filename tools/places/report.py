"""Messages in the form of a compiler's: file, line, column, the line itself and a caret."""

import itertools
import os
import signal
import sys
from dataclasses import dataclass, field
from typing import Iterable, List, Optional

from .escapes import escaped, shortened
from .source import Source

MOST_SHOWN = 110

TAIL = 50

# how many signs of a line are told, and how many lines of one message
MOST_SIGNS, MOST_LINES = 600, 500

# how many warnings of a call are told, and how many of one kind are looked for
MOST_WARNINGS, MOST_FOUND = 20, 500

# a variable of the environment: where it is set, a tool that fails in itself says so, and is not silent
FAILS_ALOUD = "BT_FAILS_ALOUD"

# how long a tool that explains or warns may work, in seconds, and how long where a build waits for its answer; what it does is
# bounded otherwise
MOST_SECONDS, MOST_STRICT = 1.0, 60.0


@dataclass(frozen=True)
class Place:
    """A part of a file."""

    source: Source
    start: int
    end: int


@dataclass
class Note:
    """Another place that belongs to a message."""

    message: str
    place: Place


@dataclass
class Report:
    """One message with its place, what stands around it, and what would be right."""

    severity: str
    message: str
    place: Optional[Place] = None
    inside: str = ""
    helps: List[str] = field(default_factory=list)
    notes: List[Note] = field(default_factory=list)

    def lines(self) -> List[str]:
        """The lines of the message."""
        lines = headed(self.place, self.severity, self.message)
        if self.inside:
            lines.append("  in " + self.inside)
        if self.place is not None:
            lines += shown(self.place)
        lines += ["  help: " + text for text in self.helps]
        for note in self.notes:
            lines += headed(note.place, "note", note.message) + shown(note.place)
        return lines


def headed(place: Optional[Place], severity: str, message: str) -> List[str]:
    """The first line of a message."""
    if place is None:
        return [f"bt: {severity}: {message}"]
    line, column = place.source.position(place.start)
    return [f"{place.source.name}:{line}:{column}: {severity}: {message}"]


def shown(place: Place) -> List[str]:
    """The line of a place, and a caret below it. A long line is cut around the place."""
    line = place.source.line_of(place.start)
    text = place.source.text(line)
    left = len(place.source.front(line, place.start))
    right = max(left + 1, min(len(text), len(place.source.front(line, place.end))))
    text, left, right = cut(text, left, right)
    text = "".join(visible(sign) for sign in text)
    gap = "".join("\t" if sign == "\t" else " " * width(sign) for sign in text[:left])
    under = sum(width(sign) for sign in text[left:right]) or 1
    return [f"{line:>6} | {text}", f"       | {gap}^{'~' * (under - 1)}"]


def cut(text: str, left: int, right: int) -> "tuple[str, int, int]":
    """A long line without what stands far from the span, and the span in it."""
    if len(text) <= MOST_SHOWN:
        return text, left, right
    start = max(0, left - TAIL)
    end = min(len(text), start + MOST_SHOWN)
    front = "..." if start else ""
    back = "..." if end < len(text) else ""
    shift = len(front) - start
    return front + text[start:end] + back, left + shift, max(left + 1, min(right, end)) + shift


def visible(sign: str) -> str:
    """The sign, or another one where it would move what a terminal shows."""
    return sign if sign == "\t" or sign.isprintable() else "\ufffd"


def width(sign: str) -> int:
    """How many columns of a terminal the sign takes."""
    if ord(sign) < 0x1100:
        return 1
    import unicodedata
    return 2 if unicodedata.east_asian_width(sign) in "WF" else 1


def warning_lines(reports: List[Report]) -> List[str]:
    """The lines of the first of these warnings, and how many more there are."""
    lines = [line for report in reports[:MOST_WARNINGS] for line in report.lines()]
    more = len(reports) - MOST_WARNINGS
    return lines + [f"bt: {more} more warning{'s' * (more > 1)}"] if more > 0 else lines


def end_after(seconds: float, status: int = 0) -> None:
    """Lets the process end with this status when it has worked so long, at 0 without a word. The processor's time counts, so a
    machine that is busy with other work changes nothing."""
    def end(*_: object) -> None:
        if FAILS_ALOUD in os.environ or status:
            os.write(2, b"the time is over\n")
        os._exit(status or int(FAILS_ALOUD in os.environ))

    signal.signal(signal.SIGPROF, end)
    signal.setitimer(signal.ITIMER_PROF, seconds)


def tell(lines: Iterable[str]) -> None:
    """Writes lines to standard error: each stays one line, whatever names it has of a file, and what is very long is cut."""
    told = list(itertools.islice(lines, MOST_LINES + 1))
    if len(told) > MOST_LINES:
        told[MOST_LINES:] = ["bt: and so on"]
    text = "".join(escaped(shortened(line, MOST_SIGNS), "\t") + "\n" for line in told)
    try:
        sys.stderr.flush()
        sys.stderr.buffer.write(text.encode("utf-8"))
        sys.stderr.buffer.flush()
    except OSError:
        pass
