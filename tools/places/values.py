"""What a value at a port says: a key of the blackboard, a number or a text."""

import re
from dataclasses import dataclass
from typing import Optional

from .built_ins import RANGES, is_identifier

CANONICAL = re.compile(r"0|-?[1-9][0-9]*")

# digits of a rate; more before the point are above the greatest one
RATE = re.compile(r"(?:0|[1-9][0-9]{0,3})(?:\.[0-9]{1,3})?")

MOST_TEXT = 4096


@dataclass(frozen=True)
class Trouble:
    """What is wrong with a value, and what would be right."""

    message: str
    help: str


def is_key(text: str) -> bool:
    """Whether the text stands in braces."""
    return text.startswith("{") and text.endswith("}")


def key_of(port: str, text: str) -> str:
    """The key that a text in braces names at a port of this name."""
    return port if text == "{=}" else text[1:-1]


def number(text: str) -> Optional[int]:
    """The number of 64 bits with a sign that the text writes canonically, if it writes one."""
    if not text.isascii() or not CANONICAL.fullmatch(text):
        return None
    value = int(text) if len(text) < 40 else 1 << 64
    return value if -2 ** 63 <= value < 2 ** 63 else None


def fits(range_: str, text: str) -> bool:
    """Whether the literal is in the range."""
    value = number(text)
    if range_ == "any value":
        return value is not None or len(text.encode()) <= MOST_TEXT
    if range_ == "truth":
        return text in ("true", "false", "1", "0")
    if range_ == "rate":
        return RATE.fullmatch(text) is not None and 0 < float(text) <= 1000
    if value is None:
        return False
    if range_ == "turns":
        return value == -1 or 1 <= value <= 1000
    return range_ == "number" or 0 <= value <= (1000 if range_ == "recoveries" else 4294967295)


def trouble(range_: str, port: str, text: str) -> Optional[Trouble]:
    """What is wrong with the text at a port of this range and name, if it may not stand there."""
    if is_key(text):
        key = key_of(port, text)
        if is_identifier(key):
            return None
        if key.startswith("@"):
            return Trouble(f"{text} names no key: there is no board above that of the main tree",
                           "give the key through the ports of the SubTree nodes")
        return Trouble(f"{text} names no key", "between { and } stands an ASCII letter or _, and then letters, digits and _")
    if fits(range_, text):
        return None
    if range_ == "any value":
        return Trouble(f"the text at {port} has {len(text.encode())} bytes", f"at most {MOST_TEXT}")
    return Trouble(f"{port} does not take '{text}'", f"it takes {RANGES[range_]}, or a key as {{{port}}}")
