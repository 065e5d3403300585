"""Values of ports and of the blackboard: whole numbers of 64 bits with a sign, and texts."""

import re
from typing import Optional, Union

Value = Union[int, str]

CANONICAL = re.compile(r"0|-?[1-9][0-9]{0,18}")
ESCAPE = re.compile(r"\\(x[0-9a-f]{2}|.)")

# How the bytes of a text are written: printable ASCII as itself, but for what ends or escapes a text.
WRITTEN = [chr(byte) if 32 <= byte < 127 else f"\\x{byte:02x}" for byte in range(256)]
WRITTEN[ord("'")], WRITTEN[ord("\\")], WRITTEN[ord("\n")] = "\\'", "\\\\", "\\n"


def is_whole(number: int) -> bool:
    """Whether a number has a place in 64 bits with a sign."""
    return -2 ** 63 <= number < 2 ** 63


def literal(text: str) -> Value:
    """What a literal of a tree says: a number where it is written as one, else the text."""
    if CANONICAL.fullmatch(text) and is_whole(int(text)):
        return int(text)
    return text


def written(value: Value) -> str:
    """A value as it stands in an event."""
    if isinstance(value, int):
        return str(value)
    return "'" + "".join(WRITTEN[byte] for byte in value.encode()) + "'"


def read(text: str) -> Optional[Value]:
    """The value that the engine has written, none where it has written that there is none."""
    if text == "-":
        return None
    if not text.startswith("'"):
        return int(text)
    return ESCAPE.sub(unescaped, text[1:-1])


def unescaped(escape: "re.Match[str]") -> str:
    """What an escape stands for."""
    sign = escape.group(1)
    return "\n" if sign == "n" else chr(int(sign[1:], 16)) if len(sign) == 3 else sign
