"""The members of an object in a JSON text, each with its places."""

import json
import re
from dataclasses import dataclass
from typing import Any, List, NoReturn, Tuple

from .source import Source

GAP = re.compile(r"[ \t\n\r]*")

# how deep arrays and objects may stand in one another
MOST_NESTED = 127


@dataclass(frozen=True)
class Value:
    """A value and the characters between which it stands."""

    value: Any
    start: int
    end: int

    def span(self, source: Source) -> Tuple[int, int]:
        """Its bytes in the file."""
        return source.byte_of(self.start), source.byte_of(self.end)


@dataclass(frozen=True)
class Member:
    """A member of an object."""

    name: Value
    value: Value


def no_number(word: str) -> NoReturn:
    """That a word which Python takes for a number is none."""
    raise ValueError(word)


def number_of(word: str) -> float:
    """The number of a word with a point or an exponent."""
    value = float(word)
    return value if abs(value) != float("inf") else no_number(word)


def whole_of(word: str) -> int:
    """The number of a word of digits."""
    return int(word) if len(word) < 300 else no_number(word[:9])


DECODER = json.JSONDecoder(parse_constant=no_number, parse_float=number_of, parse_int=whole_of)


def text_of(source: Source) -> str:
    """The text of a file that is UTF-8."""
    return source.data.decode("utf-8")


def skipped(text: str, at: int) -> int:
    """The place after the white space at a place."""
    found = GAP.match(text, at)
    return found.end() if found is not None else at


def taken(text: str, at: int) -> Value:
    """The value at a place, or after white space."""
    start = skipped(text, at)
    value, end = DECODER.raw_decode(text, start)
    return Value(value, start, end)


def whole(text: str) -> Value:
    """The one value of a text. Raises ValueError where it has none, or more."""
    value = taken(text, 0)
    rest = skipped(text, value.end)
    if rest < len(text):
        raise json.JSONDecodeError("the text goes on after its value", text, rest)
    if deepest(value.value) > MOST_NESTED or has_lone_surrogate(value.value):
        raise ValueError("nested too deep, or a half of a character")
    return value


def members(text: str, object_: Value) -> List[Member]:
    """The members of an object, those of one name all."""
    found = []
    at = skipped(text, object_.start + 1)
    while text[at] != "}":
        name = taken(text, at)
        value = taken(text, skipped(text, name.end) + 1)
        found.append(Member(name, value))
        at = skipped(text, value.end)
        at = skipped(text, at + 1) if text[at] == "," else at
    return found


def deepest(value: Any) -> int:
    """How deep arrays and objects stand in one another."""
    deep, level = 0, [value]
    while level:
        below = [item for it in level if isinstance(it, (dict, list)) for item in (it.values() if isinstance(it, dict) else it)]
        deep += any(isinstance(it, (dict, list)) for it in level)
        level = below
    return deep


def has_lone_surrogate(value: Any) -> bool:
    """Whether a text in it has a half of a character, which no UTF-8 has."""
    try:
        json.dumps(value, ensure_ascii=False).encode("utf-8")
    except UnicodeEncodeError:
        return True
    return False
