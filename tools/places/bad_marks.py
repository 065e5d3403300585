"""Why a `<` begins no mark: how far the mark goes, and what is wrong there."""

import re
from typing import Optional, Tuple

from .marks import ATTRIBUTE, NAME

Trouble = Tuple[int, int, str, str]

FRONT = re.compile(rb"</?(" + NAME + rb")")

HALF = re.compile(rb"[ \t\r\n]*(" + NAME + rb")[ \t\r\n]*(=?)[ \t\r\n]*([\"']?)")

ESCAPE = "in a value write &lt; for <"


def trouble(data: bytes, at: int) -> Trouble:
    """The part where the mark at a place goes wrong, what is wrong, and what would be right."""
    special = special_trouble(data, at)
    if special is not None:
        return special
    front = FRONT.match(data, at)
    if front is None:
        return at, at + 1, "after < no name begins", "a mark is <name>, <name/> or </name>; elsewhere write &lt; for <"
    name = front.group(1).decode()
    end = front.end()
    if data.startswith(b"</", at):
        return end, end + 1, f"the end mark of {name} goes on where > is missing", f"write </{name}>"
    while True:
        found = ATTRIBUTE.match(data, end)
        if found is None:
            return attribute_trouble(data, at, end, name)
        end = found.end()


def special_trouble(data: bytes, at: int) -> Optional[Trouble]:
    """What is wrong with a mark that begins with <! or <?, or that has the byte 0."""
    if data.startswith(b"<!--", at):
        return begun(data, at, 4, b"-->", "comment")
    if data.startswith(b"<?", at):
        return begun(data, at, 2, b"?>", "instruction")
    if data.startswith(b"<![CDATA[", at):
        return at, at + 9, "<![CDATA[ is not read", "write the text itself, with &lt; for < and &amp; for &"
    if data.startswith(b"<!", at):
        return at, at + 2, "a document type is not read", "take it out"
    return None


def begun(data: bytes, at: int, length: int, closing: bytes, what: str) -> Trouble:
    """What is wrong with a comment or an instruction."""
    end = data.find(closing, at + length)
    if end < 0:
        return at, at + length, f"this {what} does not end", f"write {closing.decode()} after it"
    zero = data.find(b"\0", at, end)
    return zero, zero + 1, f"the byte 0 stands in this {what}", "take it out"


def attribute_trouble(data: bytes, at: int, end: int, name: str) -> Trouble:
    """What is wrong after the attributes that can be read."""
    rest = data[end:]
    gap = len(rest) - len(rest.lstrip(b" \t\r\n"))
    start = end + gap
    if start >= len(data):
        return at, end, f"the file ends inside <{name}>", "a mark ends with > or />"
    half = HALF.match(data, end)
    if half is not None and gap == 0:
        return start, half.end(1), "white space is missing before this attribute", "write a blank before it"
    if half is not None:
        return half_trouble(data, half, name)
    if data[start:start + 1] == b"<":
        return start, start + 1, f"< stands inside <{name}>, which has not ended", "a mark ends with > or />"
    sign = data[start:].decode("utf-8", "replace")[0]
    return start, start + len(sign.encode()), f"{sign!r} may not stand here, inside <{name}>", \
        'an attribute is a name, = and a value in quotes: name="value"'


def half_trouble(data: bytes, half: "re.Match[bytes]", name: str) -> Trouble:
    """What is wrong with an attribute whose name can be read."""
    attribute = half.group(1).decode()
    start, end = half.start(1), half.end(1)
    if not half.group(2):
        return start, end, f"the attribute {attribute} of <{name}> has no value", f'write {attribute}=".."'
    if not half.group(3):
        return half.end(), half.end() + 1, f"the value of {attribute} has no quote before it", f'write {attribute}=".."'
    quote = half.group(3)
    stop = re.compile(b"[<\\0" + quote + b"]").search(data, half.end())
    if stop is None:
        return half.end() - 1, half.end(), f"the value of {attribute} does not end", f"write {quote.decode()} after it"
    if stop.group() == b"<":
        if b"\n" in data[half.end():stop.start()] or b">" in data[half.end():stop.start()]:
            return half.end() - 1, half.end(), f"the value of {attribute} does not end: the next < comes before its quote", \
                f"write {quote.decode()} after the value; {ESCAPE}"
        return stop.start(), stop.end(), f"the value of {attribute} holds <", ESCAPE
    return stop.start(), stop.end(), f"the value of {attribute} holds the byte 0", "take it out"
