"""The marks of a tree file, with the place of each name and value: from the bytes to the document element."""

import re
from dataclasses import dataclass, field
from typing import Dict, Iterator, List, NoReturn, Optional, Tuple

from .source import ORDER_MARK, Source

NAME = rb"[A-Za-z_\x80-\xff][A-Za-z0-9_.:\x80-\xff-]*"

WHITE = b" \t\r\n"

START = re.compile(rb"<(" + NAME + rb")((?:[ \t\r\n]+" + NAME
                   + rb"[ \t\r\n]*=[ \t\r\n]*(?:\"[^\"<\0]*\"|'[^'<\0]*'))*)[ \t\r\n]*(/?)>")

ATTRIBUTE = re.compile(rb"[ \t\r\n]+(" + NAME + rb")[ \t\r\n]*=[ \t\r\n]*(?:\"([^\"<\0]*)\"|'([^'<\0]*)')")

END = re.compile(rb"</(" + NAME + rb")[ \t\r\n]*>")

REFERENCE = re.compile(rb"&(?:(lt|gt|amp|quot|apos)|#([0-9]+)|#x([0-9A-Fa-f]+));")

SPOKEN = {b"lt": b"<", b"gt": b">", b"amp": b"&", b"quot": b'"', b"apos": b"'"}

MODELS = "TreeNodesModel"

MOST_DEPTH = 258


@dataclass(frozen=True)
class Value:
    """What a value says, and where each byte of it stands in the file."""

    raw: bytes
    at: int

    def pieces(self) -> Iterator[Tuple[bytes, int]]:
        """Parts of what it says, each with the place where it begins in the file."""
        at = 0
        for found in REFERENCE.finditer(self.raw):
            said = referred(found)
            if said is not None:
                yield self.raw[at:found.start()], self.at + at
                yield said, self.at + found.start()
                at = found.end()
        yield self.raw[at:], self.at + at

    def said(self) -> bytes:
        """What it says."""
        if b"&" not in self.raw:
            return self.raw
        return b"".join(piece for piece, _ in self.pieces())

    def text(self) -> str:
        """What it says, as text."""
        return self.said().decode("utf-8", "replace")

    def place(self, offset: int) -> int:
        """Where the byte of this number, of what it says, stands in the file."""
        for piece, at in self.pieces():
            if offset < len(piece):
                plain = self.raw[at - self.at:at - self.at + len(piece)] == piece
                return at + offset if plain else at
            offset -= len(piece)
        return self.at + len(self.raw)


def referred(found: "re.Match[bytes]") -> Optional[bytes]:
    """The character that a reference stands for, if it stands for one."""
    name, decimal, hexadecimal = found.groups()
    if name is not None:
        return SPOKEN[name]
    digits = (decimal or hexadecimal).lstrip(b"0")[:8]
    number = int(digits or b"0", 10 if decimal else 16)
    if number == 0 or number > 0x10FFFF or 0xD800 <= number <= 0xDFFF:
        return None
    return chr(number).encode()


@dataclass(frozen=True)
class Attribute:
    """An attribute of a mark."""

    name: str
    at: int
    value: Value
    end: int

    def span(self) -> Tuple[int, int]:
        """The bytes from its name to the quote at its end."""
        return self.at, self.end


@dataclass
class Element:
    """An element: the mark that begins it, its attributes and its children."""

    name: str
    at: int
    end: int
    attributes: List[Attribute]
    children: List["Element"] = field(default_factory=list)
    named: Optional[Dict[str, Attribute]] = None

    def attribute(self, name: str) -> Optional[Attribute]:
        """The attribute of this name."""
        if self.named is None:
            self.named = {attribute.name: attribute for attribute in reversed(self.attributes)}
        return self.named.get(name)

    def said(self, name: str) -> Optional[str]:
        """What the attribute of this name says."""
        found = self.attribute(name)
        return None if found is None else found.value.text()

    def span(self) -> Tuple[int, int]:
        """The bytes of `<` and its name."""
        return self.at, self.at + 1 + len(self.name.encode())


@dataclass
class StandIn(Element):
    """An element that stands in no file, in the place of one that does."""

    shown: Tuple[int, int] = (0, 0)

    def span(self) -> Tuple[int, int]:
        """The bytes of the element that it replaces."""
        return self.shown


class Finding(Exception):
    """A fault of a file: the words that the program prints of it, where it is, and words for a reader."""

    def __init__(self, words: str, span: Tuple[int, int], message: str, helps: Optional[List[str]] = None,
                 notes: Optional[List[Tuple[str, Tuple[int, int]]]] = None, inside: str = ""):
        super().__init__(words)
        self.words, self.span, self.message, self.inside = words, span, message, inside
        self.helps: List[str] = [help_ for help_ in helps or [] if help_]
        self.notes: List[Tuple[str, Tuple[int, int]]] = notes or []


class Reader:
    """Reads the marks of a file along the file."""

    def __init__(self, source: Source):
        self.data = source.data
        self.source = source
        self.open: List[Element] = []
        self.root: Optional[Element] = None
        self.models = 0

    def read(self) -> Element:
        """The document element. Raises the first fault of the file."""
        self.check_utf8()
        at = len(ORDER_MARK) if self.data.startswith(ORDER_MARK) else 0
        while True:
            mark = self.data.find(b"<", at)
            self.check_text(at, len(self.data) if mark < 0 else mark)
            if mark < 0:
                return self.finish()
            at = self.take(mark)

    def check_utf8(self) -> None:
        """Raises where the file is not UTF-8."""
        try:
            self.data.decode("utf-8")
        except UnicodeDecodeError as error:
            raise Finding(f"NotUtf8 {error.start}", (error.start, error.start + 1),
                          f"the byte {self.data[error.start]:#04x} begins no character: the file is not UTF-8",
                          ["save the file as UTF-8"])

    def check_text(self, start: int, end: int) -> None:
        """Raises where text stands between marks and may not."""
        text = self.data[start:end]
        stray = text.strip(WHITE)
        if stray and not self.models:
            at = start + len(text) - len(text.lstrip(WHITE))
            raise Finding(f"StrayText {at}", (at, at + len(stray)), "text stands between marks",
                          ["a comment stands between <!-- and -->; a value stands in an attribute"])

    def take(self, at: int) -> int:
        """Takes the mark at a place, and gives the place after it."""
        for opening, closing in ((b"<?", b"?>"), (b"<!--", b"-->")):
            if self.data.startswith(opening, at):
                end = self.data.find(closing, at + len(opening))
                if end < 0 or b"\0" in self.data[at:end]:
                    self.bad_mark(at)
                return end + len(closing)
        ending = END.match(self.data, at)
        if ending is not None:
            self.end(at, ending.group(1).decode(), ending.end())
            return ending.end()
        found = START.match(self.data, at)
        if found is None:
            self.bad_mark(at)
        self.begin(element_of(self.data, found), bool(found.group(3)))
        return found.end()

    def begin(self, element: Element, ended: bool) -> None:
        """Begins an element, and ends it where its mark is an empty one."""
        self.check_attributes(element)
        if self.root is not None and not self.open:
            raise Finding(f"Unmatched {element.at}", element.span(),
                          f"<{element.name}> stands after the document element", ["a file has one element at its top"],
                          [(f"<{self.root.name}> began here, and has ended", self.root.span())])
        if len(self.open) >= MOST_DEPTH:
            raise Finding(f"TooDeep {element.at}", element.span(), f"this element has {len(self.open)} round it",
                          [f"at most {MOST_DEPTH} elements stand in one another: move some into a tree of its own"])
        if self.open:
            self.open[-1].children.append(element)
        else:
            self.root = element
        if not ended:
            self.open.append(element)
            self.models += element.name == MODELS

    def check_attributes(self, element: Element) -> None:
        """Raises where a name occurs twice."""
        seen = {}
        for attribute in element.attributes:
            if attribute.name in seen:
                raise Finding(f"DoubleAttribute {element.at}", attribute.span(),
                              f"<{element.name}> has the attribute {attribute.name} twice", ["keep one of them"],
                              [("it stands here already", seen[attribute.name].span())])
            seen[attribute.name] = attribute

    def end(self, at: int, name: str, end: int) -> None:
        """Ends the innermost element."""
        if not self.open:
            raise Finding(f"Unmatched {at}", (at, end), f"</{name}> ends nothing: no element is open here",
                          ["take it out, or write the mark that begins the element"])
        inner = self.open[-1]
        if inner.name != name:
            raise self.other_end(at, name, end)
        self.models -= name == MODELS
        self.open.pop()

    def other_end(self, at: int, name: str, end: int) -> Finding:
        """An end mark of another element than the innermost one."""
        inner = self.open[-1]
        line = self.source.line_of(inner.at)
        helps = [f"<{inner.name}> needs </{inner.name}> before this mark, or /> at its own end"]
        if all(element.name != name for element in self.open):
            helps = [f"write </{inner.name}>, or the mark <{name}> that this one ends"]
        return Finding(f"Unmatched {at}", (at, end), f"</{name}> stands where <{inner.name}> of line {line} is not ended",
                       helps, [(f"<{inner.name}> began here", inner.span())])

    def finish(self) -> Element:
        """The document element, where the file ends."""
        if self.root is not None and not self.open:
            return self.root
        length = len(self.data)
        if self.root is None:
            raise Finding(f"Unmatched {length}", (length, length), "the file has no element",
                          ['a tree file begins with <root BTCPP_format="4">'])
        names = [f"</{element.name}>" for element in reversed(self.open)]
        raise Finding(f"Unmatched {length}", (length, length),
                      f"the file ends, and <{self.open[-1].name}> is not ended", ["it needs " + " ".join(names)],
                      [(f"<{element.name}> began here", element.span()) for element in reversed(self.open[-3:])])

    def bad_mark(self, at: int) -> NoReturn:
        """Raises what is wrong with the mark at a place."""
        from .bad_marks import trouble
        start, end, message, help_ = trouble(self.data, at)
        notes = [("the mark begins here", (at, at + 1))] if b"\n" in self.data[at:start] else []
        raise Finding(f"BadMark {at}", (start, end), message, [help_], notes)


def element_of(data: bytes, found: "re.Match[bytes]") -> Element:
    """The element that a start mark or an empty mark begins."""
    attributes = []
    for part in ATTRIBUTE.finditer(data, found.start(2), found.end(2)):
        group = 2 if part.group(2) is not None else 3
        value = Value(part.group(group), part.start(group))
        attributes.append(Attribute(part.group(1).decode(), part.start(1), value, part.end()))
    return Element(found.group(1).decode(), found.start(), found.end(), attributes)


def read_marks(source: Source) -> Element:
    """The document element of a file. Raises its first fault."""
    return Reader(source).read()
