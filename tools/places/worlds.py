"""World scripts, with the place of each word and of what is wrong."""

import re
from dataclasses import dataclass, field
from typing import Callable, Dict, List, NoReturn, Optional, Tuple

from .built_ins import IDENTIFIER_LENGTH, KEPT, NODES, is_identifier
from .marks import Finding
from .near import listed, meant
from .scripts import ScriptFault, Statement, expression
from .source import Source
from .values import CANONICAL, number

HEADER = b"bt-world 1"

COMPARISONS = ("==", "!=", "<", "<=", ">", ">=")

LAST_MOMENT = 1_000_000_000_000

MOST = {"facts": 1024, "rows": 1024, "goals": 64, "ports": 8, "needs": 16, "sets": 16, "outs": 8, "events": 100_000}

FORMS = {
    "fact": ["fact NAME INT"],
    "condition": ["condition ID is FACT OP INT", "condition ROW when EXPR", "condition ROW told"],
    "action": ["action ROW timed MS", "action ROW timed (EXPR)", "action ROW replay MS OUTCOMES", "action ROW gate EXPR", "action ROW told"],
    "fails": ["fails EXPR"],
    "needs": ["needs ID"],
    "sets": ["sets NAME = INT", "sets NAME += INT"],
    "out": ["out PORT = EXPR", "out PORT"],
    "goal": ["goal ID"],
    "runners": ["runners N"],
    "at": ["at MS"],
    "every": ["every MS until MS tick R ..", "every MS until MS halt R .."],
    "tick": ["tick R"],
    "halt": ["halt R"],
    "set": ["set NAME INT"],
    "tell": ["tell R UID SUCCESS NAME=VALUE ..", "tell R UID FAILURE"],
}

LAST_UID = 2 ** 32 - 1

MOST_TEXT_BYTES = 4096

# a quoted text with its escapes
QUOTED = re.compile(rb"'((?:[ -&(-\[\]-~]|\\['\\n]|\\x[0-9a-f]{2})*)'")

TRUTHS = {"true": 1, "yes": 1, "on": 1, "false": 0, "no": 0, "off": 0}

GROUND_WORDS = ("sort", "forall", "end")

GROUND_FILE = "a ground file, which begins with `bt-ground 1` and goes to `bt ground` or `bt gplan`"

# the header of a ground file, or a line that a ground file alone has
OF_GROUND = re.compile(rb"^[ \t]*(?:bt-ground|sort|forall)[ \t]", re.M)


@dataclass(frozen=True)
class Word:
    """A word of a line, and where it stands in the file."""

    text: str
    start: int
    end: int

    def span(self) -> Tuple[int, int]:
        """Its bytes in the file."""
        return self.start, self.end


@dataclass
class Expr:
    """An expression of a row, and where it stands in the file."""

    text: str
    start: int
    read: Statement

    def names(self) -> List[Word]:
        """The names in it."""
        return [Word(t.text, self.start + t.start, self.start + t.end) for t in self.read.looks()]


@dataclass(frozen=True)
class Test:
    """What a condition with `is` compares."""

    fact: str
    sign: str
    value: int

    def said(self) -> str:
        """As it is written."""
        return f"{self.fact} {self.sign} {self.value}"

    def holds(self, value: int) -> bool:
        """Whether it is true where the fact has this value."""
        return {"==": value == self.value, "!=": value != self.value, "<": value < self.value, "<=": value <= self.value,
                ">": value > self.value, ">=": value >= self.value}[self.sign]


@dataclass(frozen=True)
class Effect:
    """What an action does to a fact."""

    fact: Word
    sign: str
    value: int

    def said(self) -> str:
        """As it is written."""
        return f"{self.fact.text} {self.sign} {self.value}"

    def achieves(self, test: Test) -> bool:
        """Whether it may turn a test true: what adds is judged by its sign alone."""
        if self.fact.text != test.fact:
            return False
        return test.holds(self.value) if self.sign == "=" else self.leads(test, ("==", "!=", *self.onward()))

    def threatens(self, test: Test) -> bool:
        """Whether it may turn a test false."""
        if self.fact.text != test.fact:
            return False
        return not test.holds(self.value) if self.sign == "=" else self.leads(test, ("==", "!=", *self.backward()))

    def leads(self, test: Test, signs: Tuple[str, ...]) -> bool:
        """Whether it adds something, and the test compares by one of these."""
        return self.value != 0 and test.sign in signs

    def onward(self) -> Tuple[str, ...]:
        """The comparisons towards which it leads."""
        return (">", ">=") if self.value > 0 else ("<", "<=")

    def backward(self) -> Tuple[str, ...]:
        """The comparisons from which it leads away."""
        return ("<", "<=") if self.value > 0 else (">", ">=")


@dataclass
class Row:
    """A row: its ID, its input ports, how it answers, and what it has besides."""

    id: Word
    ports: List[str]
    sort: str
    exprs: List[Expr] = field(default_factory=list)
    fails: Optional[Word] = None
    needs: Dict[str, Word] = field(default_factory=dict)
    sets: Dict[str, Effect] = field(default_factory=dict)
    outs: Dict[str, Word] = field(default_factory=dict)
    test: Optional[Test] = None

    def is_told(self) -> bool:
        """Whether its leaves are told what they answer."""
        return self.sort == "told"

    def looks(self) -> List[str]:
        """The names at which its expressions look."""
        return [word.text for expr in self.exprs for word in expr.names()]


@dataclass(frozen=True)
class Telling:
    """A line `tell`: the leaf, the names of the outputs, and where they stand."""

    leaf: Word
    runner: Word
    uid: int
    outs: List[Word]


class Line:
    """The words of a line, taken one after another."""

    def __init__(self, source: Source, number_: int):
        start, end = source.span_of_line(number_)
        data = source.data[start:end]
        self.source, self.number = source, number_
        self.start, self.end = start, end
        self.data = data
        self.words = [Word(found.group().decode("latin-1"), start + found.start(), start + found.end())
                      for found in re.finditer(rb"[^ \t]+", data)]
        self.taken = 0

    def fault(self, kind: str, span: Tuple[int, int], message: str, helps: List[str],
              notes: Optional[List[Tuple[str, Tuple[int, int]]]] = None) -> Finding:
        """A fault of this line."""
        return Finding(f"{kind} {self.number}", span, message, helps, notes)

    def bad(self, span: Tuple[int, int], message: str, helps: Optional[List[str]] = None) -> NoReturn:
        """Raises that the line has no form."""
        raise self.fault("BadLine", span, message, (helps or []) + self.forms())

    def forms(self) -> List[str]:
        """The forms of a line with this first word."""
        kind = self.words[0].text
        forms = FORMS.get(kind)
        if kind in GROUND_WORDS:
            return ["such a line stands in " + GROUND_FILE]
        return [f"a line of this kind is `{'` or `'.join(forms)}`"] if forms else meant(kind, FORMS) + [
            "a line begins with " + listed(FORMS, 20)]

    def next(self, what: str) -> Word:
        """The next word."""
        if self.taken >= len(self.words):
            self.bad((self.end, self.end), f"{what} is missing")
        self.taken += 1
        return self.words[self.taken - 1]

    def name(self, what: str) -> Word:
        """The next word, which is a name."""
        word = self.next(what)
        if not is_name(word.text):
            self.bad(word.span(), f"{word.text} is no {what}: it is an ASCII letter or _, and then letters, digits and _, "
                     f"at most {IDENTIFIER_LENGTH}")
        return word

    def sign(self, *signs: str) -> Word:
        """The next word, which is one of these signs."""
        word = self.next(" or ".join(signs))
        if word.text not in signs:
            self.bad(word.span(), f"here stands {' or '.join(signs)}, with white space round it, and not {word.text}",
                     self.head_in_parts() + self.taken_away(signs))
        return word

    def head_in_parts(self) -> List[str]:
        """That a row's head has no blanks, where this line's has some."""
        text = " ".join(word.text for word in self.words[1:])
        found = re.match(r"([^( ]+) ?\(([^()]*)\)", text)
        if found is None or " " not in found.group():
            return []
        ports = ",".join(part.strip() for part in found.group(2).split(","))
        return [f"a row's head has no blanks: write {found.group(1)}({ports})"]

    def taken_away(self, signs: Tuple[str, ...]) -> List[str]:
        """What stands in the place of a -=, where the line has one and += may stand."""
        rest = [word.text for word in self.words[self.taken - 1:]]
        if rest[0] != "-=" or "+=" not in signs or len(rest) < 2 or not CANONICAL.fullmatch(rest[1]):
            return []
        return [f"to take away write += {rest[1][1:] if rest[1].startswith('-') else '-' + rest[1]}"]

    def canonical(self, what: str, helps: Optional[List[str]] = None) -> Word:
        """The next word, which is a number."""
        word = self.next(what)
        if not CANONICAL.fullmatch(word.text):
            self.bad(word.span(), f"{word.text} is no number: it has a - or none, and digits of which the first is not 0",
                     number_helps(word.text) or helps)
        return word

    def stop(self, helps: Optional[List[str]] = None) -> None:
        """The line has no further word."""
        if self.taken < len(self.words):
            rest = self.words[self.taken]
            self.bad((rest.start, self.end), f"the line goes on with {rest.text} where it has ended", helps)

    def expr(self) -> Expr:
        """The rest of the line, an expression without texts."""
        start = self.words[self.taken].start if self.taken < len(self.words) else self.end
        text = self.source.data[start:self.end]
        self.taken = len(self.words)
        try:
            read = expression(text)
        except ScriptFault as fault:
            message = fault.message + (f"; {fault.help}" if fault.help else "")
            self.bad((start + fault.start, start + max(fault.end, fault.start)), message, by_signs(text))
        for token in read.tokens:
            if token.kind == "text":
                self.bad((start + token.start, start + token.end), "an expression of a world script has no texts, numbers only")
        return Expr(text.decode("latin-1"), start, read)

    def opens(self) -> bool:
        """Whether the rest of the line begins with a parenthesis."""
        return self.taken < len(self.words) and self.words[self.taken].text.startswith("(")

    def group(self) -> Expr:
        """The rest of the line, an expression in parentheses."""
        read = self.expr()
        depth, tokens = 0, read.read.tokens
        for token in tokens:
            depth += {"(": 1, ")": -1}.get(token.text, 0)
            if depth == 0 and token is not tokens[-1]:
                self.bad((read.start + token.end, self.end), "the line goes on where the parentheses of the length have ended",
                         [f"write `({read.text})`"])
        return read

    def outputs(self) -> List[Tuple[Word, Word]]:
        """The rest of the line, outputs `NAME=VALUE` with white space between: each name with its value."""
        found: List[Tuple[Word, Word]] = []
        at = self.words[self.taken].start if self.taken < len(self.words) else self.end
        while at < self.end:
            name, value = self.output(at)
            found.append((name, value))
            rest = self.source.data[value.end:self.end]
            if rest and rest[:1] not in (b" ", b"\t"):
                self.bad((value.end, value.end + 1), "white space stands between the outputs of a telling")
            at = self.end - len(rest.lstrip(b" \t"))
        return found

    def output(self, at: int) -> Tuple[Word, Word]:
        """The output `NAME=VALUE` that begins at a place."""
        text = self.source.data[at:self.end]
        front = re.split(rb"[ \t=]", text, maxsplit=1)[0].decode("latin-1")
        name = Word(front, at, at + len(front))
        if not is_name(front):
            self.bad((at, at + max(len(front), 1)), f"an output is told as NAME=VALUE, and {front or 'the ='} is no name")
        if text[len(front):len(front) + 1] != b"=":
            self.bad(name.span(), "an output is told as NAME=VALUE, with no white space round the =")
        return name, self.value(name.end + 1)

    def value(self, at: int) -> Word:
        """The value that begins at a place: a number, or a quoted text."""
        text = self.source.data[at:self.end]
        if text[:1] != b"'":
            word = re.split(rb"[ \t]", text, maxsplit=1)[0].decode("latin-1")
            if not CANONICAL.fullmatch(word):
                helps = number_helps(word) or [f"a text stands between quotes: '{word}'"] if word else []
                said = f"a value is a number or a text between quotes, and {word or 'none'} is neither"
                self.bad((at, at + max(len(word), 1)), said, helps)
            return Word(word, at, at + len(word))
        found = QUOTED.match(text)
        if found is None:
            self.bad((at, self.end), "the text does not end, or a byte of it is not escaped",
                     ["in a text stand \\' for a quote, \\\\ for a backslash, \\n for a line feed, and \\x with two digits, as in \\x1f, "
                      "for any byte"])
        if not is_utf8(unescaped(found.group(1))):
            self.bad((at, at + found.end()), "the bytes of the text are no UTF-8")
        return Word(found.group().decode("latin-1"), at, at + found.end())

    def in_range(self, word: Word, least: int, most: int, what: str) -> int:
        """The number of a word, which lies between these."""
        value = number(word.text)
        if value is None or not least <= value <= most:
            raise self.fault("Range", word.span(), f"{word.text} is out of the range of {what}", [f"it is {least} to {most}"])
        return value


def number_helps(text: str) -> List[str]:
    """What may stand in the place of a word that is no number."""
    if text.lower() in TRUTHS:
        return [f"yes and no are 1 and 0: write {TRUTHS[text.lower()]}"]
    if re.fullmatch(r"[-+]?[0-9]*\.[0-9]+", text):
        return ["numbers are whole: count in smaller units, 15 in place of 1.5"]
    return []


def unescaped(text: bytes) -> bytes:
    """The bytes for which what stands between quotes stands."""
    def byte(found: "re.Match[bytes]") -> bytes:
        """The byte of an escape."""
        mark = found.group(1)
        return bytes([int(mark[1:], 16)]) if mark[:1] == b"x" else b"\n" if mark == b"n" else mark
    return re.sub(rb"\\(x..|.)", byte, text)


def is_utf8(text: bytes) -> bool:
    """Whether the bytes are UTF-8."""
    try:
        text.decode("utf-8")
    except UnicodeDecodeError:
        return False
    return True


def by_signs(text: bytes) -> List[str]:
    """The expression that is meant by a text with `is` or `=` in it, or with `when` or `if` before it."""
    meant_text = re.sub(rb"\bis\b|(?<![:=!<>])=(?!=)", b"==", re.sub(rb"^(when|if)\b[ \t]*", b"", text))
    try:
        expression(meant_text)
    except ScriptFault:
        return []
    return [f"write `{meant_text.decode('latin-1')}`"] if meant_text != text else []


def as_when(line: Line, id_: Word) -> List[str]:
    """A condition's line with `when`, where what stands behind its `is` is an expression."""
    text = line.source.data[line.words[3].start:line.end]
    try:
        expression(text)
    except ScriptFault:
        return []
    return [f"with `is` one fact is compared with one number; for more write `condition {id_.text} when {text.decode('latin-1')}`"]


def is_name(text: str) -> bool:
    """Whether a fact, a row or a port may have this name."""
    return is_identifier(text) and len(text) <= IDENTIFIER_LENGTH


class World:
    """What the lines of a world script have said so far."""

    def __init__(self, source: Source):
        self.source = source
        self.facts: Dict[str, Word] = {}
        self.rows: Dict[str, Row] = {}
        self.goals: Dict[str, Word] = {}
        self.runners: Optional[Word] = None
        self.count = 1
        self.events = 0
        self.tellings: List[Telling] = []
        self.moment = 0
        self.moment_word: Optional[Word] = None
        self.open: Optional[Row] = None
        self.last: Optional[Row] = None

    def read(self) -> "World":
        """Reads all lines. Raises the fault of the first faulty one."""
        ended = self.source.data.endswith(b"\n") or not self.source.data
        count = len(self.source.starts) - (1 if ended else 0)
        self.check_header(count)
        for number_ in range(2, count + 1):
            self.read_line(Line(self.source, number_))
        return self

    def check_header(self, count: int) -> None:
        """Raises where the first line is no header."""
        end = self.source.starts[1] - 1 if len(self.source.starts) > 1 else len(self.source.data)
        text = self.source.data[:end]
        if count == 0 or (text[:-1] if text.endswith(b"\r") else text) != HEADER:
            helps = ["this looks like " + GROUND_FILE] if OF_GROUND.search(self.source.data) else []
            raise Finding("Header 1", (0, end), "the first line is not the header",
                          [*helps, f"write exactly `{HEADER.decode()}`, with no white space or comment before it"])

    def read_line(self, line: Line) -> None:
        """Reads a line."""
        start = self.source.starts[line.number - 1]
        raw = self.source.data[start:self.source.starts[line.number] - 1
                               if line.number < len(self.source.starts) else len(self.source.data)]
        content = (raw[:-1] if raw.endswith(b"\r") else raw).strip(b" \t")
        if not content or content.startswith(b"#"):
            return
        for at, byte in enumerate(content):
            if byte != 9 and not 32 <= byte <= 126:
                place = start + raw.find(content) + at
                line.words = line.words or [Word("", place, place)]
                line.bad((place, place + 1), "a line holds printable ASCII and tabs; a comment begins with #")
        kind = line.next("the kind of the line")
        if kind.text not in FORMS:
            line.bad(kind.span(), f"no line begins with {kind.text}")
        getattr(self, "read_" + kind.text)(line)

    def close(self) -> None:
        """Ends the action to which lines could add."""
        self.open = None

    def known_fact(self, line: Line, word: Word) -> None:
        """Raises where no earlier line has the fact."""
        if word.text not in self.facts:
            raise line.fault("NoName", word.span(), f"no earlier line has a fact {word.text}",
                             meant(word.text, self.facts) + self.known("facts", self.facts))

    def known_names(self, line: Line, expr: Expr, ports: List[str]) -> None:
        """Raises where a name of an expression is neither a port of the row nor a fact."""
        for word in expr.names():
            if word.text not in ports and word.text not in self.facts:
                raise line.fault("NoName", word.span(), f"{word.text} is neither an input port of the row nor an earlier fact",
                                 meant(word.text, [*ports, *self.facts]) + self.known("facts", self.facts)
                                 + self.known("ports", ports))

    def known_condition(self, line: Line, word: Word) -> None:
        """Raises where no earlier line has a condition of this ID that compares a fact."""
        row = self.rows.get(word.text)
        if row is not None and row.sort == "is":
            return
        names = [id_ for id_, other in self.rows.items() if other.sort == "is"]
        message = f"no earlier line has a condition {word.text}" if row is None else \
            f"{word.text} is no condition of the form `is`, which alone can be a goal or a need"
        raise line.fault("NoName", word.span(), message, meant(word.text, names) + self.known("conditions", names))

    def known(self, what: str, names: "Dict[str, Word] | List[str]") -> List[str]:
        """A line that lists what is known."""
        return [f"known {what}: {listed(names)}"] if names else [f"no {what} are known here"] if what != "ports" else []

    def once(self, line: Line, word: Word, earlier: Optional[Word], message: str) -> None:
        """Raises where something stands a second time."""
        if earlier is not None:
            raise line.fault("DoubleName", word.span(), message, ["keep one of them"], [("the first one", earlier.span())])

    def not_too_many(self, line: Line, count: int, what: str) -> None:
        """Raises where no further one may be added."""
        if count >= MOST[what]:
            raise line.fault("TooMany", line.words[0].span(), f"this would be number {count + 1} of its kind",
                             [f"at most {MOST[what]} {what}"])

    # ---- facts and rows

    def read_fact(self, line: Line) -> None:
        """`fact NAME INT`"""
        name = line.name("name")
        value = line.canonical("number")
        line.stop()
        self.close()
        line.in_range(value, -2 ** 63, 2 ** 63 - 1, "a fact")
        self.once(line, name, self.facts.get(name.text), f"a second fact {name.text}")
        self.not_too_many(line, len(self.facts), "facts")
        self.facts[name.text] = name

    def free_id(self, line: Line, id_: Word) -> None:
        """Raises where no further row may have this ID."""
        if id_.text in NODES or id_.text in KEPT:
            raise line.fault("DoubleName", id_.span(), f"{id_.text} is a name of the tree format, and no row's ID",
                             ["give the leaf and its row another ID"])
        earlier = self.rows.get(id_.text)
        self.once(line, id_, earlier.id if earlier else None, f"a second row of the ID {id_.text}")

    def head(self, line: Line, word: Word) -> Tuple[Word, List[Word]]:
        """The ID and the input ports of a row."""
        found = re.fullmatch(r"([^(]*)(?:\(([^(]*)\))?", word.text)
        if found is None:
            line.bad(word.span(), f"{word.text} is no row's head: it is ID, or ID(p,q) without blanks")
        id_ = Word(found.group(1), word.start, word.start + len(found.group(1)))
        parts = [id_]
        at = id_.end + 1
        for text in found.group(2).split(",") if found.group(2) is not None else []:
            parts.append(Word(text, at, at + len(text)))
            at += len(text) + 1
        for part in parts:
            if not is_name(part.text):
                line.bad((part.start, max(part.end, part.start + 1)),
                         f"'{part.text}' is no name: a row's head is ID, or ID(p,q) without blanks")
        return id_, parts[1:]

    def new_row(self, line: Line, head: Tuple[Word, List[Word]], sort: str, exprs: List[Expr]) -> Row:
        """A row that may be added."""
        id_, ports = head
        self.free_id(line, id_)
        seen: Dict[str, Word] = {}
        for port in ports:
            self.once(line, port, seen.get(port.text), f"the input port {port.text} stands twice")
            seen[port.text] = port
        names = [port.text for port in ports]
        for expr in exprs:
            self.known_names(line, expr, names)
        self.not_too_many(line, len(ports) - 1, "ports")
        self.not_too_many(line, len(self.rows), "rows")
        row = Row(id_, names, sort, exprs)
        self.rows[id_.text] = row
        return row

    def read_condition(self, line: Line) -> None:
        """`condition ID is NAME OP INT`, `condition ROW when EXPR` or `condition ROW told`"""
        word = line.next("ID")
        sort = line.sign("is", "when", "told").text
        if sort == "is":
            self.read_comparison(line, word)
            return
        head = self.head(line, word)
        exprs = [line.expr()] if sort == "when" else []
        line.stop()
        self.close()
        self.new_row(line, head, sort, exprs)

    def read_comparison(self, line: Line, id_: Word) -> None:
        """`NAME OP INT` of the condition of this ID."""
        if not is_name(id_.text):
            line.bad(id_.span(), f"{id_.text} is no ID: a condition with `is` has no ports")
        fact = line.name("fact")
        sign = line.sign(*COMPARISONS)
        helps = as_when(line, id_)
        value = line.canonical("number", helps)
        line.stop(helps)
        self.close()
        number_ = line.in_range(value, -2 ** 63, 2 ** 63 - 1, "a fact")
        self.free_id(line, id_)
        self.known_fact(line, fact)
        self.not_too_many(line, len(self.rows), "rows")
        self.rows[id_.text] = Row(id_, [], "is", test=Test(fact.text, sign.text, number_))

    def read_action(self, line: Line) -> None:
        """`action ROW timed MS`, `action ROW timed (EXPR)`, `action ROW replay MS OUTCOMES`, `action ROW gate EXPR` or `action ROW told`"""
        word = line.next("ID")
        sort = line.sign("timed", "replay", "gate", "told").text
        head = self.head(line, word)
        exprs = [line.expr()] if sort == "gate" else [line.group()] if sort == "timed" and line.opens() else []
        length = line.canonical("number of milliseconds") if sort in ("timed", "replay") and not exprs else None
        if sort == "replay":
            self.outcomes(line)
        line.stop()
        self.close()
        if length is not None:
            line.in_range(length, 0, LAST_MOMENT, "milliseconds")
        self.open = self.new_row(line, head, sort, exprs)

    def outcomes(self, line: Line) -> None:
        """1 to 64 letters, each an S or an F."""
        word = line.next("list of outcomes")
        if not re.fullmatch(r"[SF]{1,64}", word.text):
            line.bad(word.span(), "outcomes are 1 to 64 letters, S for success and F for failure")

    # ---- what is added to an action

    def opened(self, line: Line) -> Row:
        """The action above the line."""
        if self.open is None:
            line.bad(line.words[0].span(), f"above a line `{line.words[0].text}` stands an action, with such lines alone between")
        return self.open

    def modelled(self, line: Line) -> Row:
        """The action above the line, which is not told how it ended."""
        row = self.opened(line)
        if row.is_told():
            line.bad(line.words[0].span(), f"the action {row.id.text} is told how it ended, and can't have such a line",
                     ["it may have lines `out PORT`, with the name alone, for outputs that it is told"])
        return row

    def read_fails(self, line: Line) -> None:
        """`fails EXPR`"""
        expr = line.expr()
        row = self.modelled(line)
        if row.sort != "timed":
            line.bad(line.words[0].span(), f"the action {row.id.text} is not timed, and can't have such a line")
        self.once(line, line.words[0], row.fails, f"a second line `fails` of {row.id.text}")
        self.known_names(line, expr, row.ports)
        row.fails = line.words[0]
        row.exprs.append(expr)

    def read_needs(self, line: Line) -> None:
        """`needs ID`"""
        id_ = line.name("ID")
        line.stop()
        row = self.modelled(line)
        self.known_condition(line, id_)
        self.once(line, id_, row.needs.get(id_.text), f"{row.id.text} needs {id_.text} already")
        self.not_too_many(line, len(row.needs), "needs")
        row.needs[id_.text] = id_

    def read_sets(self, line: Line) -> None:
        """`sets NAME = INT` or `sets NAME += INT`"""
        fact = line.name("name")
        sign = line.sign("=", "+=")
        value = line.canonical("number")
        line.stop()
        row = self.modelled(line)
        number_ = line.in_range(value, -2 ** 63, 2 ** 63 - 1, "a fact")
        self.known_fact(line, fact)
        earlier = row.sets.get(fact.text)
        self.once(line, fact, earlier.fact if earlier else None, f"{row.id.text} sets {fact.text} already")
        self.not_too_many(line, len(row.sets), "sets")
        row.sets[fact.text] = Effect(fact, sign.text, number_)

    def read_out(self, line: Line) -> None:
        """`out PORT = EXPR` or `out PORT`"""
        port = line.name("port")
        if self.open is not None and self.open.is_told():
            self.read_told_out(line, self.open, port)
            return
        if len(line.words) == 2 and self.open is not None:
            line.bad((line.end, line.end), f"the action {self.open.id.text} works its outputs out: = and an expression are missing",
                     ["a name alone is an output of an action that is told how it ended"])
        line.sign("=")
        expr = line.expr()
        row = self.opened(line)
        self.once(line, port, row.outs.get(port.text), f"{row.id.text} writes {port.text} already")
        self.known_names(line, expr, row.ports)
        self.not_too_many(line, len(row.outs), "outs")
        row.outs[port.text] = port
        row.exprs.append(expr)

    def read_told_out(self, line: Line, row: Row, port: Word) -> None:
        """What follows `out PORT` of an action that is told how it ended: nothing."""
        line.stop([f"the value of {port.text} is told with `tell`"])
        self.once(line, port, row.outs.get(port.text), f"{row.id.text} has the output {port.text} already")
        self.not_too_many(line, len(row.outs), "outs")
        row.outs[port.text] = port

    # ---- the run

    def read_goal(self, line: Line) -> None:
        """`goal ID`"""
        id_ = line.name("ID")
        line.stop()
        self.close()
        self.known_condition(line, id_)
        self.once(line, id_, self.goals.get(id_.text), f"{id_.text} is a goal already")
        self.not_too_many(line, len(self.goals), "goals")
        self.goals[id_.text] = id_

    def read_runners(self, line: Line) -> None:
        """`runners N`"""
        word = line.canonical("number of runners")
        line.stop()
        if self.events:
            line.bad(line.words[0].span(), "the number of runners is said before the first event")
        self.close()
        count = line.in_range(word, 1, 16, "runners")
        self.once(line, word, self.runners, "the number of runners is said already")
        self.runners, self.count = word, count

    def read_at(self, line: Line) -> None:
        """`at MS`"""
        word = line.canonical("moment")
        line.stop()
        self.close()
        self.moment, self.moment_word = self.not_back(line, word), word

    def not_back(self, line: Line, word: Word) -> int:
        """The moment of a word. Raises where it lies before the last one."""
        moment = line.in_range(word, 0, LAST_MOMENT, "moments")
        if moment < self.moment:
            notes = [("the last moment", self.moment_word.span())] if self.moment_word else []
            raise line.fault("MomentBack", word.span(), f"{moment} lies before the last moment, {self.moment}",
                             ["moments do not go back"], notes)
        return moment

    def read_every(self, line: Line) -> None:
        """`every MS until MS` and one part or more, each `tick R` or `halt R`"""
        step = line.canonical("number of milliseconds")
        line.sign("until")
        last = line.canonical("moment of the end")
        runners = [self.runner_of_part(line)]
        while line.taken < len(line.words):
            runners.append(self.runner_of_part(line))
        self.close()
        time = line.in_range(step, 1, LAST_MOMENT, "milliseconds from one round to the next")
        line.in_range(last, 0, LAST_MOMENT, "moments")
        for runner in runners:
            line.in_range(runner, 1, self.count, "runners, of which a line `runners N` says the number")
        steps = (self.not_back(line, last) - self.moment) // time
        self.add_rounds(line, (steps + 1) * len(runners))
        self.moment, self.moment_word = self.moment + steps * time, last

    def runner_of_part(self, line: Line) -> Word:
        """The runner of the next part of a line of rounds, `tick R` or `halt R`."""
        line.sign("tick", "halt")
        return line.canonical("number of a runner")

    def add_rounds(self, line: Line, count: int) -> None:
        """Counts the events of a line of rounds."""
        if self.events + count > MOST["events"]:
            raise line.fault("TooMany", line.words[0].span(), f"the line makes {count:,} events, and {self.events:,} stand before it",
                             [f"at most {MOST['events']:,} events"])
        self.events += count

    def event(self, line: Line) -> None:
        """Counts an event."""
        self.not_too_many(line, self.events, "events")
        self.events += 1

    def read_tick(self, line: Line) -> None:
        """`tick R`"""
        word = line.canonical("number of a runner")
        line.stop()
        self.close()
        line.in_range(word, 1, self.count, "runners, of which a line `runners N` says the number")
        self.event(line)

    read_halt: Callable[["World", Line], None] = read_tick

    def read_set(self, line: Line) -> None:
        """`set NAME INT`"""
        name = line.name("name")
        value = line.canonical("number")
        line.stop()
        self.close()
        line.in_range(value, -2 ** 63, 2 ** 63 - 1, "a fact")
        self.known_fact(line, name)
        self.event(line)


    def read_tell(self, line: Line) -> None:
        """`tell R UID SUCCESS NAME=VALUE ..` or `tell R UID FAILURE`"""
        runner = line.canonical("number of a runner")
        leaf = line.canonical("uid of a leaf")
        status = line.sign("SUCCESS", "FAILURE").text
        if status == "FAILURE":
            line.stop(["outputs are told with SUCCESS alone"])
        outs = line.outputs()
        self.close()
        line.in_range(runner, 1, self.count, "runners, of which a line `runners N` says the number")
        uid = line.in_range(leaf, 0, LAST_UID, "uids")
        for name, value in outs:
            if not value.text.startswith("'"):
                line.in_range(value, -2 ** 63, 2 ** 63 - 1, "a number")
        seen: Dict[str, Word] = {}
        for name, value in outs:
            self.once(line, name, seen.get(name.text), f"a second value of {name.text}")
            seen[name.text] = name
        self.few_outputs(line, outs)
        self.event(line)
        self.tellings.append(Telling(leaf, runner, uid, [name for name, value in outs]))

    def few_outputs(self, line: Line, outs: List[Tuple[Word, Word]]) -> None:
        """Raises where a telling has too many outputs, or too long a text."""
        if len(outs) > MOST["outs"]:
            raise line.fault("TooMany", outs[MOST["outs"]][0].span(), f"the telling has {len(outs)} outputs",
                             [f"at most {MOST['outs']} outs"])
        for name, value in outs:
            text = unescaped(value.text[1:-1].encode("latin-1")) if value.text.startswith("'") else b""
            if len(text) > MOST_TEXT_BYTES:
                raise line.fault("TooMany", value.span(), f"the text of {name.text} has {len(text)} bytes",
                                 [f"a text has at most {MOST_TEXT_BYTES:,} bytes"])


def read_world(source: Source) -> World:
    """What a world script says. Raises the fault of its first faulty line."""
    return World(source).read()
