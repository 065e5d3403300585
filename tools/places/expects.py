"""Files of expectations, with the place of each word and of what is wrong, and which lines a run does not meet."""

import re
from dataclasses import dataclass
from typing import Dict, Iterator, List, Tuple

from .listing import columns
from .marks import Finding
from .mocks import is_match, path_of
from .near import listed, meant
from .report import Place, Report
from .source import Source
from .trees import Node, TreeFile
from .worlds import COMPARISONS, LAST_MOMENT, QUOTED, Expr, Line, Word, World, is_name, is_utf8, unescaped

HEADER = b"bt-expect 1"

MOST_EXPECTATIONS = 1000

ANSWERS = ("RUNNING", "SUCCESS", "FAILURE", "SKIPPED")

FORMS = {
    "always": ["always EXPR"],
    "at": ["at MS EXPR"],
    "by": ["by MS root R STATUS"],
    "root": ["root R never STATUS"],
    "start": ["start LEAF only EXPR"],
    "starts": ["starts LEAF OP N"],
    "ends": ["ends LEAF STATUS by MS"],
    "never": ["never LEAF with LEAF"],
    "order": ["order LEAF before LEAF"],
}

# what a line of the output says of an expectation
VERDICT = re.compile(r"pass ([0-9]+)|fail ([0-9]+) ([0-9]+)")

# how many lines that are not met are told
MOST_TOLD = 20


@dataclass(frozen=True)
class Pick:
    """Leaves as a line tells them: by their ID, or by a quoted text."""

    word: Word
    text: str
    is_quoted: bool

    def is_of(self, node: Node) -> bool:
        """Whether a node is one of the leaves."""
        if node.kind != "Leaf":
            return False
        if not self.is_quoted:
            return self.text == node.id
        if "/" in self.text or "*" in self.text:
            return is_match(self.text, path_of(node))
        return self.text == node.name()


class ExpectLine(Line):
    """The words of a line of a file of expectations."""

    def forms(self) -> List[str]:
        """The forms of a line with this first word."""
        kind = self.words[0].text
        forms = FORMS.get(kind)
        return [f"a line of this kind is `{'` or `'.join(forms)}`"] if forms else meant(kind, FORMS) + [
            "a line begins with " + listed(FORMS, 20)]

    def leaf(self) -> Pick:
        """The next word, which tells leaves: an ID, or a quoted text, in which white space may stand."""
        word = self.next("a leaf")
        if not word.text.startswith("'"):
            if not is_name(word.text):
                self.bad(word.span(), f"{word.text} is no ID of leaves", [f"a name or a path of a leaf stands between quotes: '{word.text}'"])
            return Pick(word, word.text, False)
        found = QUOTED.match(self.source.data, word.start, self.end)
        if found is None:
            self.bad((word.start, self.end), "the text does not end, or has a byte that may not stand in it",
                     ["write \\' for a quote, \\\\ for a backslash, \\n for a line feed, and \\x with two hexadecimal digits for other bytes"])
        text = unescaped(found.group(1))
        if not is_utf8(text):
            self.bad((word.start, found.end()), "the text is no UTF-8")
        if found.end() < self.end and self.source.data[found.end():found.end() + 1] not in (b" ", b"\t"):
            self.bad((found.end(), found.end() + 1), "white space stands behind a text")
        whole = Word(found.group().decode("latin-1"), word.start, found.end())
        rest = [Word(it.group().decode("latin-1"), it.start(), it.end())
                for it in re.compile(rb"[^ \t]+").finditer(self.source.data, found.end(), self.end)]
        self.words[self.taken - 1:] = [whole, *rest]
        return Pick(whole, text.decode("utf-8"), True)

    def only(self, text: str) -> None:
        """The next word, which is this one."""
        word = self.next(f"the word {text}")
        if word.text != text:
            self.bad(word.span(), f"here stands {text}, and not {word.text}", meant(word.text, [text]))

    def status(self, *answers: str) -> Word:
        """The next word, which is one of these answers."""
        word = self.next("status")
        if word.text not in answers:
            self.bad(word.span(), f"{word.text} is none of {', '.join(answers)}", meant(word.text, answers))
        return word


class Expects:
    """What the lines of a file of expectations say of a tree in a world."""

    def __init__(self, source: Source, file: TreeFile, world: World):
        self.source, self.file, self.world = source, file, world
        self.expected: Dict[int, ExpectLine] = {}
        self.picks: List[Tuple[int, Pick]] = []

    def read(self) -> "Expects":
        """Reads all lines. Raises the fault of the first faulty one."""
        data = self.source.data
        count = len(self.source.starts) - (1 if data.endswith(b"\n") or not data else 0)
        end = self.source.starts[1] - 1 if len(self.source.starts) > 1 else len(data)
        first = data[:end]
        if count == 0 or (first[:-1] if first.endswith(b"\r") else first) != HEADER:
            raise Finding("Header 1", (0, end), "the first line is not the header",
                          [f"write exactly `{HEADER.decode()}`, with no white space or comment before it"])
        for number in range(2, count + 1):
            self.read_line(ExpectLine(self.source, number))
        return self

    def read_line(self, line: ExpectLine) -> None:
        """Reads a line."""
        content = line.data.strip(b" \t")
        if not content or content.startswith(b"#"):
            return
        for at, byte in enumerate(content):
            if byte != 9 and not 32 <= byte <= 126:
                place = line.start + line.data.find(content) + at
                line.words = line.words or [Word("", place, place)]
                line.bad((place, place + 1), "a line holds printable ASCII and tabs; write other bytes of a text with \\x")
        kind = line.next("the kind of the line")
        if kind.text not in FORMS:
            line.bad(kind.span(), f"no line begins with {kind.text}")
        getattr(self, "read_" + kind.text)(line)
        if len(self.expected) >= MOST_EXPECTATIONS:
            raise line.fault("TooMany", kind.span(), f"this would be expectation {MOST_EXPECTATIONS + 1}",
                             [f"a file has at most {MOST_EXPECTATIONS} expectations"])
        self.expected[line.number] = line

    # ---- what is wrong by place

    def known_facts(self, line: ExpectLine, expr: Expr) -> None:
        """Raises where a name of an expression is no fact."""
        for word in expr.names():
            if word.text not in self.world.facts:
                known = [f"the facts are {listed(self.world.facts)}"] if self.world.facts else ["the world has no facts"]
                raise line.fault("NoName", word.span(), f"the world has no fact {word.text}", meant(word.text, self.world.facts) + known)

    def known_leaf(self, line: ExpectLine, pick: Pick) -> None:
        """Raises where the tree has no such leaf."""
        self.picks.append((line.number, pick))
        leaves = [node for node in self.file.nodes if node.kind == "Leaf"]
        if any(pick.is_of(node) for node in leaves):
            return
        if not pick.is_quoted:
            what, names, known = f"the tree has no leaf of the ID {pick.text}", [node.id for node in leaves], "the IDs of its leaves are "
            named = [node for node in leaves if node.name() == pick.text]
            helps = [f"a leaf's name stands between quotes: '{pick.text}'"] if named else []
        elif "/" in pick.text or "*" in pick.text:
            what, names, known, helps = f"no path of a leaf matches {pick.word.text}", [path_of(it) for it in leaves], "the paths are ", []
        else:
            what, names, known = f"the tree has no leaf of the name {pick.word.text}", [node.name() for node in leaves], "their names are "
            paths = [path_of(node) for node in leaves if path_of(node).endswith("/" + pick.text)]
            helps = [f"a path has a /: '{paths[0]}'"] if paths and pick.text not in names else []
        names = list(dict.fromkeys(names))
        raise line.fault("NoLeaf", pick.word.span(), what, helps + meant(pick.text, names) + [known + listed(names)])

    def known_runner(self, line: ExpectLine, word: Word) -> None:
        """Raises where the world has no such runner."""
        if not word.text.isdigit() or not 1 <= int(word.text[:9]) <= self.world.count or len(word.text) > 9:
            raise line.fault("NoRunner", word.span(), f"the world has no runner {word.text}",
                             [f"it has {self.world.count}, from 1 on" if self.world.count > 1 else "it has one runner, 1"])

    def in_range(self, line: ExpectLine, word: Word, what: str) -> None:
        """Raises where a number is no moment and no count."""
        if word.text.startswith("-") or len(word.text) > 13 or int(word.text) > LAST_MOMENT:
            raise line.fault("Range", word.span(), f"{word.text} is out of the range of {what}", [f"from 0 to {LAST_MOMENT}"])

    # ---- the forms

    def read_always(self, line: ExpectLine) -> None:
        """`always EXPR`"""
        self.known_facts(line, line.expr())

    def read_at(self, line: ExpectLine) -> None:
        """`at MS EXPR`"""
        ms = line.canonical("moment")
        expr = line.expr()
        self.in_range(line, ms, "moments")
        self.known_facts(line, expr)

    def read_by(self, line: ExpectLine) -> None:
        """`by MS root R STATUS`"""
        ms = line.canonical("moment")
        line.only("root")
        runner = line.canonical("number of a runner")
        line.status(*ANSWERS)
        line.stop()
        self.in_range(line, ms, "moments")
        self.known_runner(line, runner)

    def read_root(self, line: ExpectLine) -> None:
        """`root R never STATUS`"""
        runner = line.canonical("number of a runner")
        line.only("never")
        line.status(*ANSWERS)
        line.stop()
        self.known_runner(line, runner)

    def read_start(self, line: ExpectLine) -> None:
        """`start LEAF only EXPR`"""
        pick = line.leaf()
        line.only("only")
        expr = line.expr()
        self.known_leaf(line, pick)
        self.known_facts(line, expr)

    def read_starts(self, line: ExpectLine) -> None:
        """`starts LEAF OP N`"""
        pick = line.leaf()
        line.sign(*COMPARISONS)
        count = line.canonical("number")
        line.stop()
        self.known_leaf(line, pick)
        self.in_range(line, count, "counts")

    def read_ends(self, line: ExpectLine) -> None:
        """`ends LEAF STATUS by MS`"""
        pick = line.leaf()
        line.status("SUCCESS", "FAILURE")
        line.only("by")
        ms = line.canonical("moment")
        line.stop()
        self.known_leaf(line, pick)
        self.in_range(line, ms, "moments")

    def read_never(self, line: ExpectLine) -> None:
        """`never LEAF with LEAF`"""
        self.read_two(line, "with")

    def read_order(self, line: ExpectLine) -> None:
        """`order LEAF before LEAF`"""
        self.read_two(line, "before")

    def read_two(self, line: ExpectLine, between: str) -> None:
        """Leaves, this word, and leaves."""
        first = line.leaf()
        line.only(between)
        second = line.leaf()
        line.stop()
        self.known_leaf(line, first)
        self.known_leaf(line, second)


def read_expects(source: Source, file: TreeFile, world: World) -> Expects:
    """Reads a file of expectations. Raises its first fault."""
    return Expects(source, file, world).read()


def pick_lines(expects: Expects) -> List[str]:
    """A line for each place where leaves are told: the line of the file, what tells them, and each leaf."""
    rows = []
    for number, pick in expects.picks:
        leaves = [f"{node.uid} {path_of(node)}" + ("" if node.name() == node.id else f" ({node.id})")
                  for node in expects.file.nodes if pick.is_of(node)]
        rows.append([str(number), pick.word.text, ", ".join(leaves)])
    return columns(rows)


def unmet(output: str) -> Iterator[Tuple[int, int]]:
    """The lines that a run did not meet, each with the moment at which that was decided."""
    for text in output.split("\n"):
        found = VERDICT.fullmatch(text)
        if found is not None and found.group(2) is not None:
            yield int(found.group(2)), int(found.group(3))


def unmet_lines(source: Source, output: str) -> List[str]:
    """What is said of the lines that a run did not meet."""
    failed = [it for it in unmet(output) if it[0] <= len(source.starts)]
    said: List[str] = []
    for number, moment in failed[:MOST_TOLD]:
        said += Report("error", f"not met, as was decided at {moment} ms", Place(source, *source.span_of_line(number)), "", [], []).lines()
    return said + ([f"{source.name}: {len(failed) - MOST_TOLD} more lines are not met"] if len(failed) > MOST_TOLD else [])
