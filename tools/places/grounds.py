"""The first fault of a ground file, or of the world script that it stands for."""

import re
from typing import Dict, List, NamedTuple, Sequence, Tuple

from .marks import Finding
from .near import listed, meant
from .source import MOST_BYTES, Source
from .worlds import World, is_name, read_world

MOST_SORTS = MOST_VALUES = 16
MOST_OPEN = 3
GAP = " \t"


class Line(NamedTuple):
    """A line of the script, and the line of the file from which it comes."""

    origin: int
    text: str


class Block(NamedTuple):
    """An open block: its line, its variable, the values of its sort, and the lines that stand in it so far."""

    line: int
    variable: str
    values: List[str]
    lines: List[Line]


class Ground(Exception):
    """The first fault: its words, its line, 0 where it has none, and what is wrong there in particular, where it is said:
    a message, helps, and lines of the file that belong to it."""

    def __init__(self, words: str, line: int, message: str = "", helps: Sequence[str] = (),
                 notes: Sequence[Tuple[str, int]] = ()) -> None:
        super().__init__(words)
        self.words, self.line, self.message, self.helps, self.notes = words, line, message, list(helps), list(notes)


def fault_at(kind: str, line: int, message: str = "", helps: Sequence[str] = ()) -> Ground:
    """A fault of a line of the file."""
    return Ground(f"{kind} {line}", line, message, helps)


def read_ground(source: Source) -> World:
    """The world of the script that a ground file stands for. Raises the first fault."""
    lines, script = script_of(source)
    try:
        return read_world(script)
    except Finding as finding:
        raise of_script(lines, script, finding, source) from finding


def script_of(source: Source) -> Tuple[List[Line], Source]:
    """The script that a ground file stands for, as lines and as bytes. Raises the first fault."""
    lines = read_lines(source.data)
    text = "".join(line.text + "\n" for line in lines)
    if len(text) > MOST_BYTES:
        raise Ground(f"TooManyGround {len(text)}", 0)
    return lines, Source(source.name, text.encode("latin-1"))


def of_script(lines: List[Line], script: Source, finding: Finding, source: Source) -> Ground:
    """A fault of the world script, at the line of the ground file from which it comes."""
    kind, number = finding.words.split(" ")
    faulty = lines[int(number) - 1]
    first, end = source.span_of_line(faulty.origin)
    helps = list(finding.helps)
    notes = [(message, lines[script.line_of(span[0]) - 1].origin) for message, span in finding.notes]
    if kind == "DoubleName" and any(line == faulty.origin for _, line in notes):
        helps, notes = ["its block writes it once for each value: a name with a mark, as `$X`, is another one each time"], []
    if source.data[first:end].decode("latin-1") != faulty.text.strip(GAP):
        helps.insert(0, f"in the world script it is `{faulty.text.strip(GAP)}`")
    return Ground(f"World {kind} {faulty.origin}", faulty.origin, finding.message, helps, notes)


def read_lines(data: bytes) -> List[Line]:
    """The lines of the script. Raises the first fault."""
    texts = data.decode("latin-1").split("\n")
    texts = texts[:-1] if texts[-1] == "" else texts
    if not texts or without_return(texts[0]) != "bt-ground 1":
        is_world = bool(texts) and without_return(texts[0]) == "bt-world 1"
        raise fault_at("Header", 1, "this is a world script, and no ground file" if is_world else "",
                       ["a world script goes to `tick`, `live`, `mock` or `plan`"] if is_world else [])
    sorts: Dict[str, List[str]] = {}
    blocks = [Block(0, "", [], [Line(1, "bt-world 1")])]
    for number, text in enumerate(texts[1:], 2):
        read_line(number, without_return(text), sorts, blocks)
    if len(blocks) > 1:
        raise fault_at("Unended", blocks[-1].line)
    return blocks[0].lines


def without_return(text: str) -> str:
    """A line without one carriage return at its end."""
    return text[:-1] if text.endswith("\r") else text


def read_line(number: int, text: str, sorts: Dict[str, List[str]], blocks: List[Block]) -> None:
    """Reads a line: a sort, the beginning or the end of a block, or a line of the script."""
    content = text.strip(GAP)
    if not content or content.startswith("#"):
        return
    if re.search(r"[^\t -~]", content):
        raise fault_at("BadLine", number)
    words = re.split(f"[{GAP}]+", content)
    if words[0] == "sort":
        add_sort(number, words[1:], sorts, blocks)
    elif words[0] == "forall":
        begin(number, words[1:], sorts, blocks)
    elif words[0] == "end":
        end(number, words[1:], blocks)
    else:
        add_line(number, text, blocks)


def add_sort(number: int, words: List[str], sorts: Dict[str, List[str]], blocks: List[Block]) -> None:
    """`sort NAME V1 V2 ..`"""
    if not 2 <= len(words) <= MOST_VALUES + 1 or not all(map(is_name, words)) or len(blocks) > 1:
        raise fault_at("BadLine", number)
    if words[0] in sorts or len(set(words[1:])) < len(words) - 1:
        raise fault_at("DoubleName", number)
    if len(sorts) == MOST_SORTS:
        raise fault_at("TooMany", number)
    sorts[words[0]] = words[1:]


def begin(number: int, words: List[str], sorts: Dict[str, List[str]], blocks: List[Block]) -> None:
    """`forall X SORT`"""
    if len(words) != 2 or not re.fullmatch("[A-Z]", words[0]) or not is_name(words[1]):
        raise fault_at("BadLine", number)
    if words[0] in [block.variable for block in blocks]:
        raise fault_at("DoubleName", number)
    if words[1] not in sorts:
        helps = meant(words[1], sorts) + [f"known sorts: {listed(sorts)}" if sorts else "no sorts are known here"]
        raise fault_at("NoName", number, f"no earlier line has a sort {words[1]}", helps)
    if len(blocks) > MOST_OPEN:
        raise fault_at("TooNested", number)
    blocks.append(Block(number, words[0], sorts[words[1]], []))


def end(number: int, words: List[str], blocks: List[Block]) -> None:
    """`end`"""
    if words or len(blocks) == 1:
        raise fault_at("BadLine", number)
    block = blocks.pop()
    for place, value in enumerate(block.values, 1):
        filled = {"$" + block.variable: value, "#" + block.variable: str(place)}
        pattern = f"[$#]{block.variable}"
        blocks[-1].lines.extend(Line(it.origin, re.sub(pattern, lambda mark: filled[mark.group()], it.text)) for it in block.lines)


def add_line(number: int, text: str, blocks: List[Block]) -> None:
    """A line of the script, in which each `$` and `#` stands before a variable."""
    follow = re.findall(r"[$#](.?)", text)
    if not all(re.fullmatch("[A-Z]", variable) for variable in follow):
        raise fault_at("BadLine", number)
    unknown = [variable for variable in follow if variable not in [block.variable for block in blocks]]
    if unknown:
        raise fault_at("NoName", number, f"no open block has the variable {unknown[0]}",
                       [f"write `forall {unknown[0]} SORT` above the line, and `end` below it"])
    blocks[-1].lines.append(Line(number, text))
