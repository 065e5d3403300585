"""A trace with the name of each node after its line, and the moment after each call."""

import re
from typing import BinaryIO, Iterable, Iterator, Optional, Set

from .built_ins import NODES
from .escapes import escaped
from .listing import opening_said
from .traces import HEADER
from .trees import Node, TreeFile

UID = re.compile(r"(?:node|call) ([0-9]+) .*|(?:fault|quench|tell) [0-9]+ ([0-9]+)(?: .*)?|board [0-9]+ ([0-9]+) .*")


# no line that the program prints has so many bytes
MOST_LINE = 1 << 23


class OtherTree(Exception):
    """A trace that is surely of another tree."""


class NoTrace(Exception):
    """What is surely no trace."""


class Naming:
    """Names the nodes of a trace."""

    def __init__(self, file: TreeFile):
        self.file = file
        self.moment = "0"
        self.strange: Set[int] = set()
        self.before = ""
        self.has_calls = False

    def named(self, line: str) -> str:
        """What belongs after a line of the trace; nothing where it names no node. Raises where it calls a node that is no leaf."""
        header = HEADER.fullmatch(line)
        if header is not None:
            self.moment = header.group(2)
        found = UID.fullmatch(line)
        if found is None:
            return ""
        uid = int(found.group(1) or found.group(2) or found.group(3))
        if uid > len(self.file.nodes):
            self.strange.add(uid)
        node = self.file.nodes[uid - 1] if 1 <= uid <= len(self.file.nodes) else None
        if node is None:
            return ""
        is_call = line.startswith("call ")
        self.check(line, node, is_call)
        moment = f" at {self.moment}" if is_call else ""
        return "\t" + escaped(name_said(node) + moment + around_said(node))

    def check(self, line: str, node: Node, is_call: bool) -> None:
        """Raises where no run of this tree has the line: a leaf is called before it is RUNNING, and no other node is called."""
        self.has_calls |= is_call
        is_lone = node.kind in NODES and not node.children
        becomes_running = line.endswith(" RUNNING") and line.startswith("node ")
        if is_call and node.kind != "Leaf" or becomes_running and is_lone:
            raise OtherTree(f"the trace is of another tree: it has `{line}`, and {node.said()} of this tree is no leaf that is called")
        if becomes_running and node.kind == "Leaf" and self.has_calls and self.before != f"call {node.uid} start RUNNING":
            raise OtherTree(f"the trace is of another tree: it has `{line}` without a call of {node.said()} before it")

    def lines(self, trace: Iterable[bytes]) -> Iterator[bytes]:
        """The lines of the trace, each with what belongs after it."""
        for line in trace:
            text = line.rstrip(b"\n")
            said = text.decode("utf-8", "replace")
            yield text + self.named(said).encode() + line[len(text):]
            self.before = said

    def complaint(self) -> Optional[str]:
        """That the trace names nodes which the tree does not have."""
        if not self.strange:
            return None
        return f"names: the trace has node {max(self.strange)}, and the tree has {len(self.file.nodes)}: it is of another tree"


def lines_of(trace: BinaryIO) -> Iterator[bytes]:
    """The lines of a file. Raises where one is longer than any line of a trace."""
    for line in iter(lambda: trace.readline(MOST_LINE), b""):
        if len(line) == MOST_LINE:
            raise NoTrace(f"this is no trace: a line has more than {MOST_LINE - 1} bytes")
        yield line


def name_said(node: Node) -> str:
    """The name of a node, and its ID where this is another."""
    return node.name() if node.name() == node.id else f"{node.name()} ({node.id})"


def around_said(node: Node) -> str:
    """The SubTree nodes round a node, from the innermost."""
    return "".join(f", in {opening_said(around)}" for around in reversed(node.chain()))
