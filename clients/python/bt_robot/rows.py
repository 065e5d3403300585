"""The rows of leaves that the robot answers: those of a world script, and those that are made for a tree."""

import re
from typing import Dict, Iterable, List, Optional, Sequence

from .trees import Node, is_key

TOLD = re.compile(r"(condition|action)[ \t]+(\w+)(?:\(([\w,]*)\))?[ \t]+told[ \t]*")
OUT = re.compile(r"out[ \t]+(\w+)[ \t]*")
AT = re.compile(r"at[ \t]+([0-9]+)[ \t]*")
IDENTIFIER = re.compile(r"[A-Za-z_][A-Za-z0-9_]{0,63}")
# So many inputs and outputs a row has at most.
MOST_PORTS = 8


class Row:
    """How the leaves of one ID are told: whether as a condition, with which inputs, and with which outputs."""

    def __init__(self, is_condition: bool, inputs: Sequence[str], outputs: Sequence[str]):
        self.is_condition, self.inputs, self.outputs = is_condition, list(inputs), list(outputs)

    def lines(self, id_: str) -> List[str]:
        """The row as it stands in a world script."""
        ports = f"({','.join(self.inputs)})" if self.inputs else ""
        return [f"{'condition' if self.is_condition else 'action'} {id_}{ports} told", *(f"out {name}" for name in self.outputs)]


class World:
    """A world script with its told rows, and the moment at which its own events end."""

    def __init__(self, text: str):
        self.text = text if text.endswith("\n") else text + "\n"
        self.rows: Dict[str, Row] = {}
        self.moment = 0
        row: Optional[Row] = None
        for line in map(str.strip, self.text.split("\n")):
            told, out, at = TOLD.fullmatch(line), OUT.fullmatch(line), AT.fullmatch(line)
            if told:
                row = Row(told.group(1) == "condition", list(filter(None, (told.group(3) or "").split(","))), [])
                self.rows[told.group(2)] = row
            elif out and row:
                row.outputs.append(out.group(1))
            elif at:
                self.moment = int(at.group(1))
            elif line and not line.startswith("#"):
                row = None


def made_row(is_condition: bool, inputs: Optional[Sequence[str]], outputs: Optional[Sequence[str]], leaves: Iterable[Node]) -> Row:
    """The row of the leaves of one ID. Where its ports are not said, they are those that the leaves give: as inputs all, and
    as outputs those that name a key."""
    ports = [port for node in leaves for port in node.ports.items()]
    if inputs is None:
        inputs = sorted({name for name, _ in ports})
    if outputs is None:
        outputs = [] if is_condition else sorted({name for name, text in ports if is_key(text)})
    return Row(is_condition, inputs, outputs)


def made_world(rows: Dict[str, Row]) -> World:
    """The world script of these rows, without facts and events. Raises ValueError where no script can have one of them."""
    for id_, row in rows.items():
        names = [id_, *row.inputs, *row.outputs]
        bad = [name for name in names if not IDENTIFIER.fullmatch(name)]
        if bad:
            raise ValueError(f"no world script can have a row for the leaf {id_!r}: {bad[0]!r} is no identifier of at most 64 letters")
        if max(len(row.inputs), len(row.outputs)) > MOST_PORTS:
            raise ValueError(f"the leaf {id_!r} has more than {MOST_PORTS} ports: name those that are used by inputs=[..] and outputs=[..]")
    return World("\n".join(["bt-world 1", *(line for id_, row in rows.items() for line in row.lines(id_)), ""]))
