"""Ports of leaves that do not meet what their models, their rows or their like say, and tests that are none: warnings."""

from typing import Dict, Iterator, List, Optional, Set, Tuple

from .built_ins import ABSENT, BEFORE, NODES
from .marks import Attribute
from .near import distance, meant, near, plain
from .report import Note, Place, Report
from .rows import leaves_of
from .scripts import ScriptFault, Statement, statements
from .trees import Node, TreeFile
from .worlds import Row, World


# how long a name is at least that is judged by another one that is near: `p1` and `p2` are two ports
SHORTEST = 4


def warned(file: TreeFile, node: Node, span: Tuple[int, int], message: str, helps: List[str],
           notes: Optional[List[Note]] = None) -> Report:
    """A warning of a node at a part of the file."""
    return Report("warning", message, Place(file.source, *span), file.where(node), helps, notes or [])


def test_warnings(file: TreeFile) -> Iterator[Report]:
    """Tests that end with an assignment."""
    for node in file.nodes:
        for attribute in node.scripts():
            last = last_statement(attribute) if attribute.name in BEFORE or node.kind == "ScriptCondition" and attribute.name == "code" else None
            if last is None or last.target is None or not is_slip(last):
                continue
            value = attribute.value
            name, rest = last.target.text, value.said()[last.tokens[0].start:last.tokens[-1].end].decode("utf-8", "replace")
            yield warned(file, node, (value.place(last.target.start), value.place(last.tokens[-1].end)),
                         f"{attribute.name} of {node.said()} writes {name} and tests nothing: its answer is what it writes",
                         [f"to compare write `{name} == {rest}`"])


def last_statement(attribute: Attribute) -> Optional[Statement]:
    """The last statement of a script, if it can be read."""
    try:
        return statements(attribute.value.said())[-1]
    except ScriptFault:
        return None


def is_slip(statement: Statement) -> bool:
    """Whether an assignment as a test is none by what it says: `=`, or `:=` with a value that is always the same."""
    return statement.sign == "=" or statement.sign == ":=" and not any(token.is_look() for token in statement.tokens)


def input_warnings(file: TreeFile) -> Iterator[Report]:
    """Inputs of a leaf's model that the leaf does not give."""
    for id_, nodes in leaves_of(file).items():
        model = file.models.get(id_)
        for port in model.ports.values() if model is not None else ():
            if port.sort == "output_port" or port.default is not None:
                continue
            notes = [Note(f"the model of {id_}", Place(file.source, *port.element.span()))]
            for node in nodes:
                if node.element.attribute(port.name) is None:
                    yield warned(file, node, node.element.span(), f"{node.said()} does not give {port.name}, which its model has",
                                 [f'write {port.name}=".." there, or give the port a default in the model'], notes)


def like_warnings(file: TreeFile) -> Iterator[Report]:
    """Ports that only one of several leaves of an ID has, near to one that this leaf alone lacks."""
    for id_, nodes in leaves_of(file).items():
        if id_ in file.models:
            continue
        counts: Dict[str, int] = {}
        for node in first_of(nodes):
            for port in node.ports():
                counts[port.name] = counts.get(port.name, 0) + 1
        often = [name for name, count in counts.items() if count > 1]
        for node in first_of(nodes) if often else ():
            for port in node.ports():
                lone = counts[port.name] == 1 and len(port.name) >= SHORTEST
                helps = meant(port.name, [name for name in often if node.element.attribute(name) is None]) if lone else []
                if helps:
                    yield warned(file, node, port.span(), f"no other {id_} has the port {port.name}", helps)


def first_of(nodes: List[Node]) -> List[Node]:
    """One node for each element."""
    return list({node.element.at: node for node in reversed(nodes)}.values())


def leaf_warnings(file: TreeFile) -> Iterator[Report]:
    """Leaves by the name of a node that is not here, or near to that of one that is."""
    lone = [name for name, node in NODES.items() if node.sort == "leaf"] + ["SubTree"]
    for id_, nodes in leaves_of(file).items():
        found = [name for name in lone if distance(plain(id_), plain(name), 1) <= 1]
        if id_ in ABSENT:
            yield warned(file, nodes[0], nodes[0].element.span(), f"{id_} is read as a leaf of yours", [ABSENT[id_]])
        elif found and id_ not in file.models:
            yield warned(file, nodes[0], nodes[0].element.span(), f"{id_} is read as a leaf of yours", meant(id_, found))


def row_warnings(file: TreeFile, world: World) -> Iterator[Report]:
    """Inputs of a row that its leaf does not give, and ports that are near to what the row names."""
    for id_, nodes in leaves_of(file).items():
        row = world.rows.get(id_)
        if row is not None:
            yield from (report for node in nodes for report in of_row(file, world, row, node))


def of_row(file: TreeFile, world: World, row: Row, node: Node) -> Iterator[Report]:
    """Where a leaf and its row do not meet."""
    given = {port.name for port in node.ports() + file.defaults(node)}
    notes = [Note("its row", Place(world.source, *row.id.span()))]
    seen: Set[str] = set()
    for port in node.ports():
        lacking = [name for name in (*row.ports, *row.outs) if name not in given]
        found = near(port.name, lacking, 1) if port.name not in row.ports and port.name not in row.outs else []
        if found:
            seen.update(found)
            yield warned(file, node, port.span(), f"the row of {node.said()} does not name its port {port.name}", meant(port.name, found), notes)
    for name in row.ports:
        if name not in given and name not in seen:
            yield warned(file, node, node.element.span(), f"{node.said()} does not give {name}, which its row has",
                         [f'write {name}=".." there: where the row looks at it the run ends with a fault'], notes)
