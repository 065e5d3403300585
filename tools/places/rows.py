"""Leaves and rows: which of them lack one another, and lines of a world script to begin with."""

from typing import Dict, List

from .built_ins import ABSENT, is_row_id
from .near import meant, near
from .report import Note, Place, Report
from .trees import Node, TreeFile, quoted
from .worlds import MOST, World, is_name


def leaves_of(file: TreeFile) -> Dict[str, List[Node]]:
    """The leaves of a tree that need rows, by their IDs, in pre-order."""
    leaves: Dict[str, List[Node]] = {}
    for node in file.nodes:
        if node.kind == "Leaf":
            leaves.setdefault(node.id, []).append(node)
    return leaves


def is_condition(file: TreeFile, node: Node) -> bool:
    """Whether a model or the element says that a leaf is a condition."""
    model = file.models.get(node.id)
    return (model.element if model is not None else node.element).name == "Condition"


def row_for(file: TreeFile, nodes: List[Node]) -> str:
    """A row for the leaves of one ID, to begin with."""
    node = nodes[0]
    model = file.models.get(node.id)
    if model is not None:
        names = [port.name for port in model.ports.values() if port.sort != "output_port"]
    else:
        names = [port.name for other in nodes for port in other.ports()]
    names = [name for name in dict.fromkeys(names) if is_name(name)][:MOST["ports"]]
    head = node.id + (f"({','.join(names)})" if names else "")
    return f"condition {head} when 1" if is_condition(file, node) else f"action {head} timed 0"


def near_rows(file: TreeFile, world: World, id_: str) -> List[str]:
    """What else may be meant by a leaf's ID that has no row: a node that is not here, a row that no leaf uses, or any row."""
    if id_ in ABSENT:
        return [f"{id_} is no leaf of yours: {ABSENT[id_]}"]
    leaves = leaves_of(file)
    unused = near(id_, [other for other in world.rows if other not in leaves], 1)
    if unused:
        return [f"the row {unused[0]} is near, and no leaf uses it"]
    return meant(id_, world.rows)


def lacking(file: TreeFile, world: World, words: str) -> List[str]:
    """The lines for leaves that lack rows."""
    missing = {id_: nodes for id_, nodes in leaves_of(file).items() if id_ not in world.rows}
    if not missing or words != f"NoRow {quoted(next(iter(missing)))}":
        return []
    first, *others = [nodes[0] for nodes in missing.values()]
    report = Report("error", f"the leaf {first.said()} has no row in {world.source.name}",
                    Place(file.source, *first.element.span()), file.where(first))
    report.helps += near_rows(file, world, first.id)
    report.helps += [help_ for node in others if node.id in ABSENT for help_ in near_rows(file, world, node.id)]
    report.notes += [Note(f"{node.said()} has no row either", Place(file.source, *node.element.span()))
                     for node in others[:8]]
    rows = [row_for(file, nodes) for id_, nodes in missing.items() if is_row_id(id_) and id_ not in ABSENT]
    lines = report.lines()
    if rows:
        lines += ["  help: lines to begin with, each of which may be a condition or an action of another sort:", *rows]
    lines += [f"  help: no row can have the ID {quoted(id_)}: it is no name, or one that the tree format keeps"
              for id_ in missing if not is_row_id(id_)]
    return lines
