"""Lists of what a tree file has: its nodes by uid, its trees, and what a world script lacks for it."""

from typing import Dict, Iterator, List, Set

from .built_ins import NODES
from .escapes import escaped
from .marks import Element
from .rows import leaves_of
from .source import Source
from .trees import Node, TreeFile
from .worlds import Row, World


def columns(rows: List[List[str]]) -> List[str]:
    """Rows of cells as lines, the cells of a column below one another."""
    rows = [list(map(escaped, row)) for row in rows]
    widths = [max(map(len, column)) for column in zip(*rows)]
    return ["  ".join(cell.ljust(width) for cell, width in zip(row, widths)).rstrip() for row in rows]


def kind_said(node: Node) -> str:
    """The kind of a node: `leaf` where a row answers for it, and `built-in` where the program does."""
    if node.kind not in NODES:
        return {"Leaf": "leaf", "SubTree": "subtree"}[node.kind]
    return {"Control": "control", "Decorator": "decorator"}.get(NODES[node.kind].sort, "built-in")


def opening_said(node: Node) -> str:
    """A SubTree node by its name and uid."""
    return f"{node.name()} ({node.uid})"


def node_lines(file: TreeFile) -> List[str]:
    """A line a node: uid, kind, ID, name, line in the file, and the SubTree nodes round it."""
    return columns([[str(node.uid), kind_said(node), node.id, node.name(), str(file.source.line_of(node.element.at)),
                     " > ".join(map(opening_said, node.chain()))] for node in file.nodes])


def elements(element: Element) -> Iterator[Element]:
    """The elements below one, in pre-order."""
    for child in element.children:
        yield child
        yield from elements(child)


def names_of_opened(tree: Element) -> List[str]:
    """The IDs of the trees that a tree names."""
    found = [element.said("ID") or "" for element in elements(tree) if element.name in ("SubTree", "SubTreePlus")]
    return list(dict.fromkeys(found))


def opened_from(main: str, opens: Dict[str, List[str]]) -> Set[str]:
    """The trees that are opened where this one is."""
    seen: Set[str] = set()
    left = [main]
    while left:
        name = left.pop()
        if name in opens and name not in seen:
            seen.add(name)
            left += opens[name]
    return seen


def tree_lines(source: Source, trees: Dict[str, Element], main: str) -> List[str]:
    """A line a tree: its ID, its line, whether it is the main tree or never opened, and which trees it opens."""
    opens = {name: names_of_opened(tree) for name, tree in trees.items()}
    used = opened_from(main, opens)
    rows = []
    for name, tree in trees.items():
        role = "main" if name == main else "opened" if name in used else "never opened"
        below = "opens " + ", ".join(opens[name]) if opens[name] else ""
        rows.append([name or "''", f"line {source.line_of(tree.at)}", role, below])
    return columns(rows) if rows else []


def placed(source: Source, at: int, message: str) -> str:
    """A message after its place."""
    line, column = source.position(at)
    return f"{source.name}:{line}:{column}: {message}"


def join_lines(file: TreeFile, world: World) -> Iterator[str]:
    """Leaves without rows, rows without leaves, and ports that one of them names and the other does not."""
    leaves = leaves_of(file)
    for id_, nodes in leaves.items():
        row = world.rows.get(id_)
        if row is None:
            yield placed(file.source, nodes[0].element.at, f"the leaf {id_} has no row")
        for node in {node.element.at: node for node in nodes}.values() if row is not None else ():
            yield from port_lines(file, row, node)
    for id_, row in world.rows.items():
        if id_ not in leaves:
            yield placed(world.source, row.id.start, f"no leaf uses the row {id_}")


def port_lines(file: TreeFile, row: Row, node: Node) -> Iterator[str]:
    """Ports of a leaf that its row does not name, and inputs of the row that the leaf does not give."""
    for attribute in node.ports():
        if attribute.name not in row.ports and attribute.name not in row.outs:
            yield placed(file.source, attribute.at, f"the port {attribute.name} of {node.id} is not named by its row")
    given = {attribute.name for attribute in node.ports() + file.defaults(node)}
    for port in row.ports:
        if port not in given:
            yield placed(file.source, node.element.at, f"{node.id} does not give the input {port} of its row")
