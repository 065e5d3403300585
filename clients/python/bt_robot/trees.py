"""The nodes of a tree, and how the engine has read it, from the tree that `bt check` prints."""

import re
from typing import Dict, List, NamedTuple, Tuple

from .values import Value, literal

# `check` prints each mark in a line of its own.
MARK = re.compile(r'<(/?)([^ />]+)((?: [^ =]+="[^"]*")*)(/?)>')
ATTRIBUTE = re.compile(r' ([^ =]+)="([^"]*)"')
REFERENCE = re.compile(r"&(amp|lt|quot|#[0-9]+);")
SIGNS = {"amp": "&", "lt": "<", "quot": '"'}

# The leaves that the engine answers itself.
BUILT_IN = {"AlwaysSuccess", "AlwaysFailure", "Script", "ScriptCondition"}

Cell = Tuple[int, str]


def said(value: str) -> str:
    """What the value of an attribute says."""
    return REFERENCE.sub(lambda it: SIGNS.get(it.group(1)) or chr(int(it.group(1)[1:])), value)


def is_key(text: str) -> bool:
    """Whether what a port says names a key of the blackboard."""
    return text.startswith("{") and text.endswith("}")


class Element:
    """An element of the printed tree."""

    def __init__(self, name: str, attributes: Dict[str, str]):
        self.name, self.attributes = name, attributes
        self.children: List["Element"] = []

    @property
    def id(self) -> str:
        """The ID of its node."""
        return self.attributes["ID"] if self.name in ("Action", "SubTree") else self.name


class Node:
    """A node: its number, its ID, its name, the names of the SubTree nodes down to it and its own, whether it is a leaf that a row
    answers, and what its ports say: a text as it stands in the file, or a key in braces."""

    def __init__(self, uid: int, id_: str, name: str, path: str, is_leaf: bool, ports: Dict[str, str]):
        self.uid, self.id, self.name, self.path, self.is_leaf, self.ports = uid, id_, name, path, is_leaf, ports


class Place(NamedTuple):
    """Where a node stands: the SubTree node in whose tree it does, 0 for the main tree, and what it is to the trees below it."""

    scope: int
    is_tree: bool
    maps_all: bool


class Tree:
    """The nodes of a printed tree, in the order of their numbers."""

    def __init__(self, printed: str):
        root = elements(printed)
        self.trees = {tree.attributes["ID"]: tree.children[0] for tree in root.children}
        self.nodes: List[Node] = []
        self.places: List[Place] = []
        self.add(self.trees[root.attributes["main_tree_to_execute"]], 0, "")

    def add(self, element: Element, scope: int, above: str) -> None:
        """Adds a node and all below it."""
        attributes, is_tree = element.attributes, element.name == "SubTree"
        name = attributes.get("name", element.id)
        is_leaf = not element.children and not is_tree and element.id not in BUILT_IN
        ports = {port: text for port, text in attributes.items() if port not in ("name", "ID") and port[0] != "_"}
        node = Node(len(self.nodes) + 1, element.id, name, above + name, is_leaf, ports)
        self.nodes.append(node)
        self.places.append(Place(scope, is_tree, attributes.get("_autoremap") == "true"))
        if is_tree:
            self.add(self.trees[node.id], node.uid, f"{node.path}/")
        for child in element.children:
            self.add(child, scope, above)

    def cell(self, node: Node, key: str) -> Cell:
        """The cell of a key that a node names: the mappings are followed upwards to the scope that owns it."""
        scope = self.places[node.uid - 1].scope
        while scope:
            tree, text = self.places[scope - 1], self.nodes[scope - 1].ports.get(key)
            if text is not None and is_key(text):
                scope, key = tree.scope, text[1:-1]
            elif text is None and tree.maps_all and not key.startswith("_"):
                scope = tree.scope
            else:
                break
        return scope, key

    def first_entries(self) -> Dict[Cell, Value]:
        """What the blackboard holds before the first event: the literals of the SubTree nodes."""
        trees = [node for node, place in zip(self.nodes, self.places) if place.is_tree]
        return {(node.uid, port): literal(text) for node in trees for port, text in node.ports.items() if not is_key(text)}


def elements(printed: str) -> Element:
    """The document element of a printed tree."""
    top = Element("", {})
    open_ones = [top]
    for end, name, attributes, is_empty in MARK.findall(printed):
        if end:
            open_ones.pop()
            continue
        element = Element(name, {port: said(value) for port, value in ATTRIBUTE.findall(attributes)})
        open_ones[-1].children.append(element)
        if not is_empty:
            open_ones.append(element)
    return top.children[0]
