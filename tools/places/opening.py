"""Opens the main tree: its nodes in pre-order, each SubTree node with the root of its tree, and the first fault."""

import sys
from typing import List, Optional, Tuple

from .built_ins import ABSENT, EXPLICIT, KEPT, LEAF, NODES
from .contents import check_content
from .marks import Element, Finding
from .near import listed, meant
from .slots import check_sizes
from .source import MOST_BYTES, read
from .trees import Node, TreeFile, is_opening, quoted, read_file

MOST_NODES = 4096

MOST_DEPTH = 256

MOST_SCOPES = 256


def renamed(file: TreeFile, name: str, wanted: str, in_version_4: str) -> str:
    """The name, or that of version 4 where the file is of version 3 and has the old one."""
    return in_version_4 if file.version == 3 and name == wanted else name


def head_of(file: TreeFile, element: Element) -> Optional[Tuple[str, str]]:
    """The kind and the ID of the node that an element is, if it is one."""
    if is_opening(file, element):
        return "SubTree", element.said("ID") or ""
    id_ = element.said("ID") if element.name in EXPLICIT else element.name
    if id_ is None:
        return None
    id_ = renamed(file, id_, "SequenceStar", "SequenceWithMemory")
    if id_ in NODES:
        sorts = {"leaf": ("Action", "Condition")}.get(NODES[id_].sort, (NODES[id_].sort,))
        return (id_, id_) if element.name not in EXPLICIT or element.name in sorts else None
    if element.children or element.name in ("BehaviorTree", "TreeNodesModel", "root", "Control", "Decorator"):
        return None
    return "Leaf", id_


class Opening:
    """What is opened so far."""

    def __init__(self, file: TreeFile):
        self.file = file
        self.scopes = 1

    def open_main(self) -> None:
        """Opens the main tree."""
        tree = self.file.trees[self.file.main]
        if len(tree.children) != 1:
            raise self.tree_count(tree, 0, self.file.main, f"tree '{self.file.main}'")
        self.open(tree.children[0], None, self.file.main, 1, (self.file.main,))

    def open(self, element: Element, inside: Optional[Node], tree: str, depth: int, opened: Tuple[str, ...]) -> Node:
        """The node of an element, with all below it."""
        uid = len(self.file.nodes) + 1
        head = head_of(self.file, element)
        node = Node(uid, *(head or ("", element.name)), element, depth, inside, tree)
        if uid > MOST_NODES:
            raise self.fault("TooManyNodes", node, f"this would be node {uid}",
                             [f"a tree has at most {MOST_NODES} nodes, and a tree that is opened twice counts twice"])
        if depth > MOST_DEPTH:
            raise self.fault(f"TooDeep {uid}", node, f"this node has {depth - 1} round it",
                             [f"a tree is at most {MOST_DEPTH} deep, with the trees that it opens"])
        if head is None:
            raise self.unknown(node)
        if node.kind == "SubTree":
            return self.open_tree(node, opened)
        return self.open_children(node, opened)

    def open_children(self, node: Node, opened: Tuple[str, ...]) -> Node:
        """A node with its children."""
        known = NODES.get(node.kind, LEAF)
        count = len(node.element.children)
        if not known.takes(count):
            helps = ["put a Sequence or a Fallback round them"] if count > 1 and known.most == 1 else []
            raise self.fault(f"ChildCount {node.uid}", node,
                             f"{node.id} takes {known.count_said()}, and has {count or 'none'}", helps)
        self.file.nodes.append(node)
        check_content(self.file, node)
        for element in node.element.children:
            node.children.append(self.open(element, node.inside, node.tree, node.depth + 1, opened))
        return node

    def open_tree(self, node: Node, opened: Tuple[str, ...]) -> Node:
        """A SubTree node with the root of its tree."""
        tree = self.file.trees.get(node.id)
        if tree is None:
            raise self.no_tree(node)
        if node.id in opened:
            raise self.fault(f"Recursive {quoted(node.id)}", node, f"the tree '{node.id}' is opened inside itself",
                             ["no tree may open itself, nor by way of others: write a Repeat or a KeepRunningUntilFailure"])
        if self.scopes >= MOST_SCOPES:
            raise self.fault("TooManyScopes", node, f"this would be scope {self.scopes + 1}",
                             [f"at most {MOST_SCOPES} scopes, the main tree's counted: each SubTree node makes one"])
        if node.element.children:
            raise self.fault(f"ChildCount {node.uid}", node, "a SubTree element has no children",
                             ["write it as <SubTree .. />, and what belongs to it into its tree"])
        if len(tree.children) != 1:
            raise self.tree_count(tree, node.uid, node.id, self.file.where(node))
        self.scopes += 1
        self.file.nodes.append(node)
        check_content(self.file, node)
        node.children.append(self.open(tree.children[0], node, node.id, node.depth + 1, opened + (node.id,)))
        return node

    def fault(self, words: str, node: Node, message: str, helps: List[str]) -> Finding:
        """A fault at a node."""
        return Finding(words, node.element.span(), message, helps, inside=self.file.where(node))

    def tree_count(self, tree: Element, uid: int, id_: str, inside: str) -> Finding:
        """A tree that has not exactly one node at its top."""
        count = len(tree.children)
        helps = ["put a Sequence or a Fallback round them"] if count else ["write a node into it"]
        return Finding(f"ChildCount {uid}", tree.span(),
                       f"the tree '{id_}' has {count or 'no'} nodes at its top, and takes one", helps, inside=inside)

    def no_tree(self, node: Node) -> Finding:
        """A SubTree node whose tree is not in the file."""
        id_ = node.element.attribute("ID")
        span = node.element.span() if id_ is None else id_.span()
        message = f"the file has no tree '{node.id}'" if id_ is not None else "this SubTree has no ID"
        names = [name for name in self.file.trees if name != self.file.main]
        helps = meant(node.id, names) + ["the file has " + listed(f"'{name}'" for name in self.file.trees)]
        return Finding(f"NoTree {quoted(node.id)}", span, message, helps, inside=self.file.where(node))

    def unknown(self, node: Node) -> Finding:
        """An element that is no node."""
        element, name = node.element, node.element.name
        if name in EXPLICIT:
            return self.unknown_explicit(node)
        if name in KEPT:
            return self.fault(f"UnknownNode {node.uid}", node, f"{name} is no node and may not stand here", [])
        fitting = [other for other, known in NODES.items() if known.takes(len(element.children))]
        near = meant(name, fitting + (["SubTree"] if not element.children else []))
        with_children = [other for other, known in NODES.items() if known.most != 0]
        helps = [ABSENT[name]] if name in ABSENT else near or ["nodes with children are " + listed(with_children, 30)]
        return self.fault(f"UnknownNode {node.uid}", node,
                          f"there is no node {name} that has children; a leaf has none", helps)

    def unknown_explicit(self, node: Node) -> Finding:
        """An element with its node's ID in an attribute, of which there is none or the wrong one."""
        element, id_ = node.element, node.element.attribute("ID")
        if id_ is None:
            return self.fault(f"UnknownNode {node.uid}", node, f"this {element.name} has no ID",
                              [f'write <{element.name} ID="..">'])
        name = id_.value.text()
        if name in NODES:
            sort = {"leaf": "an Action or a Condition"}.get(NODES[name].sort, f"a {NODES[name].sort}")
            message, helps = f"{name} is {sort}, and no {element.name}", [f"write <{name}>"]
        elif element.name in ("Action", "Condition"):
            message, helps = f"{name} has children; a leaf has none", meant(name, NODES)
        else:
            near = meant(name, [other for other, known in NODES.items() if known.sort == element.name])
            message, helps = f"there is no {element.name} {name}", [ABSENT[name]] if name in ABSENT else near
        return Finding(f"UnknownNode {node.uid}", id_.span(), message, helps, inside=self.file.where(node))


def open_file(file: TreeFile) -> None:
    """Opens the main tree of a file. Raises the first fault of its nodes."""
    sys.setrecursionlimit(20_000)
    Opening(file).open_main()
    check_sizes(file)


def opened(name: Optional[str], main: Optional[str]) -> Optional[TreeFile]:
    """The file of this name with its main tree opened, or none where it can't be read as the program reads it."""
    source = read(name) if name else None
    if source is None or len(source.data) > MOST_BYTES:
        return None
    try:
        file = read_file(source, main)
        open_file(file)
    except Finding:
        return None
    return file
