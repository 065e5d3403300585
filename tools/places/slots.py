"""The slots of a tree and its work, both of which have limits."""

from typing import Dict, Iterator, List, Optional, Set, Tuple

from .built_ins import LOOPS, NODES
from .marks import Attribute, Finding
from .near import listed
from .scripts import ScriptFault, statements
from .trees import Node, TreeFile
from .values import is_key, key_of, number

MOST_SLOTS = 4096

MOST_WORK = 100_000


def keys_of(node: Node) -> Iterator[Tuple[int, str]]:
    """The keys that a node names, each with the scope in which it names it."""
    for attribute in node.ports():
        text = attribute.value.text()
        if is_key(text):
            yield node.scope(), key_of(attribute.name, text)
        if node.kind == "SubTree":
            yield node.uid, attribute.name
    for attribute in node.scripts():
        try:
            parts = statements(attribute.value.said())
        except ScriptFault:
            continue
        for part in parts:
            names = [token for token in part.tokens if token.is_look()] + ([part.target] if part.target else [])
            for token in names:
                yield node.scope(), token.text


def default_keys(file: TreeFile, node: Node) -> Iterator[Tuple[int, str]]:
    """The keys that the defaults of a leaf's model name at a node."""
    for default in file.defaults(node):
        text = default.value.text()
        if is_key(text):
            yield node.scope(), key_of(default.name, text)


def check_sizes(file: TreeFile) -> None:
    """Raises where a tree has too many slots, or too much work."""
    cells: Set[Tuple[int, str]] = set()
    for node in file.nodes:
        for scope, key in (*keys_of(node), *default_keys(file, node)):
            cells.add(file.cell(scope, key))
        if len(cells) > MOST_SLOTS:
            raise Finding("TooManyKeys", node.element.span(), f"here the tree has more than {MOST_SLOTS} keys",
                          ["a tree that is opened often has its keys anew each time: map them with _autoremap or ports"],
                          inside=file.where(node))
    works: Dict[int, int] = {}
    for node in reversed(file.nodes):
        works[node.uid] = work_of(node, works)
    heavy = [node for node in file.nodes if works[node.uid] > MOST_WORK]
    if heavy:
        node = heavy[-1]
        helps, notes = greatest(file, node)
        raise Finding("TooMuchWork", node.element.span(),
                      f"one visit of {node.said()} may make {works[node.uid]} visits",
                      [f"at most {MOST_WORK} in one tick; a RetryUntilSuccessful, Repeat or RecoveryNode makes as many as its "
                       "number times those below it; with -1 it makes one round a tick", *helps], notes, file.where(node))


def greatest(file: TreeFile, node: Node) -> "tuple[List[str], List[Tuple[str, Tuple[int, int]]]]":
    """What makes most of the work of a node: the one with the greatest factor, of it and of those below, and which of
    them have their number from a key."""
    found = [other for other in file.nodes[node.uid - 1:node.last().uid] if times_of(other) > 1]
    if not found:
        return [], []
    most = max(found, key=times_of)
    attribute = most.element.attribute(LOOPS[most.kind])
    notes = [(f"{most.said()} has the greatest factor, {times_of(most)}", attribute.span())] if attribute else []
    keys = [other for other in found if number(turns_said(other)) is None]
    helps = [f"{listed(dict.fromkeys(other.said() for other in keys), 4)}: the number comes from a key, "
             "and 1000 is counted: write a number"] if keys else []
    given = [(attribute, key) for attribute, key in (given_to(file, other) for other in keys) if attribute is not None]
    if given:
        helps.append(f"a SubTree gives {given[0][1]} a number, which a script or a leaf may change in the run: it is not counted")
        notes.append((f"the port {given[0][0].name}", given[0][0].span()))
    return helps, notes


def given_to(file: TreeFile, node: Node) -> Tuple[Optional[Attribute], str]:
    """The key that tells how often a node visits its children, and the port with a number that a SubTree node gives it."""
    said = turns_said(node)
    if not is_key(said):
        return None, ""
    key = key_of(LOOPS[node.kind], said)
    scope, name = file.cell(node.scope(), key)
    attribute = file.nodes[scope - 1].element.attribute(name) if scope else None
    return (attribute if attribute is not None and number(attribute.value.text()) is not None else None), key


def turns_said(node: Node) -> str:
    """What the port says that tells how often a node visits its children, or its default."""
    said = node.element.said(LOOPS[node.kind])
    return NODES[node.kind].ports[0].default or "" if said is None else said


def times_of(node: Node) -> int:
    """How often one visit of a node visits its children at most: 1000 times where a key says the number. A RecoveryNode
    visits its first child once more."""
    if node.kind not in LOOPS:
        return 1
    times = number(turns_said(node))
    return 1000 if times is None else 1 if times == -1 else times


def work_of(node: Node, works: Dict[int, int]) -> int:
    """How many visits one visit of a node makes at most."""
    once_more = works[node.children[0].uid] if node.kind == "RecoveryNode" else 0
    return 1 + times_of(node) * sum(works[child.uid] for child in node.children) + once_more
