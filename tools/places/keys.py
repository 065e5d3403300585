"""Which keys of a tree are written and which are looked at, cell by cell: warnings of keys that nothing writes."""

from dataclasses import dataclass
from typing import AbstractSet, Dict, Iterator, List, Optional, Set, Tuple

from .built_ins import is_identifier
from .listing import elements
from .marks import Attribute
from .near import meant, near, said
from .report import Note, Place, Report
from .scripts import ScriptFault, statements
from .trees import Node, TreeFile, is_opening, is_true
from .values import is_key, key_of
from .worlds import World

Cell = Tuple[int, str]

# how many keys that nothing writes are told of
MOST_TOLD = 20

ROLES = {"input_port": "in", "output_port": "out", "inout_port": "both"}


@dataclass(frozen=True)
class Use:
    """A place of a tree that names a key, in the scope of its node, and in words what it is and does with it."""

    node: Node
    key: str
    span: Tuple[int, int]
    name: str
    verb: str = "reads"
    makes: bool = False
    looks: bool = False
    # whether the value is needed: a row may have an input and not look at it
    needs: bool = False
    # whether it is a port of a leaf that the leaf's row does not name
    silent: bool = False

    def said(self) -> str:
        """What it does, in words before the key."""
        return f"{self.name} {self.verb}"


def role_of(file: TreeFile, world: Optional[World], node: Node, port: str) -> str:
    """What a leaf does at its port: `in`, `out`, `both`, `none`, or `any` where nobody says so."""
    row = world.rows.get(node.id) if world is not None else None
    if row is not None:
        return {(True, False): "in", (False, True): "out", (True, True): "both"}.get((port in row.ports, port in row.outs), "none")
    model = file.model_of(node)
    if model is not None and port in model.ports:
        return ROLES[model.ports[port].sort]
    return "any"


def port_use(file: TreeFile, world: Optional[World], node: Node, attribute: Attribute) -> Use:
    """What a node does with the key at a port, which may have a default of a model."""
    key = key_of(attribute.name, attribute.value.text())
    name = f"the port {attribute.name} of {node.said()}"
    if node.kind == "SubTree":
        return Use(node, key, attribute.span(), name)
    if node.kind != "Leaf":
        return Use(node, key, attribute.span(), name, looks=True, needs=True)
    role = role_of(file, world, node, attribute.name)
    row = world.rows.get(node.id) if world is not None else None
    needs = row is not None and role == "in" and attribute.name in row.looks()
    return Use(node, key, attribute.span(), name, makes=role in ("out", "both", "any"), looks=role in ("in", "both"), needs=needs,
               silent=role == "none")


def script_uses(node: Node, attribute: Attribute) -> Iterator[Use]:
    """The keys that a script names."""
    try:
        parts = statements(attribute.value.said())
    except ScriptFault:
        return
    value, name = attribute.value, f"{attribute.name} of {node.said()}"
    for part in parts:
        for token in part.looks():
            span = value.place(token.start), value.place(token.end)
            yield Use(node, token.text, span, name, "changes" if token is part.target else "looks at", looks=True, needs=True)
        if part.target is not None and part.sign == ":=":
            span = value.place(part.target.start), value.place(part.target.end)
            yield Use(node, part.target.text, span, name, "writes", makes=True)


def uses_of(file: TreeFile, world: Optional[World]) -> Iterator[Use]:
    """All places of the opened tree that name a key."""
    for node in file.nodes:
        for attribute in node.ports() + file.defaults(node):
            if is_key(attribute.value.text()):
                yield port_use(file, world, node, attribute)
        for attribute in node.scripts():
            yield from script_uses(node, attribute)


class Keys:
    """The keys of a tree: what makes them, what looks at them, and which keys of which scopes are named at all."""

    def __init__(self, file: TreeFile, world: Optional[World]):
        self.file = file
        self.made: Set[Cell] = set()
        self.looked: Dict[Cell, List[Use]] = {}
        self.silent: Dict[Cell, Use] = {}
        self.named: Dict[int, Set[str]] = {}
        self.known: Dict[int, List[str]] = {}
        # where the main tree itself is opened by another one of the file
        self.above = [element for element in elements(file.root) if is_opening(file, element) and element.said("ID") == file.main]
        for use in uses_of(file, world):
            self.take(use)
        for node in file.nodes:
            for attribute in node.ports() if node.kind == "SubTree" else ():
                if not is_key(attribute.value.text()):
                    self.made.add((node.uid, attribute.name))

    def take(self, use: Use) -> None:
        """Takes a place that names a key."""
        cell = (0, "")
        for scope, key, _ in self.file.mapped(use.node.scope(), use.key):
            self.named.setdefault(scope, set()).add(key)
            cell = scope, key
        if use.makes:
            self.made.add(cell)
        if use.silent:
            self.silent.setdefault(cell, use)
        if use.looks:
            self.looked.setdefault(cell, []).append(use)

    def made_in(self, scope: int) -> List[str]:
        """The keys of a scope that have something which makes them."""
        if scope not in self.known:
            self.known[scope] = sorted(key for key in self.named.get(scope, ()) if self.file.cell(scope, key) in self.made)
        return self.known[scope]

    def lacking(self) -> Dict[Cell, Use]:
        """The cells that are looked at and never made, each with the first place that looks at it, one that needs it before
        others."""
        return {cell: next((use for use in uses if use.needs), uses[0]) for cell, uses in self.looked.items()
                if cell not in self.made and not self.is_given_above(*cell)}

    def is_given_above(self, scope: int, key: str) -> bool:
        """Whether a key of the main tree is given where this tree is opened elsewhere in the file."""
        return scope == 0 and any(element.attribute(key) is not None or is_true(element.said("_autoremap"))
                                  or is_true(element.said("__autoremap")) for element in self.above)

    def unused(self, node: Node) -> List[Attribute]:
        """The ports of a SubTree node that its tree does not name."""
        return [port for port in node.ports() if port.name not in self.named.get(node.uid, ())]


def key_warnings(file: TreeFile, world: Optional[World] = None, told: AbstractSet[Tuple[str, str]] = frozenset()) -> Iterator[Report]:
    """Keys that nothing writes, and ports of SubTree nodes that their trees do not know. Keys of trees that are told of
    already are left out."""
    keys = Keys(file, world)
    lacking = keys.lacking()
    for node in file.nodes:
        unused = keys.unused(node) if node.kind == "SubTree" else []
        wanted = [key for scope, key in lacking if scope == node.uid] if unused else []
        for port in unused:
            meant_keys = near(port.name, [key for key in wanted if (node.uid, key) in lacking], 1)
            yield unused_port(keys, node, port, meant_keys or near(port.name, keys.named.get(node.uid, ()), 1))
            for key in meant_keys:
                del lacking[node.uid, key]
    left = [(cell, use) for cell, use in lacking.items() if not cell[0] or (file.nodes[cell[0] - 1].id, cell[1]) not in told]
    for cell, use in left[:MOST_TOLD]:
        report = unwritten(keys, cell, use)
        if report is not None:
            yield report


def unused_port(keys: Keys, node: Node, port: Attribute, wanted: List[str]) -> Report:
    """A port of a SubTree node that its tree does not name, and the key for which it may be meant."""
    helps = [f"did you mean {said(wanted)}?"] if wanted else [f"the tree {node.id} names no key {port.name}"]
    return Report("warning", f"the tree '{node.id}' does not use the port {port.name} of {node.said()}",
                  Place(keys.file.source, *port.span()), keys.file.where(node), helps)


def unwritten(keys: Keys, cell: Cell, use: Use) -> Optional[Report]:
    """A cell that is looked at and never written, if that is a mistake by what can be seen."""
    file, (scope, key) = keys.file, cell
    made = keys.made_in(scope)
    helps = meant(key, made) + no_output(keys, cell)
    if not helps and scope:
        return not_given(keys, cell, use)
    if not helps and not use.needs:
        return None
    if not helps and use.verb == "changes":
        helps = [f"`=` and its like change an entry that is there: write `{key} := ..` first"]
    helps = helps or [f"write it first, with `{key} := ..`, by an output of a leaf or by a port of a SubTree"]
    looked = Place(file.source, *use.span)
    port = next((port for owner, name, port in file.mapped(use.node.scope(), use.key) if (owner, name) == cell), None)
    if port is None:
        return Report("warning", f"nothing writes the key {key}, which {use.said()}", looked, file.where(use.node), helps)
    around = file.nodes[scope_below(file, use) - 1]
    return Report("warning", f"nothing writes the key {key}", Place(file.source, *port.span()), file.where(around), helps,
                  [Note(f"{use.said()} it as {use.key}", looked)])


def no_output(keys: Keys, cell: Cell) -> List[str]:
    """That a row has no output for a cell that its leaf names at a port."""
    use = keys.silent.get(cell)
    return [] if use is None else [f"{use.name} is neither an input nor an output of its row: an output is a line `out PORT = ..`"]


def scope_below(file: TreeFile, use: Use) -> int:
    """The last scope on the way from a place to its cell, before the cell's own."""
    return [owner for owner, _, _ in file.mapped(use.node.scope(), use.key)][-2]


def not_given(keys: Keys, cell: Cell, use: Use) -> Report:
    """A key that the tree of a SubTree node reads and the node does not give."""
    node = keys.file.nodes[cell[0] - 1]
    return Report("warning", f"{node.said()} is opened without {cell[1]}, which its tree reads",
                  Place(keys.file.source, *node.element.span()), keys.file.where(node),
                  [f'write {cell[1]}="{{..}}", or a value, at the SubTree'],
                  [Note(f"{use.said()} it", Place(keys.file.source, *use.span))])


def literal_warnings(file: TreeFile) -> Iterator[Report]:
    """Texts at ports that are keys of the same tree in other places, and have no braces."""
    keys: Dict[int, Set[str]] = {}
    for use in uses_of(file, None):
        keys.setdefault(use.node.scope(), set()).add(use.key)
    for node in file.nodes:
        for attribute in node.ports():
            text = attribute.value.text()
            if is_identifier(text) and text in keys.get(node.scope(), ()) and not attribute.name.startswith("case_"):
                yield Report("warning", f"the port {attribute.name} of {node.said()} is the text '{text}', and {text} is a key of this tree",
                             Place(file.source, *attribute.span()), file.where(node),
                             [f'for the value of the key write {attribute.name}="{{{text}}}"'])
