"""A tree file as it is opened: its models, its trees, and its nodes by uid."""

import re
from dataclasses import dataclass, field
from typing import Dict, Iterator, List, Optional, Tuple

from .built_ins import GUARDS, NODES, WITH_CODE
from .marks import MODELS, NAME, Attribute, Element, Finding, StandIn, read_marks
from .near import listed, meant
from .source import Source
from .values import is_key, key_of

PORTS = ("input_port", "output_port", "inout_port")


@dataclass
class ModelPort:
    """A port of a leaf's model."""

    name: str
    sort: str
    element: Element
    default: Optional[Attribute]


@dataclass
class Model:
    """The model of a leaf."""

    id: str
    element: Element
    ports: Dict[str, ModelPort] = field(default_factory=dict)


@dataclass
class Node:
    """A node of the opened tree. `inside` is the SubTree node whose tree holds it."""

    uid: int
    kind: str
    id: str
    element: Element
    depth: int
    inside: Optional["Node"] = None
    tree: str = ""
    children: List["Node"] = field(default_factory=list)

    def name(self) -> str:
        """Its attribute `name`, else its ID."""
        said = self.element.said("name")
        return self.id if said is None else said

    def scope(self) -> int:
        """The scope in which it stands: 0, or the uid of the SubTree node round it."""
        return self.inside.uid if self.inside is not None else 0

    def chain(self) -> List["Node"]:
        """The SubTree nodes round it, from the outermost."""
        found, around = [], self.inside
        while around is not None:
            found.append(around)
            around = around.inside
        return found[::-1]

    def last(self) -> "Node":
        """The last one, in pre-order, of the node and all below it."""
        return self.children[-1].last() if self.children else self

    def is_port(self, name: str) -> bool:
        """Whether an attribute of this name is a port."""
        return is_port_name(name) and not (self.kind in WITH_CODE and name == "code")

    def ports(self) -> List[Attribute]:
        """The attributes that are ports."""
        return [a for a in self.element.attributes if self.is_port(a.name)]

    def scripts(self) -> Iterator[Attribute]:
        """The attributes that are scripts: `code` first, then the guards in their order."""
        names = (("code",) if self.kind in WITH_CODE else ()) + GUARDS
        yield from (a for a in map(self.element.attribute, names) if a is not None)

    def said(self) -> str:
        """How messages name it."""
        name = self.name()
        return f"{self.id} '{name}' (node {self.uid})" if name != self.id else f"{self.id or 'SubTree'} (node {self.uid})"


@dataclass
class TreeFile:
    """What a tree file defines, before a tree is opened."""

    source: Source
    root: Element
    models: Dict[str, Model]
    trees: Dict[str, Element]
    version: int
    main: str
    nodes: List[Node] = field(default_factory=list)

    def model_of(self, node: Node) -> Optional[Model]:
        """The model that says which ports a leaf has; none for one that stands in the place of another."""
        return self.models.get(node.id) if node.kind == "Leaf" and not isinstance(node.element, StandIn) else None

    def defaults(self, node: Node) -> List[Attribute]:
        """The defaults of a leaf's model for ports that it does not write, each with the port's name."""
        model = self.model_of(node)
        found = [port for port in model.ports.values() if node.element.attribute(port.name) is None] if model is not None else []
        return [Attribute(port.name, port.default.at, port.default.value, port.default.end) for port in found if port.default is not None]

    def where(self, node: Node) -> str:
        """The chain of SubTree nodes that leads to a node, with lines."""
        parts = [f"tree '{self.main}'"]
        for around in node.chain():
            name = around.name() if around.name() == around.id else f"{around.id} '{around.name()}'"
            parts.append(f"SubTree {name} (node {around.uid}, line {self.source.line_of(around.element.at)})")
        return " > ".join(parts)

    def mapped(self, scope: int, key: str) -> Iterator[Tuple[int, str, Optional[Attribute]]]:
        """A key and what it is mapped to, scope by scope up to the one that owns its cell, each with the port that says so."""
        port: Optional[Attribute] = None
        while True:
            yield scope, key, port
            if not scope:
                return
            around = self.nodes[scope - 1]
            found = around.element.attribute(key) if around.is_port(key) else None
            if found is not None:
                text = found.value.text()
                if not is_key(text):
                    return
                key, port = key_of(key, text), found
            elif not is_remapped(around) or key.startswith("_"):
                return
            scope = around.scope()

    def cell(self, scope: int, key: str) -> Tuple[int, str]:
        """The cell at the end of all mappings: the scope that owns it, and its key there."""
        *_, (owner, name, _) = self.mapped(scope, key)
        return owner, name


def is_port_name(name: str) -> bool:
    """Whether an attribute of this name may be a port."""
    return name not in ("name", "ID") and not name.startswith("_")


def is_remapped(node: Node) -> bool:
    """Whether all keys of a SubTree node are mapped."""
    names = ("_autoremap", "__autoremap") if node.element.name == "SubTreePlus" else ("_autoremap",)
    return any(is_true(node.element.said(name)) for name in names)


def is_true(text: Optional[str]) -> bool:
    """Whether the text of an attribute says so."""
    return text in ("true", "1")


def is_opening(file: "TreeFile", element: Element) -> bool:
    """Whether an element is a SubTree node."""
    return element.name == "SubTree" or element.name == "SubTreePlus" and file.version == 3


def models_of(root: Element) -> Dict[str, Model]:
    """The models of the file. Raises the first fault of them."""
    models: Dict[str, Model] = {}
    holder: Optional[Element] = None
    for child in root.children:
        if child.name != MODELS:
            continue
        if holder is not None:
            raise Finding(f"DoubleModel {child.at}", child.span(), f"a second {MODELS}",
                          ["put all models into the first one"], [("the first one", holder.span())])
        holder = child
        for element in child.children:
            if element.name in ("Action", "Condition"):
                add_model(models, element)
    return models


def add_model(models: Dict[str, Model], element: Element) -> None:
    """Adds a model, unless it is that of a built-in node."""
    id_ = element.attribute("ID")
    if id_ is None:
        raise Finding(f"BadModel {element.at}", element.span(), f"this model of an {element.name} has no ID",
                      [f'write <{element.name} ID="..">'])
    model = Model(id_.value.text(), element)
    if model.id in NODES:
        return
    if model.id in models:
        raise Finding(f"DoubleModel {element.at}", id_.span(), f"a second model of {model.id}", ["keep one of them"],
                      [("the first one", models[model.id].element.span())])
    models[model.id] = model
    taken: Dict[str, Element] = {}
    for port in element.children:
        if port.name in PORTS:
            add_port(model, taken, port)


def add_port(model: Model, taken: Dict[str, Element], element: Element) -> None:
    """Adds a port to a model, where it can be written at a node."""
    name = element.said("name")
    if name is None:
        raise Finding(f"BadModel {element.at}", element.span(), f"this port of {model.id} has no name",
                      [f'write <{element.name} name="..">'])
    if name in taken:
        raise Finding(f"BadModel {element.at}", element.span(), f"{model.id} has a second port {name}",
                      ["keep one of them"], [("the first one", taken[name].span())])
    taken[name] = element
    if is_port_name(name) and re.fullmatch(NAME, name.encode()):
        model.ports[name] = ModelPort(name, element.name, element, element.attribute("default"))


def trees_of(root: Element) -> Dict[str, Element]:
    """The trees of the file by their IDs. Raises the first fault of the file's top."""
    if root.name != "root":
        raise Finding(f"NotRoot {root.at}", root.span(), f"the document element is {root.name}",
                      ['write <root BTCPP_format="4"> round the trees'])
    for child in root.children:
        if child.name not in ("BehaviorTree", MODELS):
            helps = [f"a root holds <BehaviorTree ID=\"..\"> and <{MODELS}>, and nodes stand in a BehaviorTree"]
            if child.name == "include":
                helps = ["there are no includes: put the trees into one file"]
            raise Finding(f"NotRoot {child.at}", child.span(), f"{child.name} may not stand in the root", helps)
    check_format(root)
    trees: Dict[str, Element] = {}
    for child in root.children:
        if child.name != "BehaviorTree":
            continue
        name = child.said("ID") or ""
        if name in trees:
            raise Finding(f"DoubleTree {quoted(name)}", child.span(), f"a second tree of the ID '{name}'",
                          ["give one of them another ID"], [("the first one", trees[name].span())])
        trees[name] = child
    return trees


def check_format(root: Element) -> None:
    """Raises where the file has another format than 4 or 3."""
    found = root.attribute("BTCPP_format")
    if found is not None and found.value.text() not in ("3", "4"):
        raise Finding("Format", found.span(), f"the format '{found.value.text()}' is not known",
                      ['write BTCPP_format="4"'])


def quoted(text: str) -> str:
    """A text as the program prints it in quotes."""
    signs = {"'": "\\'", "\\": "\\\\", "\n": "\\n"}
    return "'" + "".join(signs.get(c, f"\\x{ord(c):02x}" if ord(c) < 32 else c) for c in text) + "'"


def main_of(root: Element, trees: Dict[str, Element], word: Optional[str]) -> str:
    """The ID of the main tree. Raises where there is none."""
    attribute = root.attribute("main_tree_to_execute")
    said = "the file has " + (listed(f"'{name}'" for name in trees) if trees else "no tree")
    if word is None and attribute is None and len(trees) != 1:
        raise Finding("NoMain", root.span(), f"no main tree is named, and {said}",
                      ['write main_tree_to_execute=".." in the root, or --main ID after the files'] if trees
                      else ['write <BehaviorTree ID="Main"> with a node in the root'])
    if word is None and attribute is None:
        return next(iter(trees))
    main = word if word is not None else attribute.value.text()
    if main not in trees:
        where = root.span() if word is not None or attribute is None else attribute.span()
        by = "after --main" if word is not None else "as main_tree_to_execute"
        raise Finding(f"NoTree {quoted(main)}", where, f"the tree '{main}', which is named {by}, is not in the file",
                      meant(main, trees) + [said])
    return main


def read_file(source: Source, word: Optional[str]) -> TreeFile:
    """What a tree file defines. Raises the first fault, of those that come before its nodes."""
    root = read_marks(source)
    models = models_of(root)
    trees = trees_of(root)
    main = main_of(root, trees, word)
    version = 4 if root.said("BTCPP_format") == "4" else 3
    return TreeFile(source, root, models, trees, version, main)
