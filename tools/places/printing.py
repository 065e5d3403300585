"""An opened tree as a tree file, in the form in which `bt check` prints it, and `bt mock --print` one that rules make."""

from typing import AbstractSet, Dict, Iterator, List, Optional, Tuple

from .built_ins import GUARDS, KEPT, NODES, WITH_CODE, is_identifier
from .marks import Finding
from .mocks import mocked, path_of
from .opening import opened
from .rules import read_rules
from .source import read
from .trees import Node, TreeFile, is_remapped
from .values import is_key, key_of

INDENT = "    "

SPELLED = {"&": "&amp;", "<": "&lt;", '"': "&quot;", **{chr(sign): f"&#{sign};" for sign in range(1, 32)}}


def spelled(text: str) -> str:
    """A text as a value in quotes."""
    return '"' + "".join(SPELLED.get(sign, sign) for sign in text) + '"'


def port_value(name: str, text: str) -> str:
    """What a port says, where a key has its own name."""
    return "{" + key_of(name, text) + "}" if is_key(text) else text


def defaults(file: TreeFile, node: Node) -> List[Tuple[str, str]]:
    """The ports that a node does not write and that have a default, each with it."""
    written = [port.name for port in node.ports()]
    if node.kind not in NODES:
        return [(default.name, default.value.text()) for default in file.defaults(node)]
    return [(port.name, port.default) for port in NODES[node.kind].ports if port.default is not None and port.name not in written]


def attributes(file: TreeFile, node: Node, id_: str) -> Iterator[Tuple[str, str]]:
    """The attributes of a node's mark, in their order, but for the ID of a leaf."""
    if node.kind == "SubTree":
        yield "ID", id_
    if node.name() != id_:
        yield "name", node.name()
    if node.kind == "SubTree" and is_remapped(node):
        yield "_autoremap", "true"
    for port in node.ports():
        yield port.name, port_value(port.name, port.value.text())
    for name, text in defaults(file, node):
        yield name, port_value(name, text)
    for name in (*(("code",) if node.kind in WITH_CODE else ()), *GUARDS):
        said = node.element.said(name)
        if said is not None:
            yield name, said


def mark(file: TreeFile, node: Node, id_: str) -> Tuple[str, str]:
    """The name of a node's element, and its mark without `<` and what ends it."""
    said = "".join(f" {name}={spelled(text)}" for name, text in attributes(file, node, id_))
    if node.kind == "SubTree":
        return "SubTree", "SubTree" + said
    if node.kind == "Leaf" and (not is_identifier(node.id) or node.id in KEPT or node.id in NODES):
        return "Action", f"Action ID={spelled(node.id)}{said}"
    return node.id, node.id + said


class Printing:
    """Prints the main tree and each tree that is opened once. An opening in which rules replace a node, as `changed` says of the
    uids, has its path in its ID where its tree is opened at another path too."""

    def __init__(self, file: TreeFile, changed: AbstractSet[int]):
        self.file = file
        self.changed = changed
        self.openings = [(node.id, path_of(node)) for node in file.nodes if node.kind == "SubTree"]
        self.bodies: Dict[str, List[str]] = {}

    def body(self, node: Node, indent: str) -> List[str]:
        """The lines of a node and all below it in its tree."""
        id_ = self.opened(node) if node.kind == "SubTree" else node.id
        name, front = mark(self.file, node, id_)
        if node.kind == "SubTree" or not node.children:
            return [f"{indent}<{front}/>"]
        inner = [line for child in node.children for line in self.body(child, indent + "  ")]
        return [f"{indent}<{front}>", *inner, f"{indent}</{name}>"]

    def opened(self, node: Node) -> str:
        """The ID of the tree that a SubTree node opens."""
        id_, path = node.id, path_of(node)
        if node.uid in self.changed and any(other == id_ and where != path for other, where in self.openings):
            id_ += f" ({path})"
        if id_ not in self.bodies:
            self.bodies[id_] = []
            self.bodies[id_] += self.body(node.children[0], INDENT)
        return id_


def printed(file: TreeFile, changed: AbstractSet[int] = frozenset()) -> str:
    """The text of an opened tree, or of one that rules made."""
    printing = Printing(file, changed)
    main = printing.bodies.setdefault(file.main, [])
    main += printing.body(file.nodes[0], INDENT)
    lines = [f'<root BTCPP_format="4" main_tree_to_execute={spelled(file.main)}>']
    for id_, body in printing.bodies.items():
        lines += [f"  <BehaviorTree ID={spelled(id_)}>", *body, "  </BehaviorTree>"]
    return "".join(line + "\n" for line in [*lines, "</root>"])


def mocked_text(tree: str, main: Optional[str], rules: str) -> Optional[str]:
    """The text of the tree that mock rules make of a tree file; none where a file can't be read as the program has read it."""
    file, source = opened(tree, main), read(rules)
    try:
        made = None if file is None or source is None else mocked(file, read_rules(source))
        return None if made is None else printed(made.file, made.changed)
    except Finding:
        return None
