"""The attributes of a node: its ports, what they say, and its scripts."""

from typing import List, Optional, Tuple

from .built_ins import GUARDS, NODES, RANGES, SAMPLES, WITH_CODE, is_identifier
from .marks import Attribute, Finding
from .near import listed, meant
from .scripts import fault_of
from .trees import Node, TreeFile
from .values import trouble

TRUTHS = ("true", "false", "1", "0")


def check_content(file: TreeFile, node: Node) -> None:
    """Raises the first fault of a node's attributes."""
    check_known(file, node)
    check_old_subtree(file, node)
    check_written(file, node)
    check_absent(file, node)
    if node.kind in WITH_CODE and node.element.attribute("code") is None:
        raise at_node(file, node, f"BadLiteral {node.uid}", f"{node.id} lacks its attribute code",
                      [f'write <{node.id} code=".."/>'])
    check_autoremap(file, node)
    check_scripts(file, node)


def at_node(file: TreeFile, node: Node, words: str, message: str, helps: List[str],
            notes: Optional[List[Tuple[str, Tuple[int, int]]]] = None) -> Finding:
    """A fault at the name of a node's element."""
    return Finding(words, node.element.span(), message, helps, notes, file.where(node))


def at_attribute(file: TreeFile, node: Node, attribute: Attribute, words: str, message: str, helps: List[str]) -> Finding:
    """A fault at an attribute of a node."""
    return Finding(words, attribute.span(), message, helps, inside=file.where(node))


def port_names(file: TreeFile, node: Node) -> Optional[List[str]]:
    """The ports that a node may have, or none where it may have any."""
    if node.kind in NODES:
        return [port.name for port in NODES[node.kind].ports]
    model = file.models.get(node.id) if node.kind == "Leaf" else None
    return None if model is None else list(model.ports)


def check_known(file: TreeFile, node: Node) -> None:
    """Raises where an attribute is a port that the node does not have."""
    names = port_names(file, node)
    known = set(names or ())
    for attribute in node.ports():
        if names is None or attribute.name in known:
            continue
        others = names + list(GUARDS) + (["code"] if node.kind in WITH_CODE else [])
        has = f"its ports: {listed(names)}" if names else "it has no ports"
        notes = []
        if node.kind == "Leaf":
            notes = [(f"the model of {node.id}", file.models[node.id].element.span())]
        raise Finding(f"UnknownPort {node.uid}", attribute.span(), f"{node.said()} has no port {attribute.name}",
                      meant(attribute.name, others) + [has], notes, file.where(node))


def check_old_subtree(file: TreeFile, node: Node) -> None:
    """Raises where a SubTree of version 3 has attributes, which that version reads in another way."""
    if file.version != 3 or node.element.name != "SubTree":
        return
    for attribute in node.element.attributes:
        if attribute.name not in ("ID", "name"):
            raise at_attribute(file, node, attribute, f"OldSubTree {node.uid}",
                               f"in a file of version 3 a SubTree has no attribute {attribute.name} that is read as in version 4",
                               ['write SubTreePlus, or BTCPP_format="4" in the root'])


def check_written(file: TreeFile, node: Node) -> None:
    """Raises where a port that is written says what may not stand there."""
    ranges = {port.name: port.range for port in NODES[node.kind].ports} if node.kind in NODES else {}
    for attribute in node.ports():
        if node.kind == "SubTree" and not is_identifier(attribute.name):
            raise at_attribute(file, node, attribute, f"BadLiteral {node.uid}",
                               f"{attribute.name} is no name of a key", ["a key is an ASCII letter or _, and then letters, digits and _"])
        bad = trouble(ranges.get(attribute.name, "any value"), attribute.name, attribute.value.text())
        if bad is not None:
            raise at_attribute(file, node, attribute, f"BadLiteral {node.uid}",
                               f"{node.said()}: {bad.message}", [bad.help])


def check_absent(file: TreeFile, node: Node) -> None:
    """Raises where a port is missing, or where a model's default may not stand."""
    written = {attribute.name for attribute in node.ports()}
    if node.kind in NODES:
        for port in NODES[node.kind].ports:
            if port.name not in written and port.default is None:
                raise at_node(file, node, f"BadLiteral {node.uid}", f"{node.said()} lacks its port {port.name}",
                              [f'write {port.name}="{SAMPLES[port.range]}": {RANGES[port.range]}, or a key in braces'])
    model = file.models.get(node.id) if node.kind == "Leaf" else None
    for port in model.ports.values() if model is not None else ():
        if port.name in written or port.default is None:
            continue
        bad = trouble("any value", port.name, port.default.value.text())
        if bad is not None:
            raise at_node(file, node, f"BadLiteral {node.uid}", f"{node.said()} takes a default that may not stand: {bad.message}",
                          [bad.help, f"write {port.name} here, or mend its default"],
                          [(f"the default of {port.name}", port.default.span())])


def check_autoremap(file: TreeFile, node: Node) -> None:
    """Raises where a SubTree's `_autoremap` is no truth value."""
    if node.kind != "SubTree":
        return
    old = ("__autoremap",) if node.element.name == "SubTreePlus" and file.version == 3 else ()
    for name in ("_autoremap",) + old:
        attribute = node.element.attribute(name)
        if attribute is not None and attribute.value.text() not in TRUTHS:
            raise at_attribute(file, node, attribute, f"BadLiteral {node.uid}",
                               f"{name} does not take '{attribute.value.text()}'", ["write true, false, 1 or 0"])


def check_scripts(file: TreeFile, node: Node) -> None:
    """Raises the fault of the first script that has one."""
    for attribute in node.scripts():
        fault = fault_of(attribute.value.said())
        if fault is not None:
            start = attribute.value.place(fault.start)
            end = attribute.value.place(fault.end)
            raise Finding(f"BadScript {node.uid} {fault.words()}", (start, max(start, end)),
                          f"{attribute.name} of {node.said()}: {fault.message}", [fault.help], inside=file.where(node))
