"""What the program reads over and a user may have meant: warnings of a tree file that was read."""

import itertools
import re
from typing import Dict, Iterable, Iterator, List, Optional, Set, Tuple

from .built_ins import ABSENT, GUARDS
from .explaining import run_of
from .keys import key_warnings, literal_warnings
from .marks import Attribute, Element, Finding
from .mocks import rule_warnings
from .near import Effort, distance, listed, near, plain
from .opening import opened
from .ports import input_warnings, leaf_warnings, like_warnings, row_warnings, test_warnings
from .report import MOST_FOUND, Place, Report
from .rules import Rules, read_rules
from .source import Unlike, read
from .trees import MODELS, PORTS, Node, TreeFile, is_remapped
from .words import PRINTING, Command
from .worlds import World

# what editors and the library write into files, and the program reads over by design
SILENT = ("_autoremap", "__autoremap", "_description", "_fullpath", "_uid", "_collapsed", "__shared_blackboard")

# the attributes of the root
ROOT = ("BTCPP_format", "main_tree_to_execute")

NUMBER = re.compile(r"\(node [0-9]+\)")


def command_warnings(command: Command) -> List[Report]:
    """The warnings of the files that a command names. Raises where they can't be read as the program has read them."""
    Effort.begin()
    if command.name in ("check", PRINTING):
        file = opened(command.tree, command.main)
        if file is None:
            raise Unlike(command.tree)
        return warnings(file) if command.name == "check" else rule_warnings(file, rules_of(command))
    if command.name not in ("tick", "live", "mock"):
        return []
    run = run_of(command)
    if run is None:
        raise Unlike(command.tree)
    if run.rules is not None and run.before is not None:
        return rule_warnings(run.before, run.rules) + in_order(row_warnings(run.file, run.world))
    return run_warnings(run.file, run.world)


def rules_of(command: Command) -> Rules:
    """The rules of the file that a command names. Raises where they can't be read as the program has read them."""
    source = read(command.rules or "")
    if source is None:
        raise Unlike(command.rules)
    try:
        return read_rules(source)
    except Finding:
        raise Unlike(command.rules) from None


def warnings(file: TreeFile) -> List[Report]:
    """The warnings of a file, in the order of the file."""
    ignored = ignored_ports(file)
    return in_order(root_warnings(file), guard_warnings(file), model_warnings(file), tree_warnings(file), ignored.values(),
                    test_warnings(file), leaf_warnings(file), input_warnings(file), like_warnings(file), literal_warnings(file),
                    key_warnings(file, told=set(ignored)))


def run_warnings(file: TreeFile, world: World) -> List[Report]:
    """The warnings of a tree and the world over which it runs, in the order of the tree."""
    return in_order(row_warnings(file, world), key_warnings(file, world))


def in_order(*parts: Iterable[Report]) -> List[Report]:
    """The first reports of each part in the order of the file, one for each place: a tree that is opened twice has its
    nodes twice."""
    reports = [report for part in parts for report in itertools.islice(part, MOST_FOUND)]
    found = {(at_of(report), NUMBER.sub("", report.message)): report for report in reversed(reports)}
    return sorted(found.values(), key=at_of)


def at_of(report: Report) -> int:
    """Where a report stands."""
    return report.place.start if report.place is not None else 0


def warning(file: TreeFile, span: "tuple[int, int]", message: str, helps: List[str], inside: str = "") -> Report:
    """A warning at a part of the file."""
    return Report("warning", message, Place(file.source, *span), inside, helps)


def first_nodes(file: TreeFile) -> List[Node]:
    """The nodes of the opened tree, each element once."""
    return list({node.element.at: node for node in reversed(file.nodes)}.values())


def root_warnings(file: TreeFile) -> Iterator[Report]:
    """Attributes of the root that are ignored and are near one that is not."""
    for attribute in file.root.attributes:
        meant = misspelled(attribute, ROOT)
        if meant:
            as_old = meant == ["BTCPP_format"] and file.root.said("BTCPP_format") is None
            yield warning(file, attribute.span(), f"the attribute {attribute.name} of the root is ignored",
                          [f"did you mean {' or '.join(meant)}?"]
                          + (["without BTCPP_format the file is read as one of version 3"] if as_old else []))


def guard_warnings(file: TreeFile) -> Iterator[Report]:
    """Attributes that are ignored and are near a guard's name."""
    for node in first_nodes(file):
        names = GUARDS + (("_autoremap",) if node.kind == "SubTree" else ())
        for attribute in node.element.attributes:
            meant = misspelled(attribute, names) if attribute.name.startswith("_") else []
            if not meant and attribute.name == "_autoremap" and node.kind != "SubTree":
                yield warning(file, attribute.span(), "_autoremap is ignored at a node that is no SubTree", [],
                              file.where(node))
            if meant:
                yield warning(file, attribute.span(), f"the attribute {attribute.name} is ignored: it is no guard",
                              [f"did you mean {' or '.join(meant)}?"], file.where(node))


def misspelled(attribute: Attribute, names: "tuple[str, ...]") -> List[str]:
    """The names that are near the attribute's, where it has none of them."""
    if attribute.name in names or attribute.name in SILENT:
        return []
    return [name for name in near(attribute.name, names, 2)
            if distance(plain(attribute.name), plain(name), 3) <= (2 if len(name) > 6 else 1)]


def model_warnings(file: TreeFile) -> Iterator[Report]:
    """Leaves that have no model, in a file that has models."""
    holder = next((child for child in file.root.children if child.name == MODELS), None)
    if holder is None or not any(child.name in ("Action", "Condition") for child in holder.children):
        return
    seen: Set[str] = set()
    for node in first_nodes(file):
        if node.kind == "Leaf" and node.id not in file.models and node.id not in seen and node.id not in ABSENT:
            seen.add(node.id)
            helps = [f"did you mean {' or '.join(near(node.id, file.models))}?"] if near(node.id, file.models) else []
            yield warning(file, node.element.span(), f"the leaf {node.id} has no model in {MODELS}: it may have any port",
                          helps, file.where(node))


def tree_warnings(file: TreeFile) -> Iterator[Report]:
    """Trees of the file that are never opened."""
    used = {file.main} | {node.id for node in file.nodes if node.kind == "SubTree"}
    for name, element in file.trees.items():
        if name not in used:
            attribute = element.attribute("ID")
            yield warning(file, attribute.span() if attribute else element.span(),
                          f"the tree '{name}' is never opened from '{file.main}', and only its ID is looked at",
                          [f"`./names --all {file.source.name}` checks each tree"])


def ignored_ports(file: TreeFile) -> Dict[Tuple[str, str], Report]:
    """Ports in the models of SubTrees, which are ignored, that a SubTree node does not write, by the tree's ID and their name."""
    opened: Dict[str, List[Node]] = {}
    for node in file.nodes:
        if node.kind == "SubTree":
            opened.setdefault(node.id, []).append(node)
    found: Dict[Tuple[str, str], Report] = {}
    for model in subtree_models(file):
        id_ = model.said("ID") or ""
        for port in model.children:
            name = port.said("name")
            lacking = [node for node in opened.get(id_, []) if name is not None and node.element.attribute(name) is None]
            report = ignored_port(file, port, lacking) if port.name in PORTS and name is not None and lacking else None
            if report is not None:
                found[id_, name or ""] = report
    return found


def ignored_port(file: TreeFile, port: Element, lacking: List[Node]) -> Optional[Report]:
    """A port in the model of a SubTree that these nodes do not write, if they may need it."""
    lines = listed(dict.fromkeys(str(file.source.line_of(node.element.at)) for node in lacking))
    name, default = port.said("name"), port.attribute("default")
    if default is not None:
        return warning(file, default.span(), f"the default of {name} is not used: the model of a SubTree is ignored",
                       [f'write {name}="{default.value.text()}" at the SubTree of line {lines}'])
    if port.name == "output_port" or all(map(is_remapped, lacking)):
        return None
    return warning(file, port.span(), f"the port {name} is not asked for: the model of a SubTree is ignored",
                   [f'write {name}=".." at the SubTree of line {lines}'])


def subtree_models(file: TreeFile) -> Iterator[Element]:
    """The models of SubTrees in the file."""
    for holder in file.root.children:
        if holder.name == MODELS:
            yield from (child for child in holder.children if child.name == "SubTree")
