"""The tree that mock rules make of a tree, and rules and members that do nothing: warnings."""

import itertools
import re
from dataclasses import dataclass, field
from typing import Dict, Iterator, List, Optional, Set

from .built_ins import GUARDS
from .marks import Attribute, Element, StandIn, Value
from .near import listed, meant, near, said
from .report import MOST_FOUND, Place, Report
from .rules import Configuration, Rule, Rules
from .trees import Node, TreeFile

ALWAYS = ("AlwaysSuccess", "AlwaysFailure")

UID = re.compile(r"::[0-9]+")


@dataclass
class Mocked:
    """A tree that rules made: the file with its nodes, the configuration of each leaf that answers by one, which nodes of the
    tree before each rule replaced, and the uids of the nodes that rules put in, and of those above one."""

    file: TreeFile
    configured: Dict[int, Configuration] = field(default_factory=dict)
    replaced: Dict[str, List[Node]] = field(default_factory=dict)
    changed: Set[int] = field(default_factory=set)


def path_of(node: Node) -> str:
    """The names of the SubTree nodes above a node, and its own."""
    return "/".join(around.name() for around in [*node.chain(), node])


def is_match(pattern: str, path: str) -> bool:
    """Whether a pattern matches a path: each star stands for any text. Each part is taken where it comes first."""
    first, *parts = pattern.split("*")
    if not parts:
        return pattern == path
    at = len(first)
    for part in parts[:-1]:
        found = path.find(part, at)
        if found < 0:
            return False
        at = found + len(part)
    return path.startswith(first) and path.endswith(parts[-1]) and len(path) - len(parts[-1]) >= at


def rule_of(rules: Rules, node: Node) -> Optional[Rule]:
    """The rule of a node: the first whose pattern matches its path."""
    path = path_of(node)
    return next((rule for rule in rules.rules if is_match(rule.pattern.value, path)), None)


class Making:
    """Makes the tree of the rules, node by node."""

    def __init__(self, file: TreeFile, rules: Rules):
        self.rules = rules
        self.made = Mocked(TreeFile(file.source, file.root, file.models, file.trees, file.version, file.main))
        self.copy(file.nodes[0], None, 1)

    def add(self, kind: str, id_: str, element: Element, depth: int, place: Node, inside: Optional[Node]) -> Node:
        """Adds a node."""
        nodes = self.made.file.nodes
        nodes.append(Node(len(nodes) + 1, kind, id_, element, depth, inside, place.tree))
        return nodes[-1]

    def copy(self, node: Node, inside: Optional[Node], depth: int) -> Node:
        """A node with all below it, as the rules make them."""
        rule = None if node.children else rule_of(self.rules, node)
        if rule is not None:
            self.made.replaced.setdefault(rule.pattern.value, []).append(node)
            made = self.replace(node, rule, inside, depth)
            self.made.changed.add(made.uid)
            return made
        made = self.add(node.kind, node.id, node.element, depth, node, inside)
        around = made if node.kind == "SubTree" else inside
        made.children = [self.copy(child, around, depth + 1) for child in node.children]
        if any(child.uid in self.made.changed for child in made.children):
            self.made.changed.add(made.uid)
        return made

    def replace(self, node: Node, rule: Rule, inside: Optional[Node], depth: int) -> Node:
        """What a rule makes of a node."""
        named = rule.named.value
        configuration = self.rules.configurations.get(named)
        if configuration is None:
            ports = [] if named in ALWAYS else node.ports() + self.made.file.defaults(node)
            kind = named if named in ALWAYS else "Leaf"
            return self.add(kind, named, stand_in(node, named, ports), depth, node, inside)
        delay = attribute_of(node, "delay_msec", str(configuration.get("async_delay", 0)))
        made = self.add("Delay", "Delay", stand_in(node, "Delay", [delay]), depth, node, inside)
        answer = "AlwaysSuccess" if configuration.get("return_status", "") == "SUCCESS" else "AlwaysFailure"
        script = configuration.get("post_script", None)
        scripts = [] if script is None else [attribute_of(node, "_post", script)]
        below = Element(answer, node.element.at, node.element.end, scripts)
        made.children = [self.add(answer, answer, StandIn(**vars(below), shown=node.element.span()), depth + 1, node, inside)]
        self.made.configured[made.children[0].uid] = configuration
        return made


def attribute_of(node: Node, name: str, text: str) -> Attribute:
    """An attribute that stands in no file, at the place of a node."""
    spelled = text.replace("&", "&amp;").replace("<", "&lt;").replace('"', "&quot;").encode("utf-8", "surrogateescape")
    return Attribute(name, node.element.at, Value(spelled, node.element.at), node.element.at)


def stand_in(node: Node, name: str, ports: List[Attribute]) -> StandIn:
    """The element of a node that takes the place of another one: it keeps the name and the guards of that."""
    guards = [attribute for attribute in node.element.attributes if attribute.name in GUARDS]
    own = [attribute_of(node, "name", node.name())]
    return StandIn(name, node.element.at, node.element.end, own + ports + guards, shown=node.element.span())


def mocked(file: TreeFile, rules: Rules) -> Mocked:
    """The tree that the rules make."""
    return Making(file, rules).made


def rule_warnings(file: TreeFile, rules: Rules) -> List[Report]:
    """What of the rules does nothing, in the order of their file."""
    found = itertools.chain(idle_warnings(file, rules), named_warnings(rules))
    return sorted(itertools.islice(found, MOST_FOUND), key=lambda report: report.place.start if report.place is not None else 0)


def idle_warnings(file: TreeFile, rules: Rules) -> Iterator[Report]:
    """Rules that replace nothing, or less than in the library, and members that are not read."""
    made = mocked(file, rules)
    for member, helps in rules.unread:
        yield Report("warning", f"the member {member.name.value} is not read", Place(rules.source, *member.name.span(rules.source)), "", helps)
    for rule in rules.rules:
        pattern = rule.pattern.value
        replaced = made.replaced.get(pattern, [])
        place = Place(rules.source, *rule.pattern.span(rules.source))
        if not replaced:
            yield Report("warning", f"the rule '{pattern}' replaces no node", place, "", why_none(file, rules, pattern))
        elif others := [node for node in called(file, pattern) if node not in replaced]:
            yield Report("warning", f"the rule '{pattern}' replaces no node but those of this path", place, "",
                         [f"BehaviorTree.CPP replaces {paths_said(others)} too, by the name or the ID: here that is a rule of its own"])


def called(file: TreeFile, pattern: str) -> List[Node]:
    """The leaves whose name or ID is the pattern, which the library replaces."""
    return [node for node in file.nodes if not node.children and pattern in (node.name(), node.id)]


def paths_said(nodes: List[Node]) -> str:
    """The paths of nodes."""
    return listed(dict.fromkeys(f"'{path_of(node)}'" for node in nodes), 4)


def why_none(file: TreeFile, rules: Rules, pattern: str) -> List[str]:
    """Why a pattern replaces no node, and what may be meant."""
    matched = [node for node in file.nodes if is_match(pattern, path_of(node))]
    leaves = [node for node in matched if not node.children]
    if leaves:
        first = rule_of(rules, leaves[0])
        return [f"{paths_said(leaves)} has the rule '{first.pattern.value if first else ''}' before it, by the bytes of the patterns"]
    if matched:
        return [f"{matched[0].said()} has children, and nodes without children alone are replaced"]
    if called(file, pattern):
        return [f"BehaviorTree.CPP goes by the name and the ID too; here a pattern is a path: {paths_said(called(file, pattern))}"]
    without = UID.sub("", pattern)
    if without != pattern and any(is_match(without, path_of(node)) for node in file.nodes):
        return [f"a path has no uid here: write '{without}'"]
    paths = [path_of(node) for node in file.nodes if not node.children]
    return meant(pattern, paths) or ["the paths are " + listed(dict.fromkeys(f"'{path}'" for path in paths), 8)]


def named_warnings(rules: Rules) -> Iterator[Report]:
    """Configurations that no rule names, and texts of rules that are near to one."""
    named = {rule.named.value for rule in rules.rules}
    idle = [name for name in rules.configurations if name not in named]
    near_idle: Set[str] = set()
    for rule in rules.rules:
        name = rule.named.value
        found = [] if name in rules.configurations or name in ALWAYS else near(name, [*idle, *ALWAYS])
        if found:
            near_idle.update(found)
            yield Report("warning", f"{name} is no configuration: the leaf gets this ID",
                         Place(rules.source, *rule.named.span(rules.source)), "", [f"did you mean {said(found)}?"])
    for name in idle:
        if name not in near_idle:
            yield Report("warning", f"no rule names the configuration {name}",
                         Place(rules.source, *rules.configurations[name].name.span(rules.source)), "", [])
