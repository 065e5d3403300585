"""Why a run ended in a fault: the node, the script, port or row, and the cause in words."""

from dataclasses import dataclass
from typing import Iterator, List, Optional, Tuple

from .built_ins import AFTER, BEFORE, NODES, RANGES, WITH_CODE
from .keys import Keys
from .marks import Attribute
from .near import meant
from .report import Note, Place, Report
from .scripts import ScriptFault, Token, statements
from .table import CAUSES
from .traces import CALL, NODE, UNKNOWN, Faulted
from .trees import Node, TreeFile
from .worlds import Row, World

SIGNS = {"ZeroDivisor": ("/", "/="), "NotWhole": ("/", "/="), "TextTooLong": ("+", "+="),
         "Overflow": ("+", "-", "*", "/", "+=", "-=", "*=", "/=")}


@dataclass
class Suspect:
    """A part of a node or of its row that may have faulted, in words before the node's name, and where in it."""

    name: str
    place: Place


def explained(file: TreeFile, world: World, ended: Faulted) -> Optional[Report]:
    """What is to say of the fault, or nothing where the trace is not one of these files."""
    if not 1 <= ended.uid <= len(file.nodes) or ended.cause[0] not in CAUSES:
        return None
    node = file.nodes[ended.uid - 1]
    suspects = list(suspected(file, world, node, ended))
    if not suspects:
        return None
    report = Report("error", "", Place(file.source, *node.element.span()), file.where(node))
    report.message = f"{node.said()} faulted at {ended.moment} ms: {cause_said(file, node, ended)}"
    if len(suspects) == 1:
        report.place = suspects[0].place
        report.message = suspects[0].name + report.message
    report.helps += given(file, world, node, ended) or [CAUSES[ended.cause[0]].right]
    report.notes += [Note(f"it may be {suspect.name}this node", suspect.place) for suspect in suspects[:4] if len(suspects) > 1]
    if len(suspects) == 1 and suspects[0].place.source is world.source:
        report.notes.append(Note("the node", Place(file.source, *node.element.span())))
    report.helps.append(f"it was in the event `{ended.header}`, of runner {ended.runner}; {quenched(file, ended)}")
    return report


def cause_said(file: TreeFile, node: Node, ended: Faulted) -> str:
    """The cause in words."""
    kind, rest = ended.cause[0], ended.cause[1:]
    if kind == "NoEntry" and len(rest) == 2 and rest[0].isdigit():
        scope = int(rest[0])
        owner = f"of SubTree {file.nodes[scope - 1].name()} (node {scope})" if 0 < scope <= len(file.nodes) else "of the main tree"
        return f"the entry {rest[1]} {owner} has no value"
    if kind == "NoInput" and rest:
        return f"its row needs the input {rest[0]}, and there is none"
    if kind == "BadPort" and rest:
        return f"its port {rest[0]} has no number that it takes"
    return CAUSES[kind].wrong


def quenched(file: TreeFile, ended: Faulted) -> str:
    """What was halted."""
    if not ended.quenched:
        return "no leaf was held, so none was halted"
    names = [f"{file.nodes[uid - 1].name()} (node {uid}) of runner {runner}" for runner, uid in ended.quenched
             if uid <= len(file.nodes)]
    return "halted: " + ", ".join(names)


def given(file: TreeFile, world: World, node: Node, ended: Faulted) -> List[str]:
    """What the node says of the port that the cause names, or which entry may be meant by the one without a value."""
    kind, rest = ended.cause[0], ended.cause[1:]
    if kind == "NoEntry" and len(rest) == 2 and rest[0].isdigit():
        return meant(rest[1], Keys(file, world).made_in(int(rest[0]))) + [CAUSES[kind].right]
    if kind not in ("NoInput", "BadPort") or not rest:
        return []
    attribute = node.element.attribute(rest[0])
    if attribute is None:
        return [f"the node does not write {rest[0]}: write it there, or take it out of the row"] if kind == "NoInput" else []
    if kind == "NoInput":
        return [f"the node gives {rest[0]}=\"{attribute.value.text()}\", an entry that has no value by then: write it first"]
    ranges = {port.name: port.range for port in NODES[node.kind].ports} if node.kind in NODES else {}
    takes = "1 to the number of children, or below 0 counted from all of them" if node.kind == "Parallel" \
        else RANGES.get(ranges.get(rest[0], "number"), "a number")
    return [f"write a number to the entry first, or at the port: {rest[0]} takes {takes}"]


def suspected(file: TreeFile, world: World, node: Node, ended: Faulted) -> Iterator[Suspect]:
    """The parts of a node that may have faulted so, by what the trace tells."""
    kind = ended.cause[0]
    if kind == "BadPort":
        attribute = node.element.attribute(ended.cause[-1])
        if attribute is not None:
            yield Suspect("", Place(file.source, *attribute.span()))
        return
    if kind != "NoInput":
        names = possible(node, ended)
        for attribute in node.scripts():
            if attribute.name in names:
                yield from in_script(file, node, attribute, ended)
    row = world.rows.get(node.id) if node.kind == "Leaf" else None
    if row is not None and kind != "NoEntry" and is_before_answer(node, ended):
        yield from in_row(world, row, ended)


def is_before_answer(node: Node, ended: Faulted) -> bool:
    """Whether the leaf has not answered in the visit that faulted."""
    call = CALL.fullmatch(ended.before)
    if call is not None and int(call.group(1)) == node.uid:
        return False
    return not was_halted(node, ended)


def was_halted(node: Node, ended: Faulted) -> bool:
    """Whether the last that the trace tells before the fault is that the node was halted, and a script follows."""
    change = NODE.fullmatch(ended.before)
    return change is not None and change.groups() == (str(node.uid), "RUNNING", "IDLE") \
        and node.element.attribute("_onHalted") is not None


def is_below(node: Node, line: str) -> bool:
    """Whether the line tells of a node below this one."""
    told = CALL.fullmatch(line) or NODE.fullmatch(line)
    return told is not None and node.uid < int(told.group(1)) <= node.last().uid


def may_answer_at_once(node: Node) -> bool:
    """Whether the node may answer and run the scripts behind its answer without a line of the trace before."""
    return node.kind in ("AlwaysSuccess", "AlwaysFailure", "RunOnce") + WITH_CODE \
        or any(node.element.attribute(name) for name in ("_failureIf", "_successIf"))


def possible(node: Node, ended: Faulted) -> Tuple[str, ...]:
    """The scripts that may have run last."""
    if was_halted(node, ended):
        return ("_onHalted",)
    call = CALL.fullmatch(ended.before)
    if call is not None and int(call.group(1)) == node.uid:
        return AFTER.get(call.group(3) or "", ())
    after = ("_onSuccess", "_onFailure", "_post")
    running = ("_while",) if node.kind == "Leaf" else after if is_below(node, ended.before) else ("_while",) + after
    if ended.status == "RUNNING":
        return running
    started = BEFORE + (("code",) if node.kind in WITH_CODE else ()) + (after if may_answer_at_once(node) else ())
    return started + running if ended.status == UNKNOWN else started


def in_script(file: TreeFile, node: Node, attribute: Attribute, ended: Faulted) -> Iterator[Suspect]:
    """A script, where the cause can come of it."""
    kind, value = ended.cause[0], attribute.value
    try:
        parts = statements(value.said())
    except ScriptFault:
        return
    if kind == "NoEntry":
        wanted = [token for part in parts for token in part.looks()
                  if [str(x) for x in file.cell(node.scope(), token.text)] == ended.cause[1:]]
    else:
        wanted = [token for part in parts for token in signs_of(part.sign, part.target, part.tokens, kind)]
    if not wanted and kind != "Mixed":
        return
    whole = Place(file.source, value.at, value.at + len(value.raw))
    first = wanted[0] if wanted and (kind == "NoEntry" or len(wanted) == 1) else None
    place = whole if first is None else Place(file.source, value.place(first.start), value.place(first.end))
    yield Suspect(f"the script {attribute.name} of ", place)


def signs_of(sign: str, target: Optional[Token], part: Tuple[Token, ...], kind: str) -> Iterator[Token]:
    """The signs of a statement at which the cause can come."""
    signs = SIGNS.get(kind, ())
    if target is not None and sign in signs:
        yield target
    yield from (token for token in part if token.is_sign(*signs))


def in_row(world: World, row: Row, ended: Faulted) -> Iterator[Suspect]:
    """The expressions and effects of a leaf's row from which the cause can come."""
    kind = ended.cause[0]
    for expr in row.exprs[:1] if kind == "Range" else row.exprs:
        if kind == "NoInput":
            wanted = [word for word in expr.names() if word.text == ended.cause[-1]]
            if wanted:
                yield Suspect("the row of ", Place(world.source, *wanted[0].span()))
                return
        elif kind in ("Mixed", "Range") or any(token.is_sign(*SIGNS.get(kind, ())) for token in expr.read.tokens):
            if kind == "Mixed" and not any(word.text in row.ports for word in expr.names()):
                continue
            yield Suspect("the row of ", Place(world.source, expr.start, expr.start + len(expr.text)))
    if kind == "Overflow":
        for effect in row.sets.values():
            if effect.sign == "+=":
                yield Suspect("an effect of the row of ", Place(world.source, *effect.fact.span()))
