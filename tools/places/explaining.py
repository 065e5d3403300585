"""What the program's exit and output mean for the files of its words."""

import os
from dataclasses import dataclass, field
from typing import Dict, List, Optional

from . import grounds
from .expects import read_expects, unmet_lines
from .faults import cause_said, explained, quenched
from .marks import Finding
from .mocks import mocked, rule_warnings
from .near import Effort, meant, near
from .opening import open_file, opened
from .plans import Planned, planned
from .report import Note, Place, Report, warning_lines
from .rows import lacking
from .rules import Configuration, Rules, read_rules
from .slots import check_sizes
from .source import MISSING, MOST_BYTES, Source, beside, read, why_unreadable
from .table import CAUSES, EXPECT, GROUND, RULES, TREE, WORLD
from .tellings import untold
from .traces import MOST_OUTPUT, Faulted, faulted
from .trees import TreeFile, read_file
from .words import Command, command_of, usage, wrong
from .worlds import World, read_world


# words for `--help` that the program takes for the name of a file
HELP = ("-h", "-help", "--h", "-?")


def explanation(status: int, output: bytes, words: List[str]) -> List[str]:
    """The lines that explain an exit, none where nothing sure can be said. The output of a run may be its end alone."""
    Effort.begin()
    if status == 2:
        problem = wrong(words)
        return [] if problem is None else [f"bt: {problem}", *usage()]
    command = command_of(words)
    text = output.decode("utf-8", "replace")
    if command is None:
        return []
    if status == 3:
        return of_tree(command, refused(text, "refused tree "))
    if status == 4 and text.startswith("refused ground "):
        return of_ground(command, refused(text, "refused ground "))
    if status == 4:
        return of_world(command, refused(text, "refused world "))
    if status == 7:
        return of_read(command, refused(text, "refused read "))
    if status == 12:
        return of_expect(command, refused(text, "refused expect "))
    if status == 13:
        return of_unmet(command, text)
    if status == 10:
        return of_rules(command, refused(text, "refused rules "))
    if status in (5, 6) and command.name in ("plan", "gplan"):
        return of_plan(command, text)
    return of_fault(command, text, len(output) < MOST_OUTPUT) if status == 5 else []


def refused(text: str, front: str) -> str:
    """The words of a refusal, after their beginning; nothing where the output is another."""
    whole = text.startswith(front) and text.endswith("\n") and text.count("\n") == 1
    return text[len(front):-1] if whole else ""


def told(source: Source, finding: Finding) -> List[str]:
    """The lines for a fault that was found in a file."""
    notes = [Note(message, Place(source, *span)) for message, span in finding.notes]
    return Report("error", finding.message, Place(source, *finding.span), finding.inside, finding.helps, notes).lines()


def too_long(name: str, source: Source) -> List[str]:
    """The lines for a file that is too long."""
    return [f"{name}: error: the file has {os.path.getsize(name)} bytes, and a file has at most {MOST_BYTES}"]


def of_read(command: Command, what: str) -> List[str]:
    """The lines for a file that could not be read."""
    name = {"tree": command.tree, "world": command.world, "rules": command.rules, "expect": command.expect}.get(what)
    why = None if name is None else why_unreadable(name)
    if name is None or why is None:
        return []
    helps = meant(os.path.basename(name), beside(name)) if why == MISSING else []
    if name.startswith("-"):
        is_print = command.name == "mock" and "--print" in [name, *near(name, ["--print"])]
        where = "--print comes before the files" if is_print else "options come after the files"
        helps = [f"the word {name} stands where the file's name is expected: {where}"]
        helps += [f"`bt {command.name.split()[0]} --help` tells the words of it"] if name in HELP else []
    what = "file of expectations" if what == "expect" else f"{what} file"
    return [f"{name or repr(name)}: error: the {what} can't be read: {why}"] + ["  help: " + text for text in helps]


def of_tree(command: Command, words: str) -> List[str]:
    """The lines for a tree file that was refused."""
    source = read(command.tree or "")
    if source is None or words.split(" ")[0] not in TREE:
        return []
    if words == "TooLong":
        return too_long(source.name, source) if len(source.data) > MOST_BYTES else []
    try:
        file = read_file(source, command.main)
        open_file(file)
    except Finding as finding:
        return told(source, finding) if finding.words == words else []
    has_leaf = any(node.kind == "Leaf" and words == f"NoLeaf '{node.id}'" for node in file.nodes)
    return [f"{source.name}: error: {TREE['NoLeaf'].wrong} ({words}): {TREE['NoLeaf'].right}"] if words.startswith("NoLeaf ") and not has_leaf else []


def of_world(command: Command, words: str) -> List[str]:
    """The lines for a world script that was refused."""
    source = read(command.world or "")
    kind = words.split(" ")[0]
    if source is None or kind not in WORLD:
        return []
    if words == "TooLong":
        return too_long(source.name, source) if len(source.data) > MOST_BYTES else []
    try:
        world = grounds.read_ground(source) if command.name == "gplan" else read_world(source)
    except Finding as finding:
        return told(source, finding) if finding.words == words else []
    except grounds.Ground:
        return []
    if kind == "NoDriver" or kind == "NoGoal" and not world.goals:
        return [f"{source.name}: error: {WORLD[kind].wrong} ({words}): {WORLD[kind].right}"]
    run = run_of(command) if kind in ("NoRow", "NoLeaf", "NoOutput") else None
    if run is None:
        return []
    return (lacking if kind == "NoRow" else untold)(run.file, run.world, words) + rule_lines(run)


def of_ground(command: Command, words: str) -> List[str]:
    """The lines for a ground file that was refused."""
    source = read(command.world or "")
    if source is None or len(source.data) > MOST_BYTES:
        return []
    try:
        grounds.read_ground(source)
    except grounds.Ground as fault:
        return told_of_ground(source, fault) if fault.words == words else []
    return []


def told_of_ground(source: Source, fault: grounds.Ground) -> List[str]:
    """The lines for a fault that was found in a ground file."""
    kind = GROUND[fault.words.split(" ")[0]]
    message = f"{fault.message or kind.wrong} ({fault.words})"
    if not fault.line:
        return [f"{source.name}: error: {message}: {kind.right}"]
    notes = [Note(message, Place(source, *source.span_of_line(line))) for message, line in fault.notes]
    place = Place(source, *source.span_of_line(fault.line))
    return Report("error", message, place, "", fault.helps or [kind.right], notes).lines()


def of_rules(command: Command, words: str) -> List[str]:
    """The lines for mock rules that were refused, or for the tree that they make."""
    source = read(command.rules or "")
    kind = words.split(" ")[0]
    if source is None or kind not in RULES:
        return []
    if words == "TooLong":
        return too_long(source.name, source) if len(source.data) > MOST_BYTES else []
    try:
        rules = read_rules(source)
    except Finding as finding:
        return told(source, finding) if finding.words == words else []
    if kind in ("Json", "Form", "BadScript"):
        return []
    return [f"{source.name}: error: {RULES[kind].wrong} ({words}): {RULES[kind].right}"] + of_made(command, rules, words)


def of_expect(command: Command, words: str) -> List[str]:
    """The lines for a file of expectations that was refused."""
    source = read(command.expect or "")
    kind = words.split(" ")[0]
    if source is None or kind not in EXPECT:
        return []
    if kind == "TooLong":
        return too_long(source.name, source) if len(source.data) > MOST_BYTES else []
    run = run_of(command)
    if run is None:
        return []
    try:
        read_expects(source, run.file, run.world)
    except Finding as finding:
        return told(source, finding) if finding.words == words else []
    return []


def of_unmet(command: Command, text: str) -> List[str]:
    """The lines of a file of expectations that the run did not meet."""
    source = read(command.expect or "")
    return [] if source is None else unmet_lines(source, text)


def of_made(command: Command, rules: Rules, words: str) -> List[str]:
    """Where the tree that the rules make has too many keys or too much work, as for a tree file."""
    file = opened(command.tree, command.main)
    try:
        if file is not None:
            check_sizes(mocked(file, rules).file)
    except Finding as finding:
        return told(file.source, finding) if finding.words == words else []
    return []


def of_fault(command: Command, text: str, is_whole: bool) -> List[str]:
    """The lines for a run of a tree file that ended in a fault, by its trace or the end of that."""
    ended = faulted(text, is_whole)
    run = run_of(command)
    if ended is None or run is None:
        return []
    report = of_configuration(run, ended) or explained(run.file, run.world, ended)
    return [] if report is None else report.lines() + rule_lines(run)


def of_plan(command: Command, text: str) -> List[str]:
    """The lines for a plan that was not found, or that ended in a fault."""
    ended, source = planned(text), read(command.world or "")
    if ended is None or source is None:
        return []
    try:
        goals = Planned(source, command.name == "gplan")
    except (Finding, grounds.Ground):
        return []
    return [line for report in goals.reports(ended) for line in report.lines()]


@dataclass
class Run:
    """What a command runs: a tree, or the one that mock rules make of it, over a world."""

    file: TreeFile
    world: World
    before: Optional[TreeFile] = None
    rules: Optional[Rules] = None
    configured: Dict[int, Configuration] = field(default_factory=dict)


def run_of(command: Command) -> Optional[Run]:
    """What a command runs, or none where a file is not as the program has read it."""
    file, source = opened(command.tree, command.main), read(command.world or "")
    if file is None or source is None:
        return None
    try:
        world = read_world(source)
        if command.rules is None:
            return Run(file, world)
        rules = read_rules(read(command.rules) or Source("", b""))
    except Finding:
        return None
    made = mocked(file, rules)
    return Run(made.file, world, file, rules, made.configured)


def rule_lines(run: Run) -> List[str]:
    """The lines for rules that do nothing, none where there are no rules."""
    if run.rules is None or run.before is None:
        return []
    return warning_lines(rule_warnings(run.before, run.rules))


def of_configuration(run: Run, ended: Faulted) -> Optional[Report]:
    """What is to say of a fault in the script of a configuration."""
    configuration = run.configured.get(ended.uid)
    script = configuration.members.get("post_script") if configuration is not None else None
    if configuration is None or script is None or run.rules is None or ended.cause[0] not in CAUSES:
        return None
    node = run.file.nodes[ended.uid - 1]
    message = f"post_script of {configuration.name.value} faulted at {ended.moment} ms: {cause_said(run.file, node, ended)}"
    return Report("error", message, Place(run.rules.source, *script.value.span(run.rules.source)), "", [CAUSES[ended.cause[0]].right,
                  f"it was in the event `{ended.header}`, of runner {ended.runner}; {quenched(run.file, ended)}"],
                  [Note("the node that it replaces", Place(run.file.source, *node.element.span()))])
