"""Why a plan was not found: the rows that could have served, and why they did not."""

import re
from dataclasses import dataclass, field
from typing import Iterator, List, Optional, Set, Tuple

from .faults import SIGNS
from .grounds import script_of
from .near import listed
from .report import Note, Place, Report
from .source import Source
from .table import CAUSES
from .worlds import Effect, Row, Test, read_world

STEP = re.compile(r"<!-- expand [0-9]+ (\w+) (\w+) raises [0-9]+ -->")

END = re.compile(r"<!-- no plan (\w+) (.+) -->")


@dataclass
class Ended:
    """How planning ended: the conditions and actions of its steps, the kind of its end, and the words behind that."""

    kind: str
    words: List[str]
    steps: List[Tuple[str, str]] = field(default_factory=list)


def planned(text: str) -> Optional[Ended]:
    """How planning ended, by what it printed, if it found no plan."""
    *lines, last, after = ["", *text.split("\n")]
    end = END.fullmatch(last)
    steps = [step.groups() for step in map(STEP.fullmatch, lines[1:]) if step is not None]
    if after or end is None or len(steps) != len(lines) - 1:
        return None
    return Ended(end.group(1), end.group(2).split(" "), [(condition, action) for condition, action in steps])


class Planned:
    """The world in which was planned, and where its lines stand in the file: a ground file has each line for its script's."""

    def __init__(self, source: Source, is_ground: bool):
        self.source = source
        self.lines, script = script_of(source) if is_ground else ([], source)
        self.world = read_world(script)

    def place(self, span: Tuple[int, int]) -> Place:
        """The place in the file of a part of the script."""
        if not self.lines:
            return Place(self.source, *span)
        origin = self.lines[self.world.source.line_of(span[0]) - 1].origin
        return Place(self.source, *self.source.span_of_line(origin))

    def reports(self, ended: Ended) -> Iterator[Report]:
        """What is to say of an end."""
        words = ended.words
        if not all(id_ in self.world.rows for step in ended.steps for id_ in step):
            return
        if ended.kind == "NoTemplate":
            yield from (report for id_ in dict.fromkeys(words) for report in self.no_template(id_, ended))
        elif ended.kind == "NoOrder" and len(words) == 2:
            yield from self.no_order(*words)
        elif ended.kind == "Faulted" and words[-1] in CAUSES:
            yield from self.faulted(words[-1], {action for _, action in ended.steps})
        elif ended.kind in ("Expansions", "StillRunning") and ended.steps:
            yield self.cut_off(ended)

    def effects(self) -> Iterator[Tuple[Row, Effect]]:
        """The effects of all rows."""
        for row in self.world.rows.values():
            for effect in row.sets.values():
                yield row, effect

    def no_template(self, id_: str, ended: Ended) -> Iterator[Report]:
        """A condition that failed: which rows make it true, and why none of them is left. Nothing where one is."""
        row = self.world.rows.get(id_)
        if row is None or row.test is None:
            return
        report = Report("error", f"{id_} failed, and no action that is left makes {row.test.said()} true", self.place(row.id.span()))
        tried = {action for condition, action in ended.steps if condition == id_}
        for other, effect in self.effects():
            if effect.achieves(row.test) and not other.ports and other.id.text not in tried:
                return
            if effect.achieves(row.test):
                why = f"has the input {listed(other.ports)}: a planned action has no inputs" if other.ports else "was tried for it before"
                report.notes.append(Note(f"{other.id.text} sets {effect.said()}, and {why}", self.place(effect.fact.span())))
        if not report.notes:
            report.helps += self.none_makes(row.test)
        yield report

    def none_makes(self, test: Test) -> List[str]:
        """That no row makes a test true, and which ones change its fact."""
        others = [f"{row.id.text} ({effect.said()})" for row, effect in self.effects() if effect.fact.text == test.fact]
        told = [row.id.text for row in self.world.rows.values() if row.is_told()]
        lines = [f"no row makes it true: an action does by a line `sets {test.fact} = VALUE`"]
        lines += [f"what changes {test.fact}: {listed(others, 6)}"] if others else [f"no row changes {test.fact}"]
        return lines + ([f"a told row has no such lines, and serves no plan: {listed(told, 6)}"] if told else [])

    def no_order(self, action: str, condition: str) -> Iterator[Report]:
        """An action that undoes a condition before it."""
        row, undone = self.world.rows.get(action), self.world.rows.get(condition)
        test = undone.test if undone is not None else None
        if row is None or undone is None or test is None:
            return
        for effect in row.sets.values():
            if effect.threatens(test):
                helps = ["write the goals, or the lines `needs`, in another order, or look for two that can't hold together"]
                message = f"{action} may make {condition} false, which has to hold before it ({test.said()}), and no other place is left for it"
                yield Report("error", message, self.place(effect.fact.span()), "", helps,
                             [Note(f"the condition {condition}", self.place(undone.id.span()))])
                return

    def faulted(self, cause: str, actions: Set[str]) -> Iterator[Report]:
        """The parts of the planned actions that may have faulted so."""
        for id_, row in self.world.rows.items():
            for span in faulty_parts(row, cause) if id_ in actions else ():
                yield Report("error", f"the modelled run of the plan ended in a fault, {CAUSES[cause].wrong}, which may be of this part of {id_}",
                             self.place(span), "", [CAUSES[cause].right])

    def cut_off(self, ended: Ended) -> Report:
        """A plan that a limit has cut off."""
        count = ended.words[0]
        if ended.kind == "Expansions":
            repeated = len(set(ended.steps)) < len(ended.steps)
            helps = ["the steps repeat themselves: look for actions that undo each other" if repeated else "allow more with `--expand N`, to 120"]
            return Report("error", f"{count} sequences were added, as many as are allowed, and the tree still failed", helps=helps)
        helps = ["allow more with `--ticks N`, or a longer `--period MS`; or look for an action that never ends, as a gate that nothing opens"]
        return Report("error", f"in {count} ticks, as many as are allowed, the tree never failed and the goals never held together", helps=helps)


def faulty_parts(row: Row, cause: str) -> Iterator[Tuple[int, int]]:
    """The parts of a row from which a cause can come."""
    for expr in row.exprs[:1] if cause == "Range" else row.exprs:
        if cause == "Range" or any(token.is_sign(*SIGNS.get(cause, ())) for token in expr.read.tokens):
            yield expr.start, expr.start + len(expr.text)
    for effect in row.sets.values() if cause == "Overflow" else ():
        if effect.sign == "+=":
            yield effect.fact.span()
