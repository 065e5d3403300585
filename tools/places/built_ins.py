"""The nodes that the program knows by itself, and the names that it keeps. `NODES` is the one table of them beside the
program's own: the tools, the page (viewer/build.py) and the random files of bench/fuzz go by it."""

from dataclasses import dataclass
from typing import Dict, Optional, Tuple

IDENTIFIER_LENGTH = 64


@dataclass(frozen=True)
class Port:
    """A port of a built-in node: which literals it takes, and its default, without which it must be written."""

    name: str
    range: str
    default: Optional[str] = None


@dataclass(frozen=True)
class Node:
    """A built-in node: its class, how many children it takes, its ports, and its sign on the page: a name of viewer/signs.js,
    and the letter that tells it from others with this sign."""

    sort: str
    least: int
    most: Optional[int]
    ports: Tuple[Port, ...] = ()
    sign: str = "decorator"
    letter: str = ""

    def takes(self, count: int) -> bool:
        """Whether it may have so many children."""
        return count >= self.least and (self.most is None or count <= self.most)

    def count_said(self) -> str:
        """How many children it takes, in words."""
        if self.most is None:
            return "one child or more"
        if self.least == self.most:
            return {0: "no children", 1: "one child"}.get(self.least, f"{self.least} children")
        return f"{self.least} or {self.most} children"


RANGES = {"any value": "a value", "number": "a number", "turns": "1 to 1000, or -1 for no limit", "recoveries": "0 to 1000",
          "duration": "0 to 4294967295 milliseconds", "truth": "true, false, 1 or 0",
          "rate": "0.001 to 1000 hertz with at most three digits after the point, and from a key 1 to 1000 and no point"}

SAMPLES = {"any value": "..", "number": "1", "turns": "3", "recoveries": "1", "duration": "500", "truth": "true", "rate": "10"}


def control(sign: str, letter: str = "", least: int = 1, most: Optional[int] = None, ports: Tuple[Port, ...] = ()) -> Node:
    """A node of the class Control."""
    return Node("Control", least, most, ports, sign, letter)


def decorator(*ports: Port) -> Node:
    """A node of the class Decorator."""
    return Node("Decorator", 1, 1, ports)


def switch(cases: int) -> Node:
    """A Switch of so many cases."""
    names = ("variable", *(f"case_{number}" for number in range(1, cases + 1)))
    return control("branch", "", cases + 1, cases + 1, tuple(Port(name, "any value") for name in names))


def lone(sign: str) -> Node:
    """A node without children."""
    return Node("leaf", 0, 0, (), sign)


LEAF = lone("leaf")

NODES: Dict[str, Node] = {
    "Sequence": control("sequence"),
    "SequenceWithMemory": control("sequence", "M"),
    "ReactiveSequence": control("sequence", "R"),
    "Fallback": control("fallback"),
    "ReactiveFallback": control("fallback", "R"),
    "Parallel": control("parallel", ports=(Port("success_count", "number", "-1"), Port("failure_count", "number", "1"))),
    **{f"Switch{cases}": switch(cases) for cases in range(2, 7)},
    "IfThenElse": control("branch", least=2, most=3),
    "WhileDoElse": control("branch", least=2, most=3),
    "RecoveryNode": control("recovery", least=2, most=2, ports=(Port("number_of_retries", "recoveries", "1"),)),
    "PipelineSequence": control("sequence", "P"),
    "RoundRobin": control("rotation"),
    **{name: decorator() for name in ("Inverter", "ForceSuccess", "ForceFailure", "KeepRunningUntilFailure")},
    "RetryUntilSuccessful": decorator(Port("num_attempts", "turns")),
    "Repeat": decorator(Port("num_cycles", "turns")),
    "Timeout": decorator(Port("msec", "duration")),
    "Delay": decorator(Port("delay_msec", "duration")),
    "RunOnce": decorator(Port("then_skip", "truth", "true")),
    "RateController": decorator(Port("hz", "rate", "10")),
    "AlwaysSuccess": lone("constant"),
    "AlwaysFailure": lone("constant"),
    "Script": lone("script"),
    "ScriptCondition": lone("script"),
}

WITH_CODE = ("Script", "ScriptCondition")

# the ports that say how often a node visits its children in one visit
LOOPS = {name: port.name for name, node in NODES.items() for port in node.ports if port.range in ("turns", "recoveries")}

EXPLICIT = ("Action", "Condition", "Control", "Decorator")

KEPT = EXPLICIT + ("SubTree", "BehaviorTree", "TreeNodesModel", "root")

GUARDS = ("_failureIf", "_successIf", "_skipIf", "_while", "_onSuccess", "_onFailure", "_post", "_onHalted")

BEFORE = GUARDS[:4]

AFTER = {"SUCCESS": ("_onSuccess", "_post"), "FAILURE": ("_onFailure", "_post")}

# nodes of BehaviorTree.CPP that have children and are not known here, with what may stand in their place
ABSENT = {
    "AsyncSequence": "Sequence is the nearest: it goes on to the next child in the same tick, where AsyncSequence answers "
                     "RUNNING after a child that succeeds in its first visit, and goes on in the next tick",
    "AsyncFallback": "Fallback is the nearest: it goes on to the next child in the same tick, where AsyncFallback answers "
                     "RUNNING after a child that fails in its first visit, and goes on in the next tick",
    "SequenceStar": "in version 4 it is SequenceWithMemory",
    "SubTreePlus": 'in version 4 it is SubTree, with _autoremap="true" for __autoremap',
    "ParallelAll": "Parallel with success_count and failure_count stops early, and is the nearest",
    "ManualSelector": "it asks a person, which a run from a script can't",
    "Precondition": "write its condition as the guard _failureIf or _skipIf of the child",
    "ConsumeQueue": "there is no queue in this engine",
    "LoopString": "there is no loop over a queue: a Repeat with a Script counts",
    "LoopInt": "there is no loop over a queue: a Repeat with a Script counts",
    "LoopDouble": "there is no loop over a queue: a Repeat with a Script counts",
    "LoopBool": "there is no loop over a queue: a Repeat with a Script counts",
    "SkipUnlessUpdated": "entries have no time of writing here: use a guard over an entry of your own",
    "WaitValueUpdated": "entries have no time of writing here: use a guard over an entry of your own",
    "SpeedController": "write a Fallback of a condition that knows the speed and of its child, or a RateController with one rate",
    "DistanceController": "write a Fallback of a condition that knows how far the robot has moved and of its child",
    "GoalUpdater": "write a ReactiveSequence of an action that writes the goal at a port and of its child, which reads it there",
    "SingleTrigger": 'write done := 0 in a Script, and at its child _failureIf="done == 1" and _post="done = 1"',
    "PathLongerOnApproach": "write a ReactiveFallback of a condition that the path is not longer and of its child",
}


def is_identifier(name: str) -> bool:
    """Whether it is an ASCII letter or _, and then ASCII letters, digits and _."""
    return name.isascii() and name.isidentifier()


def is_row_id(name: str) -> bool:
    """Whether a row of a world script may have this ID."""
    return is_identifier(name) and len(name) <= IDENTIFIER_LENGTH and name not in KEPT and name not in NODES
