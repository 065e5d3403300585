"""What runs a tree, and what is raised where it does not: `pipes.py` has the engine as a process, `library.py` in this process."""

import os
import pathlib
from typing import IO, Dict, List, NamedTuple, Optional

from .leaves import Leaf, Status
from .rows import World
from .trees import Node
from .values import Value

REPOSITORY = pathlib.Path(__file__).resolve().parents[3]


class EngineLost(Exception):
    """The engine has ended, or does not answer. The leaves are stopped all the same."""


class Refused(Exception):
    """The engine refuses a file or a line, by this line."""


class Fault(Exception):
    """The run has ended in a fault of a node."""


class Happened(NamedTuple):
    """What an event has done that concerns the robot: `started`, `halted` or `root`, with the node, and with the answer of a start
    or of the root."""

    what: str
    uid: int
    answer: Optional[Status] = None


class Engine:
    """What runs a tree. Its nodes are there from the beginning, and its run begins by `start`."""

    nodes: List[Node]

    def start(self, world: World, record: Optional[IO[str]], trace: Optional[IO[str]]) -> None:
        """Begins the run in a world, with the world's own events. The lines of the session go to the one file, and those of its
        trace to the other."""
        raise NotImplementedError

    def at(self, moment: int) -> None:
        """The moment of what is asked from now on, in milliseconds."""
        raise NotImplementedError

    def tick(self) -> None:
        """Ticks the tree."""
        raise NotImplementedError

    def halt(self) -> None:
        """Halts it."""
        raise NotImplementedError

    def set(self, fact: str, value: int) -> None:
        """Changes a fact."""
        raise NotImplementedError

    def tell(self, leaf: Leaf, status: Status) -> None:
        """Tells that a leaf has ended so, or whether it holds."""
        raise NotImplementedError

    def happened(self) -> List[Happened]:
        """What has happened since this was asked last, in order. Raises where the run has ended."""
        raise NotImplementedError

    def inputs(self, leaf: Leaf) -> Dict[str, Optional[Value]]:
        """What the inputs of a leaf held when it was started last."""
        raise NotImplementedError

    def value(self, node: Node, port: str) -> Optional[Value]:
        """What a port of a node holds now."""
        raise NotImplementedError

    def entry(self, key: str) -> Optional[Value]:
        """An entry of the main tree's blackboard, none where it has no value."""
        raise NotImplementedError

    def finish(self) -> List[int]:
        """Ends the run, and gives the leaves that are to be stopped for that, in order."""
        raise NotImplementedError


def beside(name: str, file: str, otherwise: str) -> str:
    """The file that a variable names, else this one of the repository or package around the client, else another one."""
    here = REPOSITORY / file
    return os.environ.get(name) or (str(here) if here.is_file() else otherwise)
