"""The conditions and the actions of a robot, and what is to be told of them."""

import contextlib
from typing import Any, Iterator, Optional

from .leaves import FAILURE, RUNNING, Function, Leaf, NoEntry, Status, status_of
from .works import Work


class LeafError(Exception):
    """A leaf has raised an exception, which is its cause. Everything is stopped."""

    def __init__(self, leaf: Leaf, error: BaseException):
        super().__init__(f"{leaf.path} (node {leaf.uid}): {type(error).__name__}: {error}")
        self.path, self.uid = leaf.path, leaf.uid


@contextlib.contextmanager
def blamed(leaf: Leaf) -> Iterator[None]:
    """Raises what is raised here as this leaf's."""
    try:
        yield
    except Exception as error:
        raise LeafError(leaf, error) from error


class Condition:
    """A condition, and what the engine was told of it last."""

    def __init__(self, leaf: Leaf, function: Any):
        self.leaf, self.function = leaf, Function(function)
        self.told = FAILURE

    def news(self) -> Optional[Status]:
        """Its answer, where it is another one than was told before."""
        with blamed(self.leaf):
            try:
                answer = status_of(self.function(self.leaf))
            except NoEntry:
                answer = FAILURE
        if answer is self.told:
            return None
        self.told = answer
        return answer


class Action:
    """An action, and whether it runs."""

    def __init__(self, leaf: Leaf, work: Work):
        self.leaf, self.work = leaf, work
        self.is_running = False

    def start(self) -> Optional[Status]:
        """Begins it. How it has ended, where it has at once."""
        self.leaf.outputs.clear()
        self.is_running = True
        with blamed(self.leaf):
            return self.ended(self.work.start())

    def go_on(self) -> Optional[Status]:
        """Goes on with it where it runs. How it has ended, where it has."""
        with blamed(self.leaf):
            return self.ended(self.work.go_on()) if self.is_running else None

    def ended(self, status: Status) -> Optional[Status]:
        """How it has ended by an answer, where it has."""
        if status is RUNNING:
            return None
        self.is_running = False
        return status

    def stop(self) -> None:
        """Stops it where it runs."""
        if self.is_running:
            self.is_running = False
            with blamed(self.leaf):
                self.work.stop()
