"""How an action that lasts goes on: what it does when it starts, at each cycle, and when it is halted."""

import asyncio
import inspect
import threading
from typing import Any, Coroutine, Generator, List, Type, Union

from .leaves import RUNNING, BadLeaf, Function, Leaf, Status, end_of, status_of


class Steps:
    """A generator: each step goes to its next `yield`, and it is closed where it is halted."""

    def __init__(self, generator: "Generator[Any, None, Any]"):
        self.generator = generator

    def go_on(self) -> Status:
        """The next step, or how it has ended."""
        try:
            said = next(self.generator)
        except StopIteration as end:
            return end_of(end.value)
        if said not in (None, RUNNING):
            raise BadLeaf(f"it has yielded {said!r}: a generator yields nothing, and returns how it has ended")
        return RUNNING

    def stop(self) -> None:
        """Closes it, which raises GeneratorExit at its `yield`."""
        self.generator.close()


class Task:
    """A coroutine, which is a task of the loop that runs, and is cancelled where it is halted."""

    def __init__(self, coroutine: "Coroutine[Any, Any, Any]"):
        try:
            self.task = asyncio.get_running_loop().create_task(coroutine)
        except RuntimeError:
            coroutine.close()
            raise BadLeaf("a coroutine runs within a loop of asyncio: use run_async") from None

    def go_on(self) -> Status:
        """Whether it runs, or how it has ended."""
        return end_of(self.task.result()) if self.task.done() else RUNNING

    def stop(self) -> None:
        """Cancels it, which raises CancelledError at its `await`."""
        self.task.cancel()


class Called:
    """A function: it has ended when it is back, or goes on as the generator or the coroutine that it has made."""

    def __init__(self, leaf: Leaf, function: Any):
        self.leaf, self.function = leaf, Function(function)
        self.rest: Union[Steps, Task, None] = None

    def start(self) -> Status:
        """Begins it, and answers whether it goes on."""
        answer = self.function(self.leaf)
        self.rest = Steps(answer) if inspect.isgenerator(answer) else Task(answer) if inspect.iscoroutine(answer) else None
        return end_of(answer) if self.rest is None else self.rest.go_on()

    def go_on(self) -> Status:
        """Goes on with one that is RUNNING, and answers whether it still does."""
        assert self.rest is not None
        return self.rest.go_on()

    def stop(self) -> None:
        """Stops one that is RUNNING, or that has raised."""
        if self.rest is not None:
            self.rest.stop()


class Methods:
    """An object with the methods `on_start`, `on_running` and `on_halted`."""

    def __init__(self, leaf: Leaf, made: Any):
        self.leaf = leaf
        self.on_start, self.on_running, self.on_halted = map(Function, (made.on_start, made.on_running, made.on_halted))

    def start(self) -> Status:
        """As that of a function."""
        return status_of(self.on_start(self.leaf), RUNNING)

    def go_on(self) -> Status:
        """As that of a function."""
        return status_of(self.on_running(self.leaf), RUNNING)

    def stop(self) -> None:
        """As that of a function."""
        self.on_halted(self.leaf)


class Thread:
    """A function in a thread of its own, which looks whether it was halted. A halt waits for its end."""

    def __init__(self, leaf: Leaf, function: Any):
        self.leaf, self.function = leaf, Function(function)

    def start(self) -> Status:
        """As that of a function."""
        self.leaf.halted.clear()
        self.answers: List[Any] = []
        self.errors: List[BaseException] = []
        self.thread = threading.Thread(target=self.run, name=self.leaf.path, daemon=True)
        self.thread.start()
        return RUNNING

    def run(self) -> None:
        """What the thread does. What it raises is raised again where the action is asked."""
        try:
            self.answers.append(self.function(self.leaf))
        except BaseException as error:
            self.errors.append(error)

    def go_on(self) -> Status:
        """As that of a function."""
        if self.thread.is_alive():
            return RUNNING
        self.thread.join()
        if self.errors:
            raise self.errors[0]
        return end_of(self.answers[0])

    def stop(self) -> None:
        """As that of a function."""
        self.leaf.halted.set()
        self.thread.join()


Work = Union[Called, Methods, Thread]


def form_of(function: Any, in_thread: bool) -> "Type[Work]":
    """How what is registered for an action is run."""
    if in_thread:
        return Thread
    if inspect.isclass(function):
        missing = [name for name in ("on_start", "on_running", "on_halted") if not callable(getattr(function, name, None))]
        if missing:
            raise BadLeaf(f"{function.__name__} has no method {missing[0]}")
        return Methods
    if not callable(function):
        raise BadLeaf(f"{function!r} is no function, and no class")
    return Called
