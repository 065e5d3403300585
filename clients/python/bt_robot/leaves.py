"""What the functions of a robot's leaves are handed, and what they answer."""

import enum
import inspect
import threading
import typing
from typing import Any, Callable, Dict, Optional

from .rows import Row
from .trees import Node, is_key
from .values import Value, is_whole, written

# A text of a value has at most so many bytes.
MOST_TEXT = 4096
TRUTHS = {"true": True, "1": True, "false": False, "0": False}


class Status(enum.Enum):
    """What a node is, or answers."""

    IDLE = "IDLE"
    RUNNING = "RUNNING"
    SUCCESS = "SUCCESS"
    FAILURE = "FAILURE"
    SKIPPED = "SKIPPED"


IDLE, RUNNING, SUCCESS, FAILURE, SKIPPED = Status


class BadLeaf(Exception):
    """What is registered for a leaf is none of the forms, or has answered what it may not."""


class BadValue(Exception):
    """A value that a port can't have, or that is not of the type that is asked for."""


class NoInput(Exception):
    """The node does not give this input."""


class NoEntry(NoInput):
    """The input is a key of the blackboard that has no value yet. A condition that does not catch it fails."""


class Leaf:
    """A leaf of the tree, as its function is handed it."""

    def __init__(self, node: Node, row: Row):
        self.uid, self.id, self.name, self.path = node.uid, node.id, node.name, node.path
        self.node, self.row = node, row
        # The inputs of the call that has started it, and the outputs for the call that ends it.
        self.inputs: Dict[str, Optional[Value]] = {}
        self.outputs: Dict[str, Value] = {}
        self.halted = threading.Event()

    def input(self, port: str, type: Any = None, default: Any = inspect.Parameter.empty) -> Any:
        """The value of an input port, by this type or another function of the value. Raises NoInput or NoEntry where there is
        none and no default, and BadValue where it is not of the type."""
        value = self.inputs.get(port)
        if value is not None:
            return self.converted(port, value, type)
        if default is not inspect.Parameter.empty:
            return default
        if port in self.node.ports:
            raise NoEntry(f"the input {port} has no value yet: {self.node.ports[port]}")
        raise NoInput(f"the node gives no port {port}")

    def converted(self, port: str, value: Value, type: Any) -> Any:
        """A value by a type."""
        try:
            return value if type is None else TRUTHS[str(value)] if type is bool else type(value)
        except (KeyError, TypeError, ValueError) as error:
            raise BadValue(f"the input {port} is {value!r}, and no {getattr(type, '__name__', type)}") from error

    def output(self, port: str, value: Any) -> None:
        """Gives an output, which is written where the action succeeds: a whole number of 64 bits or a text. A truth is 1 or 0,
        and a real number the text that Python writes. It is dropped where the node gives no key at this port."""
        if not isinstance(value, (int, float, str)):
            raise BadValue(f"the output {port} is {value!r}, and no number or text")
        plain = int(value) if isinstance(value, int) else str(value)
        if not is_whole(plain) if isinstance(plain, int) else len(plain.encode()) > MOST_TEXT:
            raise BadValue(f"the output {port} is too large: 64 bits, or {MOST_TEXT} bytes")
        if is_key(self.node.ports.get(port, "")):
            if port not in self.row.outputs:
                raise BadValue(f"{self.id} has no output {port}: its row has {', '.join(self.row.outputs) or 'none'}")
            self.outputs[port] = plain

    def is_halted(self) -> bool:
        """Whether the action was halted, for one in a thread to ask."""
        return self.halted.is_set()

    def telling(self, status: Status) -> str:
        """The event that tells the engine how the leaf has ended, or whether it holds."""
        outputs = self.outputs.items() if status is SUCCESS else ()
        return " ".join([f"tell 1 {self.uid} {status.value}", *(f"{port}={written(value)}" for port, value in outputs)])


class Function:
    """A function of a leaf, as it is called: a parameter `leaf` is the leaf, and any other one the input of its name, by its
    type and with its default."""

    def __init__(self, function: Callable[..., Any]):
        self.function = function
        types = typing.get_type_hints(function)
        found = inspect.signature(function).parameters.values()
        self.parameters = [(it.name, plain_type(types.get(it.name)), it.default) for it in found if it.kind not in (it.VAR_POSITIONAL, it.VAR_KEYWORD)]

    def __call__(self, leaf: Leaf) -> Any:
        return self.function(**{name: leaf if name == "leaf" else leaf.input(name, *said) for name, *said in self.parameters})


def plain_type(said: Any) -> Any:
    """The type that a parameter asks for, none where it is any. `Optional[T]` asks for T."""
    inner = [it for it in getattr(said, "__args__", ()) if it is not type(None)]
    return inner[0] if getattr(said, "__origin__", None) is typing.Union else None if said is Any else said


def status_of(answer: Any, *others: Status) -> Status:
    """The status that a leaf's answer means: a truth, SUCCESS, FAILURE, or one of the others."""
    if isinstance(answer, bool):
        return SUCCESS if answer else FAILURE
    if answer in (SUCCESS, FAILURE, *others):
        return answer
    raise BadLeaf(f"it has answered {answer!r}, and not {', '.join(it.value for it in (SUCCESS, FAILURE, *others))}")


def end_of(answer: Any) -> Status:
    """How an action has ended that ran to its end: one that answers nothing has succeeded."""
    return SUCCESS if answer is None else status_of(answer)
