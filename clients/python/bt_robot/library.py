"""The engine in this process: the library `libbt.so`, of which include/bt.h says what each call does."""

import ctypes
import functools
import os
import pathlib
import weakref
from ctypes import POINTER, Structure, c_int64, c_size_t, c_uint8, c_uint32, c_uint64, c_void_p
from typing import IO, Any, Callable, Dict, Iterator, List, Optional, Sequence, Union

from .engine import REPOSITORY, Engine, EngineLost, Fault, Happened, Refused
from .leaves import IDLE, SUCCESS, Leaf, Status
from .rows import World
from .trees import Node
from .values import Value

OK, FAULT, NO_MEMORY, NO_EVENT = 0, 1, 2, 5
INT, TEXT, KEY = 1, 2, 3
LEAF = 28
STARTED, HALTED, ROOT, QUENCHED = 2, 4, 5, 7
# The statuses by their numbers.
STATUSES = list(Status)
LAST_MOMENT = 2 ** 64 - 1


class ValueTold(Structure):
    """`bt_value`"""

    _fields_ = [("kind", c_uint32), ("length", c_uint32), ("number", c_int64)]


class NoteTold(Structure):
    """`bt_note`"""

    _fields_ = [("uid", c_uint32), ("kind", c_uint8), ("runner", c_uint8), ("before", c_uint8), ("status", c_uint8), ("cause", c_uint32), ("detail", c_uint32)]


# A text in, and a room for a text out, each a pointer and a size.
IN, ROOM = (c_void_p, c_size_t), (c_void_p, c_size_t)
# What each call takes after its session, and answers.
CALLS = {
    "bt_tick": (c_uint32, c_uint32, c_uint64), "bt_halt": (c_uint32, c_uint32, c_uint64), "bt_set": (c_uint32, c_uint32, c_int64, c_uint64),
    "bt_tell": (c_uint32, c_uint32, c_uint32, c_uint32, c_uint64), "bt_output_int": (c_uint32, *IN, c_int64), "bt_output_text": (c_uint32, *IN, *IN),
    "bt_next": (c_uint32, c_uint64), "bt_finish": (c_uint32, c_uint32), "bt_is_usable": (c_uint32,), "bt_runner_count": (c_uint32,),
    "bt_notes": (c_size_t, POINTER(NoteTold), c_size_t), "bt_print": (c_size_t, *ROOM),
    "bt_fact_count": (c_size_t,), "bt_fact_name": (c_size_t, c_uint32, *ROOM),
    "bt_entry_count": (c_size_t,), "bt_entry_scope": (c_uint32, c_uint32), "bt_entry_key": (c_size_t, c_uint32, *ROOM),
    "bt_entry": (ValueTold, c_uint32, c_uint32), "bt_entry_text": (c_size_t, c_uint32, c_uint32, *ROOM),
    "bt_node_count": (c_size_t,), "bt_node_kind": (c_uint32, c_uint32), "bt_node_id": (c_size_t, c_uint32, *ROOM),
    "bt_node_name": (c_size_t, c_uint32, *ROOM), "bt_node_path": (c_size_t, c_uint32, *ROOM),
    "bt_port_count": (c_size_t, c_uint32), "bt_port_name": (c_size_t, c_uint32, c_size_t, *ROOM), "bt_port_given": (ValueTold, c_uint32, c_size_t),
    "bt_port_given_text": (c_size_t, c_uint32, c_size_t, *ROOM), "bt_port": (ValueTold, c_uint32, c_uint32, c_size_t),
    "bt_port_text": (c_size_t, c_uint32, c_uint32, c_size_t, *ROOM), "bt_input": (ValueTold, c_uint32, c_uint32, c_size_t),
    "bt_input_text": (c_size_t, c_uint32, c_uint32, c_size_t, *ROOM),
}
# Beside these, `bt_open` and `bt_explain` take three texts, and what is opened or written.
FILES = (*IN, *IN, *IN)


@functools.lru_cache(None)
def loaded(name: str) -> ctypes.CDLL:
    """The library of a file or of the system."""
    try:
        library = ctypes.CDLL(name)
    except OSError as error:
        raise EngineLost(f"the library can't be loaded: {error}") from error
    library.bt_open.restype, library.bt_open.argtypes = c_uint32, [*FILES, POINTER(c_void_p)]
    library.bt_explain.restype, library.bt_explain.argtypes = c_size_t, [*FILES, *ROOM]
    library.bt_close.restype, library.bt_close.argtypes = None, [c_void_p]
    for call, (answer, *words) in CALLS.items():
        getattr(library, call).restype, getattr(library, call).argtypes = answer, [c_void_p, *words]
    return library


def default_library() -> str:
    """The library that the variable BT_LIBRARY names, else that of the package or the repository around this file, else the
    system's."""
    here = [str(REPOSITORY / place / "libbt.so") for place in ("lib", "out")]
    return os.environ.get("BT_LIBRARY") or next(filter(os.path.isfile, here), "libbt.so")


def said(write: Callable[..., int], *words: Any) -> str:
    """The text that a call writes into a room."""
    size = write(*words, (c_uint8 * 1)(), 0)
    room = (c_uint8 * (size + 1))()
    return bytes(room[:write(*words, room, size)]).decode()


class Library(Engine):
    """A tree that the library runs in this process, where it is asked."""

    def __init__(self, library: Union[bool, str, "os.PathLike[str]"], tree: str, main: Optional[str], world: Optional[Union[str, "os.PathLike[str]"]]):
        self.library = loaded(default_library() if library is True else os.fspath(library))
        try:
            self.tree = pathlib.Path(tree).read_bytes()
        except OSError:
            raise Refused("refused read tree") from None
        self.main = (main or "").encode()
        self.session: Any = None
        self.open(b"" if world is None else pathlib.Path(world).read_bytes())
        self.nodes = [self.node(uid) for uid in range(1, self.call("bt_node_count") + 1)]
        self.record: Optional[IO[str]] = None
        self.trace: Optional[IO[str]] = None
        self.moment = 0
        self.room = (NoteTold * 64)()
        self.unheard: List[Happened] = []

    def call(self, name: str, *words: Any) -> Any:
        """What a call answers for this session."""
        return getattr(self.library, name)(self.session, *words)

    def said(self, name: str, *words: Any) -> str:
        """The text that a call writes for this session."""
        return said(getattr(self.library, name), self.session, *words)

    def open(self, world: bytes) -> None:
        """Opens a session in a world, in place of the one before."""
        files = [word for text in (self.tree, world, self.main) for word in (text, len(text))]
        session = c_void_p()
        code = self.library.bt_open(*files, ctypes.byref(session))
        if code == NO_MEMORY:
            raise MemoryError
        if code != OK:
            raise Refused(said(self.library.bt_explain, *files).strip())
        if self.session is not None:
            self.closing()
        self.session = session
        self.closing = weakref.finalize(self, self.library.bt_close, session)

    def node(self, uid: int) -> Node:
        """A node of the tree."""
        ports = {self.said("bt_port_name", uid, place): self.given(uid, place) for place in range(self.call("bt_port_count", uid))}
        is_leaf = self.call("bt_node_kind", uid) == LEAF
        return Node(uid, self.said("bt_node_id", uid), self.said("bt_node_name", uid), self.said("bt_node_path", uid), is_leaf, ports)

    def given(self, uid: int, place: int) -> str:
        """What a node's port at a place says."""
        value = self.call("bt_port_given", uid, place)
        text = str(value.number) if value.kind == INT else self.said("bt_port_given_text", uid, place)
        return "{" + text + "}" if value.kind == KEY else text

    def told(self, name: str, *words: Any) -> Optional[Value]:
        """The value that a call answers."""
        value = self.call(name, *words)
        return int(value.number) if value.kind == INT else self.said(f"{name}_text", *words) if value.kind == TEXT else None

    def start(self, world: World, record: Optional[IO[str]], trace: Optional[IO[str]]) -> None:
        self.record, self.trace, self.moment = record, trace, world.moment
        if record:
            record.write(world.text)
        self.open(world.text.encode("utf-8", "surrogateescape"))
        self.facts = {self.said("bt_fact_name", fact): fact for fact in range(self.call("bt_fact_count"))}
        slots = [slot for slot in range(self.call("bt_entry_count")) if self.call("bt_entry_scope", slot) == 0]
        self.entries = {self.said("bt_entry_key", slot): slot for slot in slots}
        while True:
            code = self.call("bt_next", LAST_MOMENT)
            if code == NO_EVENT:
                return
            self.made(code)

    def keep(self, line: str) -> None:
        """Writes a line of the session."""
        if self.record:
            self.record.write(f"{line}\n")
            self.record.flush()

    def at(self, moment: int) -> None:
        self.moment = moment
        self.keep(f"at {moment}")

    def tick(self) -> None:
        self.keep("tick 1")
        self.made(self.call("bt_tick", 1, self.moment))

    def halt(self) -> None:
        self.keep("halt 1")
        self.made(self.call("bt_halt", 1, self.moment))

    def set(self, fact: str, value: int) -> None:
        if fact not in self.facts:
            raise Refused(f"the world has no fact {fact}")
        self.keep(f"set {fact} {value}")
        self.made(self.call("bt_set", self.facts[fact], value, self.moment))

    def tell(self, leaf: Leaf, status: Status) -> None:
        self.keep(leaf.telling(status))
        for port, value in leaf.outputs.items() if status is SUCCESS else ():
            self.taken(self.output(port.encode(), value))
        self.made(self.call("bt_tell", 1, leaf.uid, STATUSES.index(status), self.moment))

    def output(self, port: bytes, value: Value) -> int:
        """Gives an output for the telling that follows."""
        if isinstance(value, int):
            return int(self.call("bt_output_int", port, len(port), value))
        text = value.encode()
        return int(self.call("bt_output_text", port, len(port), text, len(text)))

    @staticmethod
    def taken(code: int) -> None:
        """Raises what it means that a call was not taken."""
        if code == NO_MEMORY:
            raise MemoryError
        if code != OK:
            raise Refused("the engine takes no such call")

    def made(self, code: int) -> None:
        """What an event has answered: it is heard, and raised where the run has ended."""
        if code != FAULT:
            self.taken(code)
        self.hear()
        if code == FAULT:
            raise Fault(next(line for line in self.said("bt_print").splitlines() if line.startswith("fault ")))

    def hear(self) -> None:
        """Keeps what the last event has done."""
        if self.trace:
            self.trace.write(self.said("bt_print"))
        count = self.call("bt_notes", self.room, len(self.room))
        if count > len(self.room):
            self.room = (NoteTold * count)()
            self.call("bt_notes", self.room, count)
        self.unheard += happened(self.room[:count])

    def happened(self) -> List[Happened]:
        unheard, self.unheard = self.unheard, []
        return unheard

    def inputs(self, leaf: Leaf) -> Dict[str, Optional[Value]]:
        return {port: self.told("bt_input", 1, leaf.uid, place) for place, port in enumerate(leaf.row.inputs)}

    def value(self, node: Node, port: str) -> Optional[Value]:
        places = list(node.ports)
        return self.told("bt_port", 1, node.uid, places.index(port)) if port in places else None

    def entry(self, key: str) -> Optional[Value]:
        return self.told("bt_entry", 1, self.entries[key]) if key in self.entries else None

    def finish(self) -> List[int]:
        for runner in range(1, self.call("bt_runner_count") + 1):
            if self.call("bt_is_usable") and self.call("bt_finish", runner) == OK:
                self.hear()
        return [it.uid for it in self.happened() if it.what == "halted"]


def happened(notes: Sequence[NoteTold]) -> Iterator[Happened]:
    """What notes say that concerns the robot."""
    for note in notes:
        if note.kind == STARTED:
            yield Happened("started", note.uid, STATUSES[note.status])
        elif note.kind in (HALTED, QUENCHED):
            yield Happened("halted", note.uid)
        elif note.kind == ROOT:
            yield Happened("root", 1, STATUSES[note.status] if note.status < len(STATUSES) else IDLE)
