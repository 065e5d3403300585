"""A robot: its leaves, and the cycle in which it senses, ticks and acts."""

import asyncio
import contextlib
import inspect
import os
import pathlib
import time
from typing import Any, Callable, Dict, Iterator, List, Optional, Sequence, Set, Type, Union

from .acting import Action, Condition, LeafError
from .engine import Engine
from .leaves import IDLE, RUNNING, BadLeaf, Leaf, Status
from .library import Library
from .pipes import Pipes, default_engine
from .rows import Row, World, made_row, made_world
from .trees import Node
from .values import Value
from .works import Called, Work, form_of

Path = Union[str, "os.PathLike[str]"]


class Unregistered(Exception):
    """A leaf of the tree that the robot is to answer has no function, or one of the other sort."""


class Registered:
    """What is registered for the leaves of an ID."""

    def __init__(self, function: Any, words: Sequence[Any], form: "Type[Work]", inputs: Optional[Sequence[str]],
                 outputs: Optional[Sequence[str]], is_condition: bool):
        self.function, self.words, self.form = function, words, form
        self.inputs, self.outputs, self.is_condition = inputs, outputs, is_condition

    def made(self) -> Any:
        """The function, or an object of the class for one leaf."""
        return self.function(*self.words) if inspect.isclass(self.function) else self.function


class Robot:
    """A robot that a tree drives.

    `world` is a world script with told rows for the leaves that the robot answers, and rows of other sorts for leaves and facts
    that are modelled; without it every leaf is the robot's, and the rows are made. `main` names the main tree. `record` names a
    file for the session as a world script, and `trace` one for its trace. `clock` tells seconds, and `sleep` waits so many.

    The engine is a process, `engine` its command, and it is lost where it says nothing for `patience` seconds. With `library` it
    runs in this process: by True that of the variable BT_LIBRARY, of the package around this file or of the system, else by its
    file."""

    def __init__(self, tree: Path, world: Optional[Path] = None, main: Optional[str] = None, *,
                 engine: Optional[Sequence[str]] = None, library: Union[bool, Path] = False, record: Optional[Path] = None,
                 trace: Optional[Path] = None, clock: Callable[[], float] = time.monotonic,
                 sleep: Callable[[float], Any] = time.sleep, patience: float = 5.0):
        self._tree_file, self._world_file, self._main = os.fspath(tree), world, main
        self._command, self._library = list(engine or default_engine()), library
        self._record, self._trace = record, trace
        self._clock, self._sleep, self._patience = clock, sleep, patience
        self._registered: Dict[str, Registered] = {}
        self._files = contextlib.ExitStack()
        # The last engine, whose entries may be read when its run is over.
        self._engine: Optional[Engine] = None
        self._is_open = False
        self._conditions: List[Condition] = []
        self._actions: Dict[int, Action] = {}
        # The actions that the last event has started, and that are to begin.
        self._started: List[Action] = []
        # What the root has answered last.
        self.status = IDLE

    def condition(self, id_: str, *, inputs: Optional[Sequence[str]] = None) -> Callable[[Any], Any]:
        """Registers a function as the conditions of an ID: it answers True or False, or SUCCESS or FAILURE."""
        return self._registering(id_, lambda function: Registered(function, (), Called, inputs, (), True))

    def action(self, id_: str, *words: Any, inputs: Optional[Sequence[str]] = None, outputs: Optional[Sequence[str]] = None,
               thread: bool = False) -> Callable[[Any], Any]:
        """Registers a function, a generator, a coroutine or a class as the actions of an ID. A class is called with the words
        for each leaf. With `thread` the function runs in a thread of its own."""
        return self._registering(id_, lambda function: Registered(function, words, form_of(function, thread), inputs, outputs, False))

    def _registering(self, id_: str, registered: Callable[[Any], Registered]) -> Callable[[Any], Any]:
        """What registers a function for an ID, and leaves it as it is."""
        def register(function: Any) -> Any:
            if id_ in self._registered:
                raise BadLeaf(f"{id_} is registered already")
            self._registered[id_] = registered(function)
            return function
        return register

    def open(self) -> None:
        """Starts the engine, which the first cycle does by itself."""
        engine = self._made()
        world = self._world(engine.nodes)
        self._conditions, self._actions, self._started = [], {}, []
        for node in engine.nodes:
            if node.is_leaf and node.id in world.rows:
                self._add(Leaf(node, world.rows[node.id]))
        self._first = self._moment = world.moment
        self._started_at = self._clock()
        self._engine, self._is_open = engine, True
        engine.start(world, self._opened(self._record), self._opened(self._trace))
        # What the world's own events have started begins here.
        self._obey(engine)
        self._begin(engine)
        self._obey(engine)

    def _made(self) -> Engine:
        """The engine, which has read the tree."""
        if self._library:
            return Library(self._library, self._tree_file, self._main, self._world_file)
        return Pipes(self._command, self._tree_file, self._main, self._patience)

    def _add(self, leaf: Leaf) -> None:
        """Adds a leaf. Raises Unregistered where it has no function of its sort."""
        registered = self._registered.get(leaf.id)
        if registered is None or registered.is_condition != leaf.row.is_condition:
            sort = "a condition" if leaf.row.is_condition else "an action"
            raise Unregistered(f"{leaf.path} (node {leaf.uid}) is {sort} of the world, and {leaf.id} is not registered as one")
        if registered.is_condition:
            self._conditions.append(Condition(leaf, registered.made()))
        else:
            self._actions[leaf.uid] = Action(leaf, registered.form(leaf, registered.made()))

    def _world(self, nodes: Sequence[Node]) -> World:
        """The world script, or one that is made of what is registered."""
        if self._world_file is not None:
            return World(pathlib.Path(self._world_file).read_text("utf-8", "surrogateescape"))
        nodes = [node for node in nodes if node.is_leaf]
        rows: Dict[str, Row] = {}
        for id_ in dict.fromkeys(node.id for node in nodes):
            if id_ in self._registered:
                it = self._registered[id_]
                rows[id_] = made_row(it.is_condition, it.inputs, it.outputs, (node for node in nodes if node.id == id_))
            else:
                raise Unregistered(f"nothing is registered for {id_} ({', '.join(node.path for node in nodes if node.id == id_)})")
        return made_world(rows)

    def _opened(self, name: Optional[Path]) -> Any:
        """A file that is written while the robot runs."""
        return None if name is None else self._files.enter_context(open(name, "w", encoding="utf-8", errors="surrogateescape"))

    # The cycle

    def tick(self) -> Status:
        """One cycle: senses, asks the actions that run, ticks, stops what was halted and starts what was started. Where an
        action has ended at once, it is told and the tree is ticked again at the same moment; one that does so a second time at
        this moment is told, and the tick is that of the next cycle. Answers what the root has answered last."""
        with self._open_or_stopped() as engine:
            self._now(engine)
            self._sense(engine)
            for action in self._actions.values():
                self._tell(engine, action.leaf, action.go_on())
            ended_at_once: Set[Action] = set()
            while True:
                engine.tick()
                self._obey(engine)
                ended = self._begin(engine)
                if ended <= ended_at_once:
                    self._obey(engine)
                    return self.status
                ended_at_once |= ended
                self._sense(engine)

    def run(self, hz: float = 10) -> Status:
        """Ticks so many times a second until the root's answer is other than RUNNING, and gives the answer. Where it is
        interrupted, the run ends."""
        with self._open_or_stopped():
            for pause in self._pauses(hz):
                self._sleep(pause)
        return self.status

    async def run_async(self, hz: float = 10) -> Status:
        """As `run`, within a loop of asyncio, in which the actions run that are coroutines. Where it is cancelled, the run
        ends."""
        with self._open_or_stopped():
            for pause in self._pauses(hz):
                await asyncio.sleep(pause)
        return self.status

    def _pauses(self, hz: float) -> Iterator[float]:
        """Ticks until the root's answer is other than RUNNING, and between two ticks gives the seconds to wait. A tick that is
        late moves those after it."""
        due = self._clock()
        while self.tick() is RUNNING:
            now = self._clock()
            due = max(due + 1 / hz, now)
            yield due - now

    def halt(self) -> None:
        """Halts the tree, and so all actions that run."""
        with self._open_or_stopped() as engine:
            self._now(engine)
            engine.halt()
            self._obey(engine)
            self.status = IDLE

    def set(self, fact: str, value: int) -> None:
        """Changes a fact of the world script."""
        with self._open_or_stopped() as engine:
            self._now(engine)
            engine.set(fact, int(value))
            self._obey(engine)

    def entry(self, key: str) -> Optional[Value]:
        """The entry of the main tree's blackboard under this key, none where it has no value."""
        return None if self._engine is None else self._engine.entry(key)

    def close(self) -> None:
        """Ends the run: stops all actions that run, those first that the engine names, in its order, and then the engine. Raises
        the first of what their stops raise."""
        engine, is_open, self._is_open = self._engine, self._is_open, False
        errors: List[LeafError] = []
        with self._files:
            if engine is None or not is_open:
                return
            named = [self._actions[uid] for uid in engine.finish() if uid in self._actions]
            for action in dict.fromkeys([*named, *self._actions.values()]):
                try:
                    action.stop()
                except LeafError as error:
                    errors.append(error)
        if errors:
            raise errors[0]

    def __enter__(self) -> "Robot":
        return self

    def __exit__(self, *_: Any) -> None:
        self.close()

    @contextlib.contextmanager
    def _open_or_stopped(self) -> Iterator[Engine]:
        """Opens the run where it is not, and ends it where anything is raised, so that no action is left running."""
        try:
            if not self._is_open:
                self.open()
            assert self._engine is not None
            yield self._engine
        except BaseException:
            # (what is raised first is what is told)
            with contextlib.suppress(LeafError):
                self.close()
            raise

    def _now(self, engine: Engine) -> None:
        """Tells the present moment, where it is later than the one before."""
        moment = self._first + round((self._clock() - self._started_at) * 1000)
        if moment > self._moment:
            self._moment = moment
            engine.at(moment)

    def _sense(self, engine: Engine) -> None:
        """Asks each condition by the present values of its inputs, and tells of those that answer otherwise than before."""
        for condition in self._conditions:
            leaf = condition.leaf
            leaf.inputs = {port: engine.value(leaf.node, port) for port in leaf.row.inputs}
            self._tell(engine, leaf, condition.news())

    @staticmethod
    def _tell(engine: Engine, leaf: Leaf, status: Optional[Status]) -> bool:
        """Tells how a leaf has ended, or whether it holds, where there is something to tell."""
        if status is not None:
            engine.tell(leaf, status)
        return status is not None

    def _begin(self, engine: Engine) -> Set[Action]:
        """Begins what was started, and gives those actions that have ended at once."""
        started, self._started = self._started, []
        ended: Set[Action] = set()
        for action in started:
            action.leaf.inputs = engine.inputs(action.leaf)
            if self._tell(engine, action.leaf, action.start()):
                ended.add(action)
        return ended

    def _obey(self, engine: Engine) -> None:
        """Does what has happened: stops what was halted, and lists what was started. What was halted in the same event as it was
        started never begins."""
        for what, uid, answer in engine.happened():
            action = self._actions.get(uid)
            if what == "root":
                self.status = answer or IDLE
            elif action is None:
                continue
            elif what == "started" and answer is RUNNING:
                self._started.append(action)
            elif what == "halted" and action in self._started:
                self._started.remove(action)
            elif what == "halted":
                action.stop()
