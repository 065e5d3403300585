"""The engine as a process, to which events are written and from which blocks are read."""

import contextlib
import os
import pathlib
import select
import signal
import subprocess
import tempfile
import time
from collections import deque
from typing import IO, Deque, Dict, Iterator, List, Optional, Sequence

from .engine import Engine, EngineLost, Fault, Happened, Refused, beside
from .leaves import Leaf, Status
from .rows import World
from .trees import Cell, Node, Tree, is_key
from .values import Value, literal, read

# So many bytes are written before answers are read: what they answer has its place in a pipe.
MOST_AT_ONCE = 8192
# A line has at most so many bytes.
MOST_LINE = 65536
# So many seconds it may take to start, while nothing runs yet.
MOST_START = 60.0
# The status of an end after a fault in the run.
FAULT = 5


def default_engine() -> List[str]:
    """The program that the variable BT names, else that of the repository around this file, else `bt` of the path."""
    return [beside("BT", "bt", "bt")]


def printed_tree(engine: Sequence[str], tree: str, main: Optional[str]) -> str:
    """The tree as the engine reads it."""
    options = [] if main is None else ["--main", main]
    try:
        ran = subprocess.run([*engine, "check", tree, *options], stdin=subprocess.DEVNULL, stdout=subprocess.PIPE)
    except OSError as error:
        raise EngineLost(f"the engine can't be started: {error}") from error
    printed = ran.stdout.decode()
    if ran.returncode != 0:
        raise Refused(printed.strip() or f"the engine ended with {ran.returncode}")
    return printed


class Process:
    """A run of `bt serve`. It has a session of its own, so that an interrupt at the terminal reaches the robot's program alone,
    which then ends the run."""

    def __init__(self, engine: Sequence[str], files: Sequence[str], main: Optional[str], patience: float,
                 record: Optional[IO[str]], trace: Optional[IO[str]]):
        words = [*engine, "serve", *files, *([] if main is None else ["--main", main])]
        self.patience, self.record, self.trace = patience, record, trace
        self.unread: Deque[bytes] = deque()
        self.cut_off = b""
        # The lines of answers that are not whole yet, or never were.
        self.unheard: List[str] = []
        try:
            self.process = subprocess.Popen(words, stdin=subprocess.PIPE, stdout=subprocess.PIPE, bufsize=0, start_new_session=True)
        except OSError as error:
            raise EngineLost(f"the engine can't be started: {error}") from error
        assert self.process.stdin and self.process.stdout
        self.into, self.out = self.process.stdin, self.process.stdout
        self.waiting = select.poll()
        self.waiting.register(self.out, select.POLLIN)

    def opened(self) -> None:
        """Waits for the line which says that lines are read. The blocks of the world's own events come before it."""
        while not self.take(max(self.patience, MOST_START)).startswith("ready "):
            pass

    def ask(self, lines: Sequence[str]) -> List[str]:
        """Writes lines and gives what the engine answers to them."""
        for line in lines:
            if len(line) > MOST_LINE:
                raise ValueError(f"a line of {len(line)} bytes is too long for the engine: {line[:60]}..")
        for group in groups(lines):
            self.write(group)
            for _ in group:
                while self.take() != "ok":
                    pass
        return self.heard()

    def heard(self) -> List[str]:
        """The blocks of answers that are whole."""
        lines, self.unheard = self.unheard, []
        return lines

    def write(self, lines: Sequence[str]) -> None:
        """Writes and records lines."""
        text = "".join(f"{line}\n" for line in lines)
        if self.record:
            self.record.write(text)
            self.record.flush()
        # What the engine has said before it closed its input tells why.
        with contextlib.suppress(BrokenPipeError):
            left = text.encode()
            while left:
                left = left[self.into.write(left):]

    def take(self, patience: Optional[float] = None) -> str:
        """The next line, which is one of a block or ends one. Raises what the end of the output means."""
        line = self.next_line(self.patience if patience is None else patience)
        if line is None:
            raise self.ended()
        if line != "ok" and not line.startswith("ready "):
            self.unheard.append(line)
            if self.trace and not line.startswith(("in ", "refused ")):
                self.trace.write(f"{line}\n")
        return line

    def next_line(self, patience: float) -> Optional[str]:
        """The next line, none at the end of the output."""
        end = time.monotonic() + patience
        while not self.unread:
            if not self.waiting.poll(max(0, end - time.monotonic()) * 1000):
                self.kill()
                raise EngineLost(f"the engine has not answered in {patience} seconds")
            read = os.read(self.out.fileno(), 1 << 16)
            if not read:
                return None
            *lines, self.cut_off = (self.cut_off + read).split(b"\n")
            self.unread.extend(lines)
        return self.unread.popleft().decode()

    def ended(self) -> Exception:
        """Why the output has ended: a fault, a refusal, or for no reason that was said."""
        status = self.end()
        said = {line.split(" ")[0]: line for line in self.unheard}
        if status == FAULT and "fault" in said:
            return Fault(said["fault"])
        return Refused(said["refused"]) if "refused" in said else EngineLost(f"the engine has ended with {status}")

    def finish(self) -> List[str]:
        """Ends the run, and gives the blocks of its finish, as far as there are some."""
        with contextlib.suppress(BrokenPipeError):
            self.into.close()
        with contextlib.suppress(EngineLost, Fault, Refused, ValueError):
            while True:
                self.take()
        return self.heard()

    def end(self) -> int:
        """Closes the pipes and waits for the process, which has nothing more to say."""
        for pipe in (self.into, self.out):
            with contextlib.suppress(BrokenPipeError):
                pipe.close()
        try:
            return self.process.wait(self.patience)
        except subprocess.TimeoutExpired:
            self.kill()
            return self.process.wait()

    def kill(self) -> None:
        """Kills the engine, with what it has started."""
        with contextlib.suppress(ProcessLookupError):
            os.killpg(self.process.pid, signal.SIGKILL)


class Pipes(Engine):
    """A tree that `bt serve` runs. What is asked is written together when it is to have happened."""

    def __init__(self, command: Sequence[str], tree: str, main: Optional[str], patience: float):
        self.command, self.file, self.main, self.patience = command, tree, main, patience
        self.tree = Tree(printed_tree(command, tree, main))
        self.nodes = self.tree.nodes
        self.entries = self.tree.first_entries()
        self.started: Dict[int, Dict[str, Optional[Value]]] = {}
        self.lines: List[str] = []
        self.process: Optional[Process] = None

    def start(self, world: World, record: Optional[IO[str]], trace: Optional[IO[str]]) -> None:
        if record:
            record.write(world.text)
        with tempfile.TemporaryDirectory() as folder:
            script = pathlib.Path(folder) / "world"
            script.write_text(world.text, "utf-8", "surrogateescape")
            self.process = Process(self.command, [self.file, str(script)], self.main, self.patience, record, trace)
            self.process.opened()

    def at(self, moment: int) -> None:
        self.lines.append(f"at {moment}")

    def tick(self) -> None:
        self.lines.append("tick 1")

    def halt(self) -> None:
        self.lines.append("halt 1")

    def set(self, fact: str, value: int) -> None:
        self.lines.append(f"set {fact} {value}")

    def tell(self, leaf: Leaf, status: Status) -> None:
        self.lines.append(leaf.telling(status))

    def happened(self) -> List[Happened]:
        assert self.process is not None
        lines, self.lines = self.lines, []
        return list(self.heard(self.process.ask(lines)))

    def heard(self, lines: Sequence[str]) -> Iterator[Happened]:
        """What the lines of blocks say that has happened. The values that they tell are kept."""
        for line in lines:
            kind, _, rest = line.partition(" ")
            if kind == "call":
                uid, what, *answer = rest.split(" ")
                if what == "halted":
                    yield Happened("halted", int(uid))
                elif what == "start":
                    yield Happened("started", int(uid), Status(answer[0]))
            elif kind == "in":
                uid, port, value = rest.split(" ", 2)
                self.started.setdefault(int(uid), {})[port] = read(value)
            elif kind == "board":
                runner, scope, key, value = rest.split(" ", 3)
                told = read(value)
                if runner == "1" and told is not None:
                    self.entries[int(scope), key] = told
            elif kind == "root":
                yield Happened("root", 1, Status(rest.split(" ")[1]))

    def inputs(self, leaf: Leaf) -> Dict[str, Optional[Value]]:
        return dict(self.started.get(leaf.uid, {}))

    def value(self, node: Node, port: str) -> Optional[Value]:
        text = node.ports.get(port)
        if text is None or not is_key(text):
            return None if text is None else literal(text)
        return self.entries.get(self.tree.cell(node, text[1:-1]))

    def entry(self, key: str) -> Optional[Value]:
        return self.entries.get((0, key))

    def finish(self) -> List[int]:
        process, self.process = self.process, None
        if process is None:
            return []
        words = [line.split(" ") for line in process.finish()]
        process.end()
        return [int(it[-1] if it[0] == "quench" else it[1]) for it in words if it[0] == "quench" or it[-1] == "halted"]


def groups(lines: Sequence[str]) -> Iterator[List[str]]:
    """The lines in groups that are written together: what they answer has its place in the pipe, so neither side waits for the
    other."""
    group: List[str] = []
    size = 0
    for line in lines:
        if group and size + len(line) > MOST_AT_ONCE:
            yield group
            group, size = [], 0
        group.append(line)
        size += len(line) + 1
    if group:
        yield group
