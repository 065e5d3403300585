"""What the tests of the clients stand on: the engine that they run, small trees, a clock that stands, and the replay."""

import os
import pathlib
import shutil
import subprocess
import sys
import tempfile

import bt_robot
from stubs import same

TOP = pathlib.Path(__file__).resolve().parents[2]
# Seconds within which a process answers.
PATIENCE = 60


class Skipped(Exception):
    """Something that the tests need is not here."""


class Bed:
    """The engine that is tested: the program, which also runs sessions again, and where the engine is in the process of the robot,
    the library as an archive and as one that can be loaded."""

    program = ""
    archive = ""
    library = ""
    is_in_process = False
    # What is made once for all tests.
    folder = tempfile.TemporaryDirectory()


def program_of(program):
    """The program, which drives hosts. Raises Skipped where there is none."""
    if not program:
        raise Skipped("no program, neither a proved one nor one that is compiled here")
    tree = TOP / "examples/told.xml"
    ran = subprocess.run([program, "serve", tree, tree.with_suffix(".world")], stdin=subprocess.DEVNULL, stdout=subprocess.PIPE, text=True)
    if "ready " not in ran.stdout:
        raise Skipped("the program has no command serve")
    return program


def library_of(archive):
    """The library that can be loaded, made of the archive. Raises Skipped where it can't be made."""
    if not archive:
        raise Skipped("no library libbt.a, neither a proved one nor one that is compiled here")
    if shutil.which("g++") is None:
        raise Skipped("no g++ (apt-get install g++), and so no library that can be loaded")
    library = pathlib.Path(Bed.folder.name) / "libbt.so"
    subprocess.run(["g++", "-shared", "-o", library, "-Wl,--whole-archive", archive, "-Wl,--no-whole-archive"], check=True)
    return str(library)


def over_pipes():
    """Has the tests run over pipes."""
    Bed.is_in_process = False
    Bed.program = program_of(printed("tools/program"))


def in_process():
    """Has the tests run in the process of the robot."""
    over_pipes()
    Bed.archive = printed("tools/library")
    Bed.library = library_of(Bed.archive)
    Bed.is_in_process = True
    os.environ["BT_LIBRARY"] = Bed.library


def printed(tool):
    """What a tool of the repository prints in its one line."""
    return subprocess.run([TOP / tool], stdout=subprocess.PIPE, text=True).stdout.strip()


def test(function):
    """Marks a test."""
    function.is_test = True
    return function


def of_pipes(function):
    """Marks a test that speaks of the pipes, or of the process at their other end."""
    function.is_of_pipes = True
    return test(function)


def tree_file(folder, text, *others):
    """A file with a main tree M of these nodes, and with other trees, each an ID and its node."""
    trees = "".join(f'<BehaviorTree ID="{name}">{node}</BehaviorTree>' for name, node in [("M", text), *others])
    path = folder / "tree.xml"
    path.write_text(f'<root BTCPP_format="4" main_tree_to_execute="M">{trees}</root>')
    return path


class Clock:
    """A clock that goes on where it is slept by."""

    def __init__(self):
        self.seconds = 0.0

    def __call__(self):
        return self.seconds

    def sleep(self, seconds):
        """Lets time pass."""
        self.seconds += seconds


class Session:
    """A robot over a tree of its own in a folder, whose session is recorded. What its leaves do they log."""

    def __init__(self, folder, text, *others, world=None, **options):
        self.tree = text if isinstance(text, pathlib.Path) else tree_file(folder, text, *others)
        self.record, self.trace, self.clock, self.log = folder / "recorded.world", folder / "trace", Clock(), []
        if world is not None:
            (folder / "given.world").write_text(world)
            options["world"] = folder / "given.world"
        way = {"library": True} if Bed.is_in_process else {"engine": [Bed.program]}
        how = {**way, "record": self.record, "trace": self.trace, "clock": self.clock, "sleep": self.clock.sleep, "patience": PATIENCE}
        self.robot = bt_robot.Robot(self.tree, **{**how, **options})

    def lasting(self, id_, cycles, answer=True):
        """An action that lasts so many cycles after its start, or until it is halted."""
        @self.robot.action(id_)
        def lasting(leaf):
            self.log.append(f"{leaf.path} starts")
            try:
                for _ in range(cycles):
                    yield
                self.log.append(f"{leaf.path} ends")
                return answer
            except GeneratorExit:
                self.log.append(f"{leaf.path} stops")
                raise

    def truth(self, id_, *answers):
        """A condition that answers so at each asking, and at last as the last time."""
        left = list(answers)
        self.robot.condition(id_)(lambda: left.pop(0) if len(left) > 1 else left[0])

    def done(self, id_, answer=None):
        """An action that is done at once."""
        @self.robot.action(id_)
        def done(leaf):
            self.log.append(f"{leaf.path} is done")
            return answer

    def ticks(self, count, seconds=0.1):
        """So many cycles: the root's answers."""
        answers = []
        for _ in range(count):
            answers.append(self.robot.tick().value)
            self.clock.sleep(seconds)
        return answers

    def check_replay(self):
        """Ends the session, and runs it again by its record."""
        self.robot.close()
        check_replay(self.tree, self.record, self.trace)


def check_replay(tree, record, trace):
    """Holds the trace of a session against that of its record."""
    ran = subprocess.run([Bed.program, "tick", tree, record], stdout=subprocess.PIPE, text=True)
    same(trace.read_text(), ran.stdout)
    assert "at" in ran.stdout, "the trace is empty"


def raised(kind, call):
    """What a call raises, which is of this kind."""
    try:
        call()
    except kind as error:
        return error
    raise AssertionError(f"{kind.__name__} was not raised")


def python_host(folder, text):
    """The command of a host in Python, in a file of its own."""
    path = folder / "host.py"
    path.write_text(f"import sys\nsys.path.insert(0, {str(TOP / 'clients/python')!r})\nfrom bt_robot import *\n{text}")
    return [sys.executable, path]
