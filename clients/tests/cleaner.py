"""The robot that cleans its floor, and in its modelled world."""

import pathlib
import re
import subprocess
import sys

from bed import PATIENCE, TOP, Bed, check_replay, same, test
from bt_robot.pipes import printed_tree
from bt_robot.trees import Tree

ROBOT = TOP / "examples/robots/cleaner"
TREE, WORLD = ROBOT / "cleaner.xml", ROBOT / "cleaner.world"
ENDED = re.compile(r"call ([0-9]+) (?:(?:start|running) )?(SUCCESS|FAILURE|halted)")
CONDITIONS = {"BatteryOk", "FloorIsClean"}
SAID = "SUCCESS after 89.9 s: 0 spots left, 3 bumps, battery 100\n"


def prepare():
    """Nothing more is needed."""


def order(trace):
    """The actions of a trace by their paths, as they ended."""
    nodes = Tree(printed_tree([Bed.program], str(TREE), None)).nodes
    ends = [(nodes[int(it.group(1)) - 1], it.group(2)) for it in map(ENDED.fullmatch, trace.splitlines()) if it]
    return [(node.path, end) for node, end in ends if node.id not in CONDITIONS]


def run(command):
    """A robot's run: its status, and what it says."""
    env = {"BT": Bed.program, "BT_LIBRARY": Bed.library, "PATH": f"{pathlib.Path(sys.executable).parent}:/usr/bin:/bin"}
    ran = subprocess.run(command, stdout=subprocess.PIPE, text=True, timeout=10 * PATIENCE, env=env)
    return ran.returncode, ran.stdout


def in_python():
    """The robot's program, with the engine where it is tested."""
    return [ROBOT / "cleaner.py", *(["--library"] if Bed.is_in_process else [])]


@test
def it_cleans_its_floor_and_does_so_in_its_modelled_world(folder):
    record, trace, drawn = folder / "recorded.world", folder / "trace", folder / "drawn.svg"
    same(run([sys.executable, *in_python(), "--record", record, "--trace", trace, "--svg", drawn]), (0, SAID))
    check_replay(TREE, record, trace)
    same(drawn.read_text(), (ROBOT / "cleaner.svg").read_text())
    modelled = subprocess.run([Bed.program, "tick", TREE, WORLD], stdout=subprocess.PIPE, text=True, check=True).stdout
    same(order(trace.read_text()), order(modelled))
