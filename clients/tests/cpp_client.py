"""What the leaves of the C++ client see and do: cases of one program, each with a tree, a wanted log and a replay."""

import pathlib
import shutil
import subprocess

import cleaner
from bed import PATIENCE, TOP, Bed, Skipped, check_replay, of_pipes, same, test, tree_file

CASES = {
    "forms": ('<Sequence><One/><Two n="3"/><Three/></Sequence>', "One\nTwo starts with 3\nTwo ends\nThree\nSUCCESS\n"),
    "ports": ('<Sequence><Script code="k := 7"/><In i="-3" d="1.5" b="true" s="12" k="{k}"/><Out i="{i}" d="{d}" s="{s}"/>'
              '<In i="{i}" d="{d}" b="0" s="{s}" k="{none}"/></Sequence>',
              "-3 1.5 1 12 7\n5 2.25 0 it's\n\u20ac none\nSUCCESS\n"),
    "halts": ("<ReactiveSequence><Once/><Long/></ReactiveSequence>", "Long starts\nLong stops\nFAILURE\n"),
    "throws": ('<Parallel success_count="2"><Long/><SubTree ID="Arm"/></Parallel>', "Long starts\nLong stops\nArm/grip: it slips\nnested it slips\n"),
    "faults": ('<Parallel><Long/><Script code="x = 1"/></Parallel>', "fault 1 3 NoEntry 0 x\n"),
    "threads": ("<Thread/>", "thread is over\nSUCCESS\n"),
    "unknown": ("<Nothing/>", "nothing is registered for Nothing\n"),
    "refused": ("<Sequence/>", "refused tree ChildCount 1\n"),
    "lost": ("<Long/>", "Long starts\nLong stops\nthe engine has ended with -9\n"),
}


SOURCES = ["clients/tests/cpp_cases.cpp", "examples/robots/cleaner/cleaner.cpp"]


def prepare():
    """Compiles the programs. Raises Skipped where there is no compiler."""
    if shutil.which("g++") is None:
        raise Skipped("no g++ (apt-get install g++), and so no leaves in C++")
    way = ["-DIN_PROCESS", f"-I{TOP / 'include'}"] if Bed.is_in_process else []
    for source in SOURCES:
        words = ["-std=c++17", "-Wall", "-Wextra", "-Wpedantic", "-Werror", *way, f"-I{TOP / 'clients/cpp'}", TOP / source, "-o", built(source)]
        subprocess.run(["g++", *words, *([Bed.archive] if Bed.is_in_process else [])], check=True)


def built(source):
    """The program of a source."""
    way = "in_process" if Bed.is_in_process else "over_pipes"
    return pathlib.Path(Bed.folder.name) / f"{pathlib.Path(source).stem}_{way}"


def play(folder, name, text, wanted):
    """One case."""
    tree = tree_file(folder, text, ("Arm", '<Grip name="grip"/>'))
    record, trace = folder / "recorded.world", folder / "trace"
    ran = subprocess.run([built("cpp_cases.cpp"), name, Bed.program, tree, record, trace], stdout=subprocess.PIPE, timeout=PATIENCE)
    same((ran.returncode, ran.stdout.decode()), (0, wanted))
    if name not in ("unknown", "refused", "lost"):
        check_replay(tree, record, trace)


@test
def the_cleaner_in_cpp_does_what_it_does_in_python(folder):
    traces = []
    record, trace = folder / "recorded.world", folder / "trace"
    in_cpp = [built("cleaner.cpp"), cleaner.TREE, cleaner.ROBOT / "simulator.py", record, trace]
    in_python = [*cleaner.in_python(), "--record", record, "--trace", trace]
    for command in (in_cpp, in_python):
        same(cleaner.run(command), (0, cleaner.SAID))
        check_replay(cleaner.TREE, record, trace)
        traces.append(trace.read_text())
    same(traces[0] == traces[1], True)


def add_tests():
    """A test for each case."""
    for name, (text, wanted) in CASES.items():
        mark = of_pipes if name == "lost" else test
        globals()[f"cpp_{name}"] = mark(lambda folder, name=name, text=text, wanted=wanted: play(folder, name, text, wanted))


add_tests()
