"""What `./names` answers: which node is which, in a tree file and in a trace."""

import os
import stat
import subprocess
import sys
from typing import Dict, List, Optional

from .escapes import escaped
from .expects import pick_lines, read_expects
from .explaining import explanation, told
from .listing import join_lines, node_lines, tree_lines
from .marks import Finding, read_marks
from .mocks import mocked
from .naming import Naming, NoTrace, OtherTree, lines_of
from .opening import open_file
from .report import tell
from .rules import read_rules
from .source import MOST_BYTES, Source, bytes_of, complaint
from .trees import TreeFile, main_of, read_file, trees_of
from .worlds import read_world

USAGE = """\
./names TREE [OPTIONS]            a line a node: uid, kind, ID, name, line, and the SubTree nodes round it
./names TREE [OPTIONS] < TRACE    the trace, with the name of each node after its line
./names TREE WORLD [OPTIONS]      leaves without rows, rows without leaves, and ports that do not meet
./names TREE WORLD --expect EXPECT    which leaves each line of a file of expectations tells
./names --trees TREE              a line a tree of the file
./names --all TREE                what `bt check` says of each tree of the file as the main tree
the options, in any order:
  --main ID       the main tree
  --mock RULES    the nodes of the tree that these mock rules make
"""

TREE_REFUSED, WORLD_REFUSED, RULES_REFUSED, EXPECT_REFUSED, WORDS, UNREAD, OTHER = 3, 4, 10, 12, 2, 7, 1

OPTIONS = ("--main", "--mock", "--expect")


def file_of(name: str, too_long: int) -> Source:
    """The file of this name; ends with 7 where it can't be read, and with the status that is given where it is too long."""
    try:
        source = Source(name, bytes_of(name))
    except (OSError, ValueError) as error:
        tell([f"names: {complaint(error)}"])
        sys.exit(UNREAD)
    if len(source.data) > MOST_BYTES:
        tell([f"names: {name}: the file has more than {MOST_BYTES} bytes"])
        sys.exit(too_long)
    return source


def write(lines: List[str]) -> None:
    """Writes lines to standard output, each of which stays one line."""
    sys.stdout.buffer.write("".join(escaped(line) + "\n" for line in lines).encode("utf-8"))


def has_trace() -> bool:
    """Whether standard input is a file or a pipe, and not a terminal or nothing."""
    try:
        mode = os.fstat(0).st_mode
    except OSError:
        return False
    return stat.S_ISREG(mode) or stat.S_ISFIFO(mode) or stat.S_ISSOCK(mode)


def opened(source: Source, main: Optional[str]) -> TreeFile:
    """The file with its main tree opened. Raises its first fault."""
    file = read_file(source, main)
    open_file(file)
    return file


def name_nodes(file: TreeFile, is_mocked: bool) -> int:
    """Lists the nodes of a tree, or names them in the trace on standard input."""
    if not has_trace() or not sys.stdin.buffer.peek(1):
        write(node_lines(file))
        return 0
    naming = Naming(file)
    try:
        for line in naming.lines(lines_of(sys.stdin.buffer)):
            sys.stdout.buffer.write(line)
    except OtherTree as fault:
        sys.stdout.buffer.flush()
        tell([f"names: {fault}", "  help: " + ("the rules or the tree are others" if is_mocked else
              "the nodes of a run of `bt mock` have other numbers: give its rules by `--mock RULES`")])
        return OTHER
    except NoTrace as fault:
        sys.stdout.buffer.flush()
        tell([f"names: {fault}"])
        return OTHER
    sys.stdout.buffer.flush()
    tell(filter(None, [naming.complaint()]))
    return 0


def join(file: TreeFile, world: Source) -> int:
    """Lists what a tree and a world lack for one another."""
    try:
        write(list(join_lines(file, read_world(world))))
    except Finding as finding:
        tell(told(world, finding))
        return WORLD_REFUSED
    return 0


def tell_leaves(file: TreeFile, world: Source, expect: Source) -> int:
    """Lists which leaves a file of expectations tells."""
    try:
        read = read_world(world)
    except Finding as finding:
        tell(told(world, finding))
        return WORLD_REFUSED
    try:
        write(pick_lines(read_expects(expect, file, read)))
    except Finding as finding:
        tell(told(expect, finding))
        return EXPECT_REFUSED
    return 0


def list_trees(source: Source) -> None:
    """Lists the trees of a file."""
    root = read_marks(source)
    trees = trees_of(root)
    try:
        main = main_of(root, trees, None)
    except Finding as finding:
        main = ""
        tell(told(source, finding))
    write(tree_lines(source, trees, main))


def lines_said(printed: bytes) -> List[str]:
    """The lines that a program has printed."""
    return list(filter(None, printed.decode("utf-8", "replace").split("\n")))


def check_all(source: Source, program: str) -> int:
    """Has the program check each tree of a file as the main tree."""
    status = 0
    for name, tree in trees_of(read_marks(source)).items():
        words = ["check", source.name, "--main", name]
        ran = subprocess.run([program, *words], stdout=subprocess.PIPE, stderr=subprocess.PIPE, stdin=subprocess.DEVNULL)
        said = lines_said(ran.stdout) or [f"exit {ran.returncode}"]
        write([f"{name}: line {source.line_of(tree.at)}: {said[-1].replace('<!-- ', '').replace(' -->', '')}"])
        sys.stdout.flush()
        if ran.returncode != 0:
            status = ran.returncode
            tell(explanation(ran.returncode, ran.stdout, words) or lines_said(ran.stderr))
    return status


def by_rules(file: TreeFile, source: Source) -> TreeFile:
    """The tree that the rules of a file make; ends with 10 where this has a fault."""
    try:
        return mocked(file, read_rules(source)).file
    except Finding as finding:
        tell(told(source, finding))
        sys.exit(RULES_REFUSED)


def about(source: Source, world: Optional[Source], options: Dict[str, str]) -> int:
    """Does what the words say of a tree file and its options. Raises its first fault."""
    file = opened(source, options.get("--main"))
    if "--mock" in options:
        file = by_rules(file, file_of(options["--mock"], RULES_REFUSED))
    if world is not None and "--expect" in options:
        return tell_leaves(file, world, file_of(options["--expect"], EXPECT_REFUSED))
    return name_nodes(file, "--mock" in options) if world is None else join(file, world)


def parted(words: List[str]) -> "tuple[List[str], Dict[str, str]]":
    """The files at the front of the words, and the options behind them."""
    first = next((at for at, word in enumerate(words) if word in OPTIONS), len(words))
    names, rest = words[:first], words[first:]
    options = dict(zip(rest[::2], rest[1::2]))
    return (names, options) if 2 * len(options) == len(rest) and all(option in OPTIONS for option in options) else ([], {})


def answer(words: List[str], program: str) -> int:
    """Does what the words say, and gives the exit. `--all` calls the program."""
    whole = len(words) == 2 and words[0] in ("--trees", "--all")
    names, options = (words[1:], {}) if whole else parted(words)
    if not 1 <= len(names) <= 2 or names[0].startswith("--"):
        tell(USAGE.split("\n")[:-1])
        return WORDS
    source, *others = map(file_of, names, (TREE_REFUSED, WORLD_REFUSED))
    try:
        if words[0] == "--all":
            return check_all(source, program)
        if words[0] == "--trees":
            list_trees(source)
            return 0
        return about(source, others[0] if others else None, options)
    except Finding as finding:
        tell(told(source, finding))
        return TREE_REFUSED
