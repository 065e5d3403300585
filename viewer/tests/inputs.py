"""What the tests open: stored runs, a large run, and a program that answers with stored outputs."""
import os
import pathlib
import stat
import subprocess

TOP = pathlib.Path(__file__).resolve().parents[2]
EXAMPLES = TOP / "examples"
DATA = TOP / "viewer" / "tests" / "data"
STATUSES = ("IDLE", "RUNNING", "SUCCESS", "FAILURE")
HEADERS = ("tick", "halt", "set", "tell", "finish")

# The program that stands in where none is built. It knows the outputs of the stored files: TREE.checked, which a file of
# version 3 needs, TREE.trace, and WORLD.plan or, of a planned example, its tree.
STAND_IN = """#!/bin/sh
case "$1" in
    check)
        [ -e "${2%.xml}.refused" ] && cat "${2%.xml}.refused" && exit 3
        if [ -e "${2%.xml}.checked" ]; then cat "${2%.xml}.checked"; else cat "$2"; fi ;;
    tick)
        trace=${2%.xml}.trace
        [ -e "$trace" ] || trace=$PLANNED
        cat "$trace"
        if grep -q '^fault ' "$trace"; then exit 5; fi ;;
    plan)
        plan=${2%.world}.plan
        [ -e "$plan" ] || plan=${2%.world}.xml
        head -n 1 "$plan" | grep -q '^<!-- ' || { echo refused world NoGoal; exit 4; }
        cat "$plan"
        if grep -q 'no plan' "$plan"; then exit 6; fi ;;
esac
"""


def stand_in(folder):
    """Makes the program that stands in, and gives its name."""
    program = folder / "bt"
    program.write_text(STAND_IN)
    program.chmod(program.stat().st_mode | stat.S_IXUSR)
    return str(program)


def built_program():
    """The program that tests run, or None where there is none."""
    finder = TOP / "tools" / "program"
    if not finder.exists():
        return None
    return subprocess.run([finder], capture_output=True, text=True).stdout.strip() or None


class Told:
    """What a trace tells, read on its own way: the state after each event, and what each event did."""

    def __init__(self, trace, nodes, runners=1):
        self.statuses = [{runner: ["IDLE"] * nodes for runner in range(1, runners + 1)}]
        self.changed, self.calls, self.values, self.runners = [set()], [{}], [{}], [0]
        for block in blocks_of(trace):
            self.take(block)

    def take(self, block):
        words = block[0].split(" ")
        runner = 0 if words[0] == "set" else int(words[1])
        statuses = {number: list(kept) for number, kept in self.statuses[-1].items()}
        changed, calls, values = set(), {}, dict(self.values[-1])
        for line in block[1:]:
            words = line.split(" ")
            if words[0] == "node":
                statuses[runner][int(words[1]) - 1] = words[3]
                changed.add((runner, int(words[1])))
            elif words[0] == "call":
                calls.setdefault((runner, int(words[1])), []).append(" ".join(words[2:]))
            elif words[0] == "fault":
                fallen = {(number, uid + 1) for number, kept in statuses.items() for uid, status in enumerate(kept) if status != "IDLE"}
                changed |= fallen
                statuses = {number: ["IDLE"] * len(kept) for number, kept in statuses.items()}
            elif words[0] in ("fact", "board"):
                parts = line.split(" ", 2 if words[0] == "fact" else 4)
                values[tuple(parts[:-1])] = parts[-1]
        self.statuses.append(statuses)
        self.changed.append(changed)
        self.calls.append(calls)
        self.values.append(values)
        self.runners.append(runner)


def blocks_of(trace):
    blocks = []
    for line in trace.splitlines():
        if line.split(" ")[0] in HEADERS:
            blocks.append([])
        blocks[-1].append(line)
    return blocks


LEAVES = 4094
FIRST, LAST = 3, LEAVES + 2
EVENTS = 100_000


def large_run():
    """A tree of 4,096 nodes, a world of 100,000 events with its finish, and the trace of some 9 MB that `bt` prints of them."""
    leaves = "".join(f"<A{leaf % 1000}/>" for leaf in range(LEAVES))
    nodes = f'<Repeat num_cycles="-1"><Sequence>{leaves}</Sequence></Repeat>'
    tree = f'<root BTCPP_format="4"><BehaviorTree ID="Large">{nodes}</BehaviorTree></root>\n'
    world = ["bt-world 1", "fact go 0"]
    for row in range(1000):
        world += [f"action A{row} gate go == 1", "sets go = 0"]
    trace, leaf, moment = [], 0, 0
    for event in range(EVENTS - 1):
        if event % 20 == 1:
            moment += 50
            world.append(f"at {moment}")
        world.append("set go 1" if event % 2 else "tick 1")
        if event % 2:
            trace += [f"set go 1 at {moment}", "fact go 1"]
        else:
            trace.append(f"tick 1 at {moment}")
            leaf = large_tick(trace, leaf, event == 0)
    trace += [f"finish 1 at {moment}", *(f"node {uid} SUCCESS IDLE" for uid in range(FIRST, leaf))]
    trace += [f"call {leaf} halted", f"node {leaf} RUNNING IDLE", "node 2 RUNNING IDLE", "node 1 RUNNING IDLE"]
    return tree, "\n".join(world) + "\n", "\n".join(trace) + "\n"


def large_tick(trace, leaf, is_first):
    """Adds what a tick does in which this leaf, or with 0 the first one, completes. Gives the leaf that runs then."""
    if is_first:
        trace += ["node 1 IDLE RUNNING", "node 2 IDLE RUNNING"]
        trace += [f"call {FIRST} start RUNNING", f"node {FIRST} IDLE RUNNING", "root 1 RUNNING"]
        return FIRST
    if leaf == 0:
        trace += ["node 2 IDLE RUNNING", f"call {FIRST} start SUCCESS", f"node {FIRST} IDLE SUCCESS"]
        leaf = FIRST
    else:
        trace += [f"call {leaf} running SUCCESS", f"node {leaf} RUNNING SUCCESS"]
    if leaf == LAST:
        trace += [f"node {uid} SUCCESS IDLE" for uid in range(FIRST, LAST + 1)]
        trace += ["node 2 RUNNING SUCCESS", "node 2 SUCCESS IDLE", "root 1 RUNNING", "fact go 0"]
        return 0
    trace += [f"call {leaf + 1} start RUNNING", f"node {leaf + 1} IDLE RUNNING", "root 1 RUNNING", "fact go 0"]
    return leaf + 1
