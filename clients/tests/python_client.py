"""What the leaves of the Python client see and do."""

import asyncio
import contextlib
import threading
import time

from bed import PATIENCE, Session, raised, test
from bt_robot import FAILURE, RUNNING, SUCCESS, BadLeaf, BadValue, Fault, LeafError, NoInput, Refused, Unregistered
from stubs import same


def prepare():
    """Nothing more is needed."""


@test
def a_function_a_generator_and_a_class_are_actions(folder):
    it = Session(folder, "<Sequence><One/><Two/><Three/></Sequence>")
    it.done("One")
    it.lasting("Two", 2)

    @it.robot.action("Three", "its word")
    class Three:
        def __init__(self, word):
            self.word = word

        def on_start(self):
            it.log.append(f"Three starts with {self.word}")
            return RUNNING

        def on_running(self):
            return SUCCESS

        def on_halted(self):
            it.log.append("Three stops")

    same(it.ticks(4), ["RUNNING", "RUNNING", "RUNNING", "SUCCESS"])
    same(it.log, ["One is done", "Two starts", "Two ends", "Three starts with its word"])
    it.check_replay()


@test
def inputs_come_by_name_and_type(folder):
    it = Session(folder, '<Sequence><Script code="k := 7"/><A n="3" r="1.5" t="true" s="12" k="{k}"/></Sequence>')
    got = []

    @it.robot.action("A")
    def a(n: int, r: float, t: bool, s: str, k, leaf, other: "int" = 9):
        got.append((n, r, t, s, k, other, leaf.input("n"), leaf.input("none", default=None), leaf.path))

    same(it.ticks(1), ["SUCCESS"])
    same(got, [(3, 1.5, True, "12", 7, 9, 3, None, "A")])
    it.check_replay()


@test
def an_input_that_is_none_is_an_error_of_the_leaf(folder):
    for code, kind in [("leaf.input('m')", NoInput), ("leaf.input('s', int)", BadValue), ("leaf.input('k')", NoInput)]:
        it = Session(folder, '<A s="x" k="{k}"/>')
        it.robot.action("A")(eval(f"lambda leaf: {code}"))
        error = raised(LeafError, it.robot.tick)
        assert isinstance(error.__cause__, kind), repr(error.__cause__)
        same(error.path, "A")


@test
def outputs_reach_the_blackboard(folder):
    text = "".join(map(chr, range(1, 300))) + "'\\\n€"
    it = Session(folder, '<Sequence><A n="{n}" t="{t}" r="{r}" s="{s}" none="3"/><B s="{s}"/></Sequence>')
    seen = []

    @it.robot.action("A")
    def a(leaf):
        for port, value in {"n": -2 ** 63, "t": True, "r": 1.5, "s": text, "none": 4, "other": 5}.items():
            leaf.output(port, value)

    it.robot.action("B")(lambda s: seen.append(s))
    same(it.ticks(1), ["SUCCESS"])
    same(seen, [text])
    same([it.robot.entry(key) for key in ("n", "t", "r", "s", "none")], [-2 ** 63, 1, "1.5", text, None])
    it.check_replay()


@test
def an_output_that_is_none_is_an_error_of_the_leaf(folder):
    for value in (2 ** 63, "x" * 4097, None, [1]):
        it = Session(folder, '<A n="{n}"/>')
        it.robot.action("A")(lambda leaf, value=value: leaf.output("n", value))
        assert isinstance(raised(LeafError, it.robot.tick).__cause__, BadValue)


@test
def outputs_of_a_failure_are_not_written(folder):
    it = Session(folder, '<A n="{n}"/>')

    @it.robot.action("A")
    def a(leaf):
        leaf.output("n", 1)
        return False

    same((it.ticks(1), it.robot.entry("n")), (["FAILURE"], None))
    it.check_replay()


@test
def what_is_halted_stops_and_starts_anew(folder):
    it = Session(folder, "<ReactiveSequence><C/><A/></ReactiveSequence>")
    it.truth("C", True, True, False, True)
    it.lasting("A", 5)
    same(it.ticks(4), ["RUNNING", "RUNNING", "FAILURE", "RUNNING"])
    same(it.log, ["A starts", "A stops", "A starts"])
    it.robot.halt()
    same(it.log[-1], "A stops")
    same(it.ticks(1), ["RUNNING"])
    it.check_replay()
    same(it.log[-2:], ["A starts", "A stops"])


@test
def what_is_started_and_halted_in_one_tick_never_begins(folder):
    it = Session(folder, '<Parallel failure_count="1"><A/><C/></Parallel>')
    it.lasting("A", 5)
    it.truth("C", False, True)
    same(it.ticks(2), ["FAILURE", "RUNNING"])
    same(it.log, ["A starts"])
    it.check_replay()


@test
def a_leaf_that_has_ended_is_not_stopped(folder):
    it = Session(folder, "<ReactiveSequence><C/><A/></ReactiveSequence>")
    it.truth("C", True, False)
    it.lasting("A", 1)
    same(it.ticks(2), ["RUNNING", "FAILURE"])
    same(it.log, ["A starts", "A ends"])
    it.check_replay()


@test
def actions_that_are_done_at_once_take_one_cycle(folder):
    it = Session(folder, "<Sequence><A/><B/><C/><D/></Sequence>")
    for id_ in "ABD":
        it.done(id_)
    it.truth("C", False, True)
    same(it.ticks(1), ["SUCCESS"])
    same(it.log, ["A is done", "B is done", "D is done"])
    it.check_replay()
    same(it.trace.read_text().count("tick 1 at 0"), 4)


@test
def an_action_is_done_at_once_twice_in_two_cycles(folder):
    it = Session(folder, '<Repeat num_cycles="3"><A/></Repeat>')
    it.done("A")
    same(it.ticks(3), ["RUNNING", "SUCCESS", "RUNNING"])
    it.check_replay()


@test
def a_pipeline_of_actions_that_are_done_at_once_ends_its_cycle(folder):
    it = Session(folder, "<PipelineSequence><A/><B/><C/></PipelineSequence>")
    it.done("A")
    it.done("B")
    it.lasting("C", 9)
    same(it.ticks(3), ["RUNNING"] * 3)
    assert len(it.log) < 20, it.log
    it.check_replay()


@test
def an_exception_of_a_leaf_stops_everything(folder):
    for where in ("start", "go on", "condition"):
        it = Session(folder, '<Parallel success_count="2"><C/><SubTree ID="Arm"/><Long/></Parallel>', ("Arm", '<A name="grip"/>'))
        it.lasting("Long", 9)

        @it.robot.condition("C")
        def c():
            return not it.log or where != "condition" or 1 / 0

        @it.robot.action("A")
        def a():
            if where == "start":
                raise ValueError("it slips")
            yield
            if where == "go on":
                raise ValueError("it slips")
            yield

        error = raised(LeafError, lambda: it.ticks(3))
        path = "C" if where == "condition" else "Arm/grip"
        same((error.path, isinstance(error.__cause__, (ValueError, ZeroDivisionError))), (path, True))
        assert path in str(error), error
        same(it.log, [] if where == "start" else ["Long starts", "Long stops"])
        it.check_replay()


@test
def an_exception_while_leaves_are_stopped_stops_the_others_too(folder):
    it = Session(folder, "<Parallel><A/><B/></Parallel>")

    @it.robot.action("A")
    def a():
        try:
            yield
            yield
        finally:
            raise ValueError("it sticks")

    it.lasting("B", 9)
    same(it.ticks(1), ["RUNNING"])
    same((raised(LeafError, it.robot.close).path, it.log), ("A", ["B starts", "B stops"]))


@test
def a_fault_stops_everything(folder):
    it = Session(folder, '<Parallel><A/><Sequence><B/><Script code="x = 1"/></Sequence></Parallel>')
    it.lasting("A", 9)
    it.lasting("B", 1)
    error = raised(Fault, lambda: it.ticks(3))
    same((str(error), it.log), ("fault 1 5 NoEntry 0 x", ["A starts", "B starts", "B ends", "A stops"]))
    it.check_replay()


@test
def conditions_see_the_present_entries_of_their_scopes(folder):
    seen = []
    it = Session(folder, '<Sequence><A n="{far}"/><SubTree ID="In" near="{far}" word="it"/></Sequence>', ("In", '<SubTree ID="Deep" _autoremap="true"/>'),
                 ("Deep", '<Sequence><Look near="{near}" word="{word}" own="{own}" plain="2"/><B/></Sequence>'))

    @it.robot.action("A")
    def a(leaf):
        leaf.output("n", 5)

    @it.robot.condition("Look")
    def look(leaf, word, plain: int, near: int):
        seen.append((near, word, plain, leaf.input("own", default="none")))
        return True

    it.done("B")
    same(it.ticks(2), ["FAILURE", "SUCCESS"])
    same(set(seen), {(5, "it", 2, "none")})
    it.check_replay()


@test
def a_thread_goes_on_and_is_halted(folder):
    it = Session(folder, "<ReactiveSequence><C/><A/></ReactiveSequence>")
    is_over, is_sensed = threading.Event(), []
    it.robot.condition("C")(lambda: not is_sensed)

    @it.robot.action("A", thread=True)
    def a(leaf):
        while not leaf.is_halted() and not is_over.is_set():
            time.sleep(0.001)
        it.log.append("halted" if leaf.is_halted() else "over")

    same(it.ticks(2), ["RUNNING"] * 2)
    is_over.set()
    while it.ticks(1) == ["RUNNING"]:
        time.sleep(0.001)
    is_over.clear()
    same(it.ticks(1), ["RUNNING"])
    is_sensed.append(True)
    same(it.ticks(1), ["FAILURE"])
    same(it.log, ["over", "halted"])
    it.check_replay()


@test
def an_exception_of_a_thread_is_that_of_its_leaf(folder):
    it = Session(folder, "<A/>")
    it.robot.action("A", thread=True)(lambda: 1 / 0)
    assert isinstance(raised(LeafError, lambda: [it.ticks(1) and time.sleep(0.01) for _ in range(500)]).__cause__, ZeroDivisionError)
    it.check_replay()


@test
def a_coroutine_goes_on_and_is_cancelled(folder):
    it = Session(folder, "<Sequence><A/><B/></Sequence>", clock=time.monotonic)

    @it.robot.action("A")
    async def a():
        await asyncio.sleep(0.01)
        it.log.append("A ends")

    @it.robot.action("B")
    async def b():
        try:
            it.log.append("B starts")
            await asyncio.sleep(PATIENCE)
        finally:
            it.log.append("B stops")

    async def main():
        running = asyncio.ensure_future(it.robot.run_async(hz=200))
        while "B starts" not in it.log:
            await asyncio.sleep(0.01)
        running.cancel()
        with contextlib.suppress(asyncio.CancelledError):
            await running

    asyncio.run(main())
    same(it.log, ["A ends", "B starts", "B stops"])
    it.check_replay()
    again = Session(folder, "<A/>")
    again.robot.action("A")(a)
    assert isinstance(raised(LeafError, again.robot.tick).__cause__, BadLeaf)


@test
def answers_that_are_none_are_errors_of_the_leaf(folder):
    for kind, function in [("condition", lambda: None), ("condition", lambda: RUNNING), ("action", lambda: RUNNING), ("action", lambda: "done"),
                           ("action", lambda: (it for it in [SUCCESS]))]:
        it = Session(folder, "<A/>")
        getattr(it.robot, kind)("A")(function)
        assert isinstance(raised(LeafError, it.robot.tick).__cause__, BadLeaf), function


@test
def a_leaf_without_its_function_is_told_before_anything_runs(folder):
    it = Session(folder, "<Sequence><A/><B/></Sequence>")
    it.done("A")
    same(str(raised(Unregistered, it.robot.tick)), "nothing is registered for B (B)")
    it = Session(folder, "<A/>", world="bt-world 1\ncondition A told\n")
    it.done("A")
    raised(Unregistered, it.robot.tick)
    raised(BadLeaf, lambda: it.done("A"))
    raised(BadLeaf, lambda: it.robot.action("B")(type("B", (), {"on_start": print})))
    same(str(raised(Refused, Session(folder, "<Sequence/>").robot.tick)), "refused tree ChildCount 1")


@test
def a_world_models_what_the_robot_does_not_do(folder):
    world = "bt-world 1\nfact door 0\ncondition Open is door == 1\naction Wait timed 100\naction A(n) told\nout m\nat 50\ntick 1\n"
    it = Session(folder, '<Sequence><Open/><Wait/><A n="1" m="{m}"/></Sequence>', world=world)
    it.robot.action("A")(lambda leaf, n: leaf.output("m", n + 1))
    same(it.ticks(1), ["FAILURE"])
    it.robot.set("door", 1)
    same(it.ticks(2), ["RUNNING", "SUCCESS"])
    same(it.robot.entry("m"), 2)
    it.check_replay()


@test
def it_runs_at_its_rate_until_the_root_ends(folder):
    it = Session(folder, "<A/>")
    it.lasting("A", 5, answer=FAILURE)
    same(it.robot.run(hz=20), FAILURE)
    same(round(it.clock.seconds, 6), 0.25)
    it.check_replay()
