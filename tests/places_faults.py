"""Runs that end in a fault."""

from places_cases import THREE_ROWS, THREE_TREES, Case, changed, lines, nodes, pair

TICK = "tick T W"


def fault(name: str, output: str, place: str, said: "tuple[str, ...]", tree: str, world: str, rules: str = "") -> Case:
    """A run that ends so; the lines of its trace stand between slashes. With rules it is one of `mock`."""
    words = "mock T W R" if rules else TICK
    return Case(name, 5, output.replace(" / ", "\n") + "\n", place, said, tree, world, words, rules=rules)


# a configuration whose script divides by 0, and one that writes nothing
MOCKED = """\
{ "TestNodeConfigs": { "New": { "return_status": "SUCCESS", "async_delay": 0,
      "post_script": "n := 1 / 0" } },
  "SubstitutionRules": { "A": "%s" } }
"""

MOCKS = [
    fault("a fault behind a mock", "tick 1 at 0 / node 1 IDLE RUNNING / node 2 IDLE SUCCESS / fault 1 3 NoEntry 0 z", "T:3:35:",
          ("the script code of Script (node 3) faulted at 0 ms: the entry z of the main tree has no value", "no leaf was held",
           "R:1:24: warning: no rule names the configuration New"),
          nodes('<Sequence><A/> <Script code="y := z"/></Sequence>'), lines("tick 1"), MOCKED % "AlwaysSuccess"),
    fault("a fault of a configuration", "tick 1 at 0 / node 1 IDLE RUNNING / node 2 IDLE RUNNING / fault 1 3 ZeroDivisor", "R:2:22:",
          ("post_script of New faulted at 0 ms: a division by 0", "T:3:11: note: the node that it replaces"),
          nodes("<Sequence><A/><B/></Sequence>"), lines("action B timed 0\ntick 1"), MOCKED % "New"),
    fault("a fault of a leaf that takes the place of one", "tick 1 at 0 / node 1 IDLE RUNNING / fault 1 2 NoInput p", "W:2:21:",
          ("the row of B 'A' (node 2) faulted", "the node does not write p", "T:3:11: note: the node"),
          nodes("<Sequence><A/></Sequence>"), lines("condition B(p) when p\ntick 1"),
          '{"SubstitutionRules": {"A": "B"}}'),
    fault("a guard of a leaf that is replaced", "tick 1 at 0 / fault 1 1 NoEntry 0 n", "T:3:16:",
          ("the script _skipIf of Delay 'A' (node 1)", "the entry n of the main tree has no value"),
          nodes('<A _skipIf="1==n"/>'), lines("tick 1"), MOCKED % "New"),
]

TICKS = [
    fault("mistake 8, fault at run time",
          "tick 1 at 0 / node 1 IDLE RUNNING / call 2 start SUCCESS / node 2 IDLE SUCCESS / node 3 IDLE RUNNING / "
          "node 4 IDLE RUNNING / node 5 IDLE RUNNING / call 6 start RUNNING / node 6 IDLE RUNNING / root 1 RUNNING / "
          "board 1 0 room 12 / tick 1 at 400 / call 6 running SUCCESS / node 6 RUNNING SUCCESS / node 6 SUCCESS IDLE / "
          "node 5 RUNNING SUCCESS / node 7 IDLE SUCCESS / node 8 IDLE RUNNING / node 9 IDLE RUNNING / "
          "call 10 start RUNNING / node 10 IDLE RUNNING / root 1 RUNNING / fact at 12 / board 1 0 way 24 / "
          "board 1 3 steps 12 / tick 1 at 500 / fault 1 10 NoInput force / quench 1 10", "W:10:7:",
          ("the row of Grip (node 10) faulted at 500 ms: its row needs the input force, and there is none",
           'the node gives force="{force}", an entry that has no value by then', "`tick 1 at 500`", "halted: Grip (node 10) of runner 1",
           "T:21:7: note: the node", "SubTree Dock (node 8, line 16)"),
          changed(THREE_TREES, 'force="3"', 'force="{force}"'), THREE_ROWS + "at 500\ntick 1\n"),
    fault("an entry without value",
          "tick 1 at 0 / node 1 IDLE RUNNING / call 2 start SUCCESS / node 2 IDLE SUCCESS / fault 1 3 NoEntry 0 z", "T:3:35:",
          ("the script code of Script (node 3) faulted at 0 ms: the entry z of the main tree has no value", "no leaf was held"),
          nodes('<Sequence><A/> <Script code="y := z"/></Sequence>'), lines("action A timed 0\ntick 1")),
    fault("an entry whose name is misspelled", "tick 1 at 0 / node 1 IDLE RUNNING / node 2 IDLE SUCCESS / fault 1 3 NoEntry 0 acepted / board 1 0 accepted 1",
          "T:3:56:", ("the entry acepted of the main tree has no value", "did you mean accepted?"),
          nodes('<Sequence><Script code="accepted := 1"/> <Script code="acepted"/></Sequence>'), lines("tick 1")),
    fault("an entry by another name", "tick 1 at 0 / node 1 IDLE RUNNING / fault 1 2 NoEntry 0 goal", "T:6:15:",
          ("the entry goal of the main tree has no value",),
          pair('<SubTree ID="N" target="{goal}"/>', '<Script code="target += 1"/>'), lines("tick 1")),
    fault("an entry of a SubTree", "tick 1 at 0 / node 1 IDLE RUNNING / fault 1 2 NoEntry 1 x", "T:6:20:",
          ("the entry x of SubTree N (node 1) has no value",),
          pair('<SubTree ID="N"/>', '<Script code="y := x"/>'), lines("tick 1")),
    fault("a guard before the start", "tick 1 at 0 / fault 1 1 NoEntry 0 n", "T:3:18:",
          ("the script _skipIf of A (node 1)", "the entry n of the main tree"), nodes('<A _skipIf="1 == n" _onSuccess="n := 1"/>'),
          lines("action A timed 0\ntick 1")),
    fault("a script after the answer", "tick 1 at 0 / call 1 start SUCCESS / fault 1 1 ZeroDivisor", "T:3:53:",
          ("the script _post of A (node 1) faulted at 0 ms: a division by 0", "`n != 0 ? a / n : 0`"),
          nodes('<A _skipIf="4 / 2 == 1" _onFailure="1 / 1" _post="1 / 0"/>'), lines("action A timed 0\ntick 1")),
    fault("one of two scripts", "tick 1 at 0 / call 1 start SUCCESS / fault 1 1 NotWhole", "T:3:1:",
          ("A (node 1) faulted at 0 ms: a division leaves a remainder",
           "note: it may be the script _onSuccess", "note: it may be the script _post of this node"),
          nodes('<A _onSuccess="1 / 2" _post="1 / 2"/>'), lines("action A timed 0\ntick 1")),
    fault("a halt", "tick 1 at 0 / node 1 IDLE RUNNING / call 2 start SUCCESS / node 2 IDLE SUCCESS / call 3 start RUNNING / "
          "node 3 IDLE RUNNING / call 4 start RUNNING / node 4 IDLE RUNNING / root 1 RUNNING / halt 1 at 0 / "
          "node 2 SUCCESS IDLE / call 3 halted / node 3 RUNNING IDLE / fault 1 3 ZeroDivisor / quench 1 4", "T:3:50:",
          ("the script _onHalted of B (node 3)", "halted: C (node 4) of runner 1"),
          nodes('<Parallel success_count="3"><A/> <B _onHalted="1 / 0"/><C/></Parallel>'),
          lines("action A timed 0\naction B timed 9\naction C timed 9\ntick 1\nhalt 1")),
    fault("what another runner held", "tick 1 at 0 / node 1 IDLE RUNNING / call 2 start RUNNING / node 2 IDLE RUNNING / root 1 RUNNING / "
          "set x 1 at 0 / fact x 1 / tick 2 at 0 / node 1 IDLE RUNNING / call 2 start SUCCESS / node 2 IDLE SUCCESS / "
          "fault 2 3 NoEntry 0 z / quench 1 2", "T:3:30:",
          ("of runner 2; halted: A (node 2) of runner 1",), nodes('<Sequence><A/> <Script code="z"/></Sequence>'),
          lines("runners 2\nfact x 0\naction A gate x == 1\ntick 1\nset x 1\ntick 2")),
    fault("an input that is not written", "tick 1 at 0 / fault 1 1 NoInput force", "W:3:25:",
          ("its row needs the input force", "the node does not write force", "T:3:1: note: the node"), nodes("<A/>"),
          lines("fact x 0\ncondition A(force) when force > x") + "tick 1\n"),
    fault("a text in an expression", "tick 1 at 0 / fault 1 1 Mixed", "W:2:25:",
          ("the row of A (node 1)", "a text where a number is needed"), nodes('<A force="much"/>'),
          lines("condition A(force) when force > 1\ntick 1")),
    fault("a key at a port", "tick 1 at 0 / node 1 IDLE RUNNING / fault 1 1 BadPort num_attempts", "T:3:23:",
          ("RetryUntilSuccessful (node 1) faulted at 0 ms: its port num_attempts", "no number that it takes",
           "num_attempts takes 1 to 1000, or -1"),
          nodes('<RetryUntilSuccessful num_attempts="{n}"><A/></RetryUntilSuccessful>'), lines("action A timed 0\ntick 1")),
    fault("a rate from a key", "tick 1 at 0 / node 1 IDLE RUNNING / node 2 IDLE SUCCESS / node 3 IDLE RUNNING / fault 1 3 BadPort hz / board 1 0 h 0", "T:3:50:",
          ("RateController (node 3) faulted at 0 ms: its port hz", "hz takes 0.001 to 1000 hertz", "from a key 1 to 1000 and no point"),
          nodes('<Sequence><Script code="h := 0"/><RateController hz="{h}"><A/></RateController></Sequence>'), lines("action A timed 0\ntick 1")),
    fault("a guard of a node that has succeeded before",
          "tick 1 at 0 / node 1 IDLE RUNNING / node 2 IDLE RUNNING / node 3 IDLE SUCCESS / node 3 SUCCESS IDLE / node 2 RUNNING SUCCESS / "
          "node 4 IDLE SUCCESS / call 5 start SUCCESS / node 5 IDLE SUCCESS / call 6 start RUNNING / node 6 IDLE RUNNING / root 1 RUNNING / "
          "board 1 0 n 1 / tick 1 at 5 / node 2 SUCCESS IDLE / fault 1 5 Overflow / quench 1 6 / board 1 0 n 2", "T:3:117:",
          ("the script _skipIf of A (node 5) faulted at 5 ms", "halted: B (node 6)"),
          nodes('<PipelineSequence><RunOnce><Script code="n := 0"/></RunOnce><Script code="n += 1"/> '
                '<A _skipIf="9223372036854775806 + n == 0"/><B/></PipelineSequence>'),
          lines("action A timed 0\naction B timed 9\ntick 1\nat 5\ntick 1")),
    fault("a count of a Parallel", "tick 1 at 0 / node 1 IDLE RUNNING / fault 1 1 BadPort success_count", "T:3:11:",
          ("Parallel (node 1) faulted at 0 ms: its port success_count", "1 to the number of children"),
          nodes('<Parallel success_count="3"><A/></Parallel>'), lines("action A timed 0\ntick 1")),
    fault("an overflow", "tick 1 at 0 / fault 1 1 Overflow", "T:3:",
          ("a number left the 64 bits",), nodes('<Script code="x := 9223372036854775807 + 1"/>'), lines("tick 1")),
    fault("a number and a text", "tick 1 at 0 / fault 1 1 Mixed", "T:3:15:", ("a number and a text together",),
          nodes("<Script code=\"x := 'a' + 1\"/>"), lines("tick 1")),
    fault("a text that grows", "tick 1 at 0 / node 1 IDLE RUNNING / fault 1 2 TextTooLong", "T:6:17:",
          ("the script code of Script (node 2)", "a text of more than 4,096 bytes"),
          pair('<SubTree ID="N" x="' + "a" * 4096 + '"/>', '<Script code="x + x"/>'), lines("tick 1")),
    fault("a length that is negative", "tick 1 at 0 / fault 1 1 Range", "W:3:16:",
          ("the row of A (node 1)", "negative, or above 1,000,000,000,000"), nodes("<A/>"),
          lines("fact x 1\naction A timed (x - 2)\nfails 1 / x\ntick 1")),
    fault("an effect that adds", "tick 1 at 0 / fault 1 1 Overflow", "W:4:6:", ("an effect of the row of A (node 1)", "64 bits"),
          nodes("<A/>"),
          lines("fact n 9223372036854775807\naction A timed 0\nsets n += 1\ntick 1")),
]

CASES = TICKS + MOCKS
