"""Tree files that are read and have warnings, and what `names` tells of files and traces."""

from dataclasses import dataclass
from typing import Tuple

from places_cases import THREE_ROWS, THREE_TREES, changed, nodes, pair


@dataclass(frozen=True)
class Warned:
    """A tree file, and texts of its warnings, one for each; none where it has none. With a world, those of a run, and
    with mock rules those of a run by them."""

    name: str
    said: Tuple[str, ...]
    tree: str
    world: str = ""
    rules: str = ""


GREETING = """\
<root BTCPP_format="4" main_tree_to_execute="Main">
  <BehaviorTree ID="Main">
    <Sequence>
      <SubTree ID="Greet" who="you"/>
      <Say message="hello"/>
    </Sequence>
  </BehaviorTree>
  <BehaviorTree ID="Greet">
    <Say message="{who}"/>
  </BehaviorTree>
  <TreeNodesModel>
    <Action ID="Say"><input_port name="message"/></Action>
    <SubTree ID="Greet"><input_port name="who"/></SubTree>
  </TreeNodesModel>
</root>
"""

WITHOUT_WHO = changed(GREETING, ' who="you"', "")

WARNED = [
    Warned("nothing to warn of", (), GREETING),
    Warned("three trees", (), THREE_TREES),
    Warned("what editors write", (), nodes('<Sequence _description="skip if dark" _fullpath="x" _uid="3"><A/></Sequence>')),
    Warned("a guard in other letters", ("T:3:11: warning: the attribute _skipif is ignored: it is no guard",),
           nodes('<Sequence _skipif="1"><A/></Sequence>')),
    Warned("a guard cut short", ("T:3:4: warning: the attribute _onHalt is ignored",), nodes('<A _onHalt="x := 1"/>')),
    Warned("a mapping misspelled", ("T:4:37: warning: the attribute _autoreamp is ignored",),
           changed(GREETING, ' who="you"/>', ' who="you" _autoreamp="1"/>')),
    Warned("a mapping at another node", ("T:3:4: warning: _autoremap is ignored",), nodes('<A _autoremap="true"/>')),
    Warned("a format misspelled", ("T:1:7: warning: the attribute BTCPP_formt of the root is ignored",),
           nodes("<A/>", 'BTCPP_formt="4"')),
    Warned("a main tree misspelled", ("T:1:24: warning: the attribute main_tree_to_exectue of the root is ignored",),
           nodes("<A/>", 'BTCPP_format="4" main_tree_to_exectue="M"')),
    Warned("what else a root has", (), nodes("<A/>", 'BTCPP_format="4" project_name="Project"')),
    Warned("a leaf without model", ("T:5:7: warning: the leaf Sya has no model",),
           changed(GREETING, '<Say message="hello"/>', '<Sya message="hello"/>')),
    Warned("a tree that is never opened", ("T:8:17: warning: the tree 'Greet' is never opened from 'Main'",),
           changed(GREETING, '<SubTree ID="Greet" who="you"/>', '<Say message="hi"/>')),
    Warned("a default of a SubTree", ("T:13:48: warning: the default of who is not used",),
           changed(WITHOUT_WHO, '<input_port name="who"/>', '<input_port name="who" default="you"/>')),
    Warned("a default that is written", (), changed(GREETING, '<input_port name="who"/>', '<input_port name="who" default="you"/>')),
    Warned("a port of a SubTree's model", ("T:13:25: warning: the port who is not asked for: the model of a SubTree is ignored",), WITHOUT_WHO),
    Warned("an output of a SubTree's model", ("T:4:7: warning: Greet (node 2) is opened without who",),
           changed(WITHOUT_WHO, '<input_port name="who"/></SubTree>', '<output_port name="who"/></SubTree>')),
]

OF_THE_PAGE = changed(changed(THREE_TREES, 'goal="{room}"', 'gaol="{room}"'), "<HandOver/>", '<ScriptCondition code="way = 20"/>')

SCRIPTS = '<Sequence><Script code="accepted := 0"/>\n%s</Sequence>'

# tests that are none, and keys that nothing writes
KEYS = [
    Warned("an assignment in the place of a test", ("T:4:24: warning: code of ScriptCondition (node 3) writes accepted",),
           nodes(SCRIPTS % '<ScriptCondition code="accepted = 1"/>')),
    Warned("an assignment in a guard", ("T:4:24: warning: _skipIf of A (node 3) writes accepted",), nodes(SCRIPTS % '<A _skipIf="1 == 1; 2; accepted := 1"/>')),
    Warned("an assignment of a test", (), nodes(SCRIPTS % '<A _while="accepted := accepted == 0" _failureIf="accepted += 1"/>')),
    Warned("an assignment after the answer", (), nodes(SCRIPTS % '<A _onSuccess="accepted = 1" _post="accepted := 1"/>')),
    Warned("a key misspelled", ("T:4:24: warning: nothing writes the key acepted, which code of ScriptCondition (node 3) looks at",),
           nodes(SCRIPTS % '<ScriptCondition code="acepted == 1"/>')),
    Warned("a key in a guard", ("nothing writes the key battery, which _failureIf of A (node 3) looks at",), nodes(SCRIPTS % '<A _failureIf="battery"/>')),
    Warned("a key that a leaf may put out", (), nodes(SCRIPTS % '<A level="{battery}"/><B _failureIf="battery"/>')),
    Warned("a key at a port", ("T:4:10: warning: nothing writes the key time, which the port msec of Timeout (node 3) reads",),
           nodes(SCRIPTS % '<Timeout msec="{time}"><A/></Timeout>')),
    Warned("a key that is changed and not made", ("write `count := ..` first",), nodes('<Script code="count += 1"/>')),
    Warned("a key by its own name", (), pair('<Sequence><Script code="n := 1"/><SubTree ID="N" n="{=}"/></Sequence>', '<Script code="m := n"/>')),
    Warned("keys that are mapped", (), pair('<Sequence><Script code="n := 1"/><SubTree ID="N" _autoremap="1"/></Sequence>', '<Script code="m := n"/>')),
    Warned("a key without braces", ("T:4:4: warning: the port goal of A (node 3) is the text 'accepted', and accepted is a key",),
           nodes(SCRIPTS % '<A goal="accepted"/>')),
    Warned("a key without braces at a SubTree", ("T:3:38: warning: the port goal of N (node 3) is the text 'room'",),
           pair('<Sequence><A room="{room}"/><SubTree goal="room" ID="N"/></Sequence>', '<B to="{goal}"/>')),
    Warned("a SubTree without a port", ("T:3:1: warning: N (node 1) is opened without goal, which its tree reads",),
           pair('<SubTree ID="N"/>', '<ScriptCondition code="goal == 1"/>')),
    Warned("a SubTree that is opened twice", ("T:3:47: warning: N (node 4) is opened without goal",),
           pair('<Sequence><SubTree ID="N" goal="1"/>          <SubTree ID="N"/></Sequence>', '<ScriptCondition code="goal == 1"/>')),
    Warned("a port of a SubTree misspelled", ("T:3:17: warning: the tree 'N' does not use the port targt of N (node 1)",),
           pair('<SubTree ID="N" targt="1"/>', '<ScriptCondition code="target == 1"/>')),
    Warned("a port that a tree has not", ("T:3:17: warning: the tree 'N' does not use the port speed", ),
           pair('<SubTree ID="N" speed="1"/>', '<A/>')),
    Warned("a tree that others open", ("the tree 'N' is never opened",), pair('<Script code="m := n"/>', '<SubTree ID="M" n="1"/>')),
    Warned("a key of another name above", ("T:3:59: warning: nothing writes the key rom",),
           pair('<Sequence><Script code="room := 1"/><SubTree ID="N"       goal="{rom}"/></Sequence>', '<ScriptCondition code="goal == 1"/>')),
    Warned("an input that only a host could write", (), changed(GREETING, ' who="you"', ' who="{guest}"')),
]

# leaves and their models, their like and their rows
PORTS = [
    Warned("an input of a model", ("T:5:7: warning: Say (node 4) does not give message, which its model has",), changed(GREETING, ' message="hello"', "")),
    Warned("an output of a model", (), changed(GREETING, '<input_port name="message"/>', '<output_port name="message"/>').replace(' message="hello"', "")),
    Warned("a port that others have not", ("T:3:42: warning: no other A has the port forse",),
           nodes('<Sequence><A force="1"/><A force="2"/><A forse="3"/></Sequence>')),
    Warned("ports of short names", (), nodes('<Sequence><A p1="1"/><A p1="2"/><A p2="3"/></Sequence>')),
    Warned("an input that its row needs", ("T:4:4: warning: nothing writes the key much, which the port force of A (node 3) reads",),
           nodes(SCRIPTS % '<A force="{much}"/>'), "bt-world 1\ncondition A(force) when force > 3\n"),
    Warned("an input that its row does not need", (), nodes(SCRIPTS % '<A force="{much}"/>'), "bt-world 1\ncondition A(force) when 1\n"),
    Warned("ports that few have", (), nodes('<Sequence><A force="1"/><A force="2"/><A width="3"/></Sequence>')),
    Warned("a leaf by the name of a node", ("T:3:1: warning: AlwaysSucces is read as a leaf of yours",), nodes("<AlwaysSucces/>")),
    Warned("a leaf by a name of version 3", ("T:3:1: warning: SubTreePlus is read as a leaf of yours",), nodes('<SubTreePlus ID="M"/>')),
    Warned("a row and a tree that meet", (), THREE_TREES, THREE_ROWS),
    Warned("an input of a row", ("T:21:7: warning: Grip (node 10) does not give force, which its row has",), changed(THREE_TREES, ' force="3"', ""), THREE_ROWS),
    Warned("a port of a row misspelled", ("T:21:13: warning: the row of Grip (node 10) does not name its port forse",),
           changed(THREE_TREES, "force", "forse"), THREE_ROWS),
    Warned("a port that a row does not need", (), changed(THREE_TREES, ' force="3"', ' force="3" grip="1"'), THREE_ROWS),
    Warned("an output that no row has", ("T:15:28: warning: nothing writes the key steps",), THREE_TREES,
           changed(THREE_ROWS, "out steps = to - at\n", "")),
    Warned("a key that a row reads", ("T:6:7: warning: DriveTo (node 3) is opened without goal, which its tree reads",),
           changed(THREE_TREES, ' goal="{room}"', ""), THREE_ROWS),
]

def mocked(name: str, said: "tuple[str, ...]", rules: str, configurations: str = '"Stuck": { "return_status": "FAILURE" }') -> Warned:
    """Rules, which begin on line 3, for the file of three trees, and texts of their warnings."""
    text = '{ "TestNodeConfigs": {\n %s },\n"SubstitutionRules": { %s }}' % (configurations, rules)
    return Warned(name, said, THREE_TREES, THREE_ROWS, text)


MOCKS = [
    mocked("rules that all replace", (), '"DriveTo/Drive": "Stuck", "*Grip": "AlwaysSuccess"'),
    mocked("a rule by a leaf's ID", ("R:3:24: warning: the rule 'Drive' replaces no node", "R:2:2: warning: no rule names the configuration Stuck"),
           '"Drive": "AlwaysFailure"'),
    mocked("a path of the library", ("R:3:24: warning: the rule 'DriveTo::3/Drive::6' replaces no node",), '"DriveTo::3/Drive::6": "Stuck"'),
    mocked("a path misspelled", ("R:3:24: warning: the rule 'DriveTo/Driv' replaces no node",), '"DriveTo/Driv": "Stuck"'),
    mocked("a rule of a SubTree", ("R:3:24: warning: the rule 'DriveTo' replaces no node",), '"DriveTo": "Stuck"'),
    mocked("a rule behind another", ("R:3:43: warning: the rule 'DriveTo/Drive' replaces no node",), '"Drive*": "Stuck", "DriveTo/Drive": "AlwaysSuccess"'),
    mocked("rules in the order of their file", ("R:3:24: warning: the rule 'b' replaces no node", "R:3:50: warning: AlwaysSucces is no configuration",
                                                "R:3:66: warning: the rule 'a' replaces no node"), '"b": "Stuck", "HandOver": "AlwaysSucces", "a": "Stuck"'),
    mocked("a configuration misspelled", ("R:3:36: warning: Stck is no configuration",), '"HandOver": "Stck"'),
    mocked("members that are not read", ("R:2:41: warning: the member success_script is not read", "R:2:64: warning: the member failure_script is not read",
                                         "R:2:87: warning: the member asyncdelay is not read"), '"HandOver": "Stuck"',
           '"Stuck": { "return_status": "FAILURE", "success_script": "1", "failure_script": "1", "asyncdelay": 1 }'),
    Warned("a document misspelled", ("R:1:2: warning: the member TestNodeConfig is not read", "R:1:69: warning: AlwaysSucces is no configuration"),
           THREE_TREES, THREE_ROWS, '{"TestNodeConfig": {"Stuck": {}}, "SubstitutionRules": {"HandOver": "AlwaysSucces"}}'),
    Warned("a rule that the library reads otherwise", ("R:1:25: warning: the rule 'A' replaces no node but those of this path",),
           pair('<Sequence><A/><SubTree ID="N"/></Sequence>', "<A/>"), "bt-world 1\n", '{"SubstitutionRules": { "A": "AlwaysSuccess" }}'),
    Warned("a leaf of another row", ("T:7:7: warning: Grip 'HandOver' (node 11) does not give force, which its row has",), THREE_TREES, THREE_ROWS,
           '{"SubstitutionRules": {"HandOver": "Grip"}}'),
]

NODE_LIST = """\
1   control    Sequence              top                   4
2   leaf       ReadAddress           ReadAddress           5
3   subtree    DriveTo               DriveTo               6
4   control    Sequence              Sequence              11  DriveTo (3)
5   decorator  RetryUntilSuccessful  RetryUntilSuccessful  12  DriveTo (3)
6   leaf       Drive                 Drive                 13  DriveTo (3)
7   built-in   Script                Script                15  DriveTo (3)
8   subtree    Dock                  Dock                  16  DriveTo (3)
9   decorator  Timeout               Timeout               20  DriveTo (3) > Dock (8)
10  leaf       Grip                  Grip                  21  DriveTo (3) > Dock (8)
11  leaf       HandOver              HandOver              7
"""

STUCK = """\
{ "TestNodeConfigs": { "Stuck": { "return_status": "FAILURE", "async_delay": 250 } },
  "SubstitutionRules": { "DriveTo/Drive": "Stuck", "*/Grip": "AlwaysSuccess" } }
"""

MOCKED_LIST = """\
1   control    Sequence              top                   4
2   leaf       ReadAddress           ReadAddress           5
3   subtree    DriveTo               DriveTo               6
4   control    Sequence              Sequence              11  DriveTo (3)
5   decorator  RetryUntilSuccessful  RetryUntilSuccessful  12  DriveTo (3)
6   decorator  Delay                 Drive                 13  DriveTo (3)
7   built-in   AlwaysFailure         AlwaysFailure         13  DriveTo (3)
8   built-in   Script                Script                15  DriveTo (3)
9   subtree    Dock                  Dock                  16  DriveTo (3)
10  decorator  Timeout               Timeout               20  DriveTo (3) > Dock (9)
11  built-in   AlwaysSuccess         Grip                  21  DriveTo (3) > Dock (9)
12  leaf       HandOver              HandOver              7
"""

MOCKED_TRACE = """\
tick 1 at 0
node 1 IDLE RUNNING
call 2 start SUCCESS
node 2 IDLE SUCCESS
node 3 IDLE RUNNING
node 4 IDLE RUNNING
node 5 IDLE RUNNING
node 6 IDLE RUNNING
root 1 RUNNING
board 1 0 room 12
"""

TRACE = """\
tick 1 at 400
node 1 IDLE RUNNING
call 10 start RUNNING
root 1 RUNNING
tell 1 10 FAILURE at 440
set at 3 at 450
fact at 3
board 1 0 way 24
board 1 3 steps 12
fault 1 10 NoInput force
quench 1 6
"""

NAMED_TRACE = """\
tick 1 at 400
node 1 IDLE RUNNING\ttop (Sequence)
call 10 start RUNNING\tGrip at 400, in Dock (8), in DriveTo (3)
root 1 RUNNING
tell 1 10 FAILURE at 440\tGrip, in Dock (8), in DriveTo (3)
set at 3 at 450
fact at 3
board 1 0 way 24
board 1 3 steps 12\tDriveTo
fault 1 10 NoInput force\tGrip, in Dock (8), in DriveTo (3)
quench 1 6\tDrive, in DriveTo (3)
"""

TREE_LIST = """\
Deliver  line 3   main    opens DriveTo
DriveTo  line 10  opened  opens Dock
Dock     line 19  opened
"""

JOINED = """\
T:13:28: the port steps of Drive is not named by its row
T:21:7: Grip does not give the input width of its row
T:7:7: the leaf HandOver has no row
W:11:8: no leaf uses the row HandsOver
"""

JOIN_ROWS = THREE_ROWS.replace("HandOver", "HandsOver").replace("out steps", "out way").replace("Grip(force)", "Grip(force,width)")
