"""World scripts that are refused, and words that are no command."""

from places_cases import ROOMS, STUCK, THREE_ROWS, THREE_TREES, Case, changed, lines, nodes

ONE = nodes("<A/>")


def world(name: str, words: str, place: str, said: "tuple[str, ...]", text: str, tree: str = ONE) -> Case:
    """A world script that is refused by these words."""
    return Case(name, 4, f"refused world {words}\n", place, said, tree, text, "tick T W")


WORLDS = [
    world("no header", "Header 1", "W:1:1:", ("`bt-world 1`",), "bt-world 2\n"),
    world("no lines", "Header 1", "W:1:1:", ("`bt-world 1`",), ""),
    world("a ground file", "Header 1", "W:1:1:", ("looks like a ground file", "`bt gplan`"), "bt-ground 1\nsort s a\n"),
    world("a ground file without its header", "Header 1", "W:1:1:", ("looks like a ground file", "`bt-world 1`"),
          "forall X s\nend\n"),
    world("a line of a ground file", "BadLine 2", "W:2:1:", ("no line begins with sort", "`bt-ground 1`"), lines("sort s a")),
    world("an unknown line", "BadLine 2", "W:2:1:", ("no line begins with facts", "did you mean fact"), lines("facts x 1")),
    world("a line without its number", "BadLine 3", "W:3:7:", ("number is missing", "`fact NAME INT`"), lines("# x\nfact x")),
    world("a line that goes on", "BadLine 2", "W:2:10:", ("goes on with 2",), lines("fact x 1 2")),
    world("a number that is none", "BadLine 2", "W:2:8:", ("01 is no number",), lines("fact x 01")),
    world("signs without blanks", "BadLine 4", "W:4:6:", ("x=1 is no name",), lines("fact x 1\naction A timed 0\nsets x=1")),
    world("a comparison", "BadLine 3", "W:3:18:", ("here stands ==", "condition ID is FACT OP INT"),
          lines("fact x 1\ncondition A is x = 1")),
    world("an unknown way", "BadLine 2", "W:2:10:", ("timed or replay or gate", "`action ROW timed MS`"), lines("action A lasts 100")),
    world("a length that goes on", "BadLine 2", "W:2:19:", ("where the parentheses of the length have ended", "write `((1) + (2))`"), lines("action A timed (1) + (2)")),
    world("a length that does not end", "BadLine 2", "W:2:16:", ("this ( has no )",), lines("action A timed (1")),
    world("a length of unknown names", "NoName 2", "W:2:17:", ("speed",), lines("action A timed (speed)")),
    world("outcomes", "BadLine 2", "W:2:19:", ("S for success and F for failure",), lines("action A replay 0 FFX")),
    world("ports with blanks", "BadLine 2", "W:2:13:", ("timed or replay or gate",), lines("action A(p, q) timed 0")),
    world("ports with a blank behind their comma", "BadLine 2", "W:2:20:", ("no blanks: write Grip(force,width)",),
          lines("action Grip(force, width) timed 100")),
    world("ports behind a blank", "BadLine 2", "W:2:16:", ("no blanks: write Grip(force)",), lines("condition Grip (force) when force")),
    world("a failure in words", "BadLine 4", "W:4:9:", ("write `n == 1`",), lines("fact n 1\naction A timed 0\nfails n is 1")),
    world("a failure with the word of a condition", "BadLine 4", "W:4:12:", ("write `n > 1`",), lines("fact n 1\naction A timed 0\nfails when n > 1")),
    world("an effect that takes away", "BadLine 4", "W:4:8:", ("here stands = or +=", "write += -15"),
          lines("fact x 1\naction A timed 0\nsets x -= 15")),
    world("an effect that takes away less than nothing", "BadLine 4", "W:4:8:", ("write += 15",),
          lines("fact x 1\naction A timed 0\nsets x -= -15")),
    world("a fact that is no number", "BadLine 2", "W:2:12:", ("false is no number", "yes and no are 1 and 0: write 0"),
          lines("fact heavy false")),
    world("a fact that is true", "BadLine 3", "W:3:25:", ("yes and no are 1 and 0: write 1",), lines("fact heavy 1\ncondition H is heavy == true")),
    world("a fact in parts", "BadLine 2", "W:2:8:", ("0.5 is no number", "smaller units"), lines("fact x 0.5")),
    world("two comparisons", "BadLine 4", "W:4:23:", ("goes on with &&", "write `condition C when a == 0 && b == 0`"),
          lines("fact a 0\nfact b 0\ncondition C is a == 0 && b == 0")),
    world("a comparison of two facts", "BadLine 4", "W:4:21:", ("write `condition C when a == b`",),
          lines("fact a 0\nfact b 0\ncondition C is a == b")),
    world("a told row that goes on", "BadLine 2", "W:2:15:", ("goes on with 100", "`action ROW told`"), lines("action A told 100")),
    world("an output that is worked out, of a told action", "BadLine 3", "W:3:11:", ("goes on with =", "the value of level is told with `tell`"),
          lines("action A told\nout level = 3")),
    world("an effect of a told action", "BadLine 4", "W:4:1:", ("A is told how it ended", "`out PORT`"), lines("fact x 1\naction A told\nsets x = 1")),
    world("an output without its expression", "BadLine 3", "W:3:10:", ("= and an expression are missing",), lines("action A timed 1\nout level")),
    world("outputs of a failure", "BadLine 2", "W:2:18:", ("goes on with x=1", "with SUCCESS alone"), lines("tell 1 2 FAILURE x=1")),
    world("an output with blanks", "BadLine 2", "W:2:18:", ("no white space round the =",), lines("tell 1 2 SUCCESS x = 1")),
    world("a text without quotes", "BadLine 2", "W:2:20:", ("a text stands between quotes: 'cup'",), lines("tell 1 2 SUCCESS x=cup")),
    world("a text that does not end", "BadLine 2", "W:2:20:", ("does not end", "\\' for a quote"), lines("tell 1 2 SUCCESS x='a")),
    world("a text that is not UTF-8", "BadLine 2", "W:2:20:", ("no UTF-8",), lines("tell 1 2 SUCCESS x='\\xff'")),
    world("outputs that touch", "BadLine 2", "W:2:23:", ("white space stands between",), lines("tell 1 2 SUCCESS x='a'y=1")),
    world("a wide number that is told", "Range 2", "W:2:20:", ("out of the range of a number",), lines("tell 1 2 SUCCESS x=9223372036854775808")),
    world("an output that is told twice", "DoubleName 2", "W:2:22:", ("second value of x", "W:2:18: note"), lines("tell 1 2 SUCCESS x=1 x=2")),
    world("a telling of no leaf", "NoLeaf 3", "W:3:8:", ("the tree has no node 3: it has 1", "leaves that are told: 1 (A (node 1))"),
          lines("action A told\ntell 1 3 SUCCESS")),
    world("a telling of a modelled leaf", "NoLeaf 1", "W:3:8:", ("its row is not told", "T:3:1: note: node 1", "no leaf of the tree has a row"),
          lines("action A timed 0\ntell 1 1 FAILURE")),
    world("a telling of an output that is not there", "NoOutput 1", "W:4:18:", ("has no output levl", "did you mean level?", "W:2:8: note: the row"),
          lines("action A told\nout level\ntell 1 1 SUCCESS levl=3")),
    world("a telling of an output of a condition", "NoOutput 1", "W:3:18:", ("A has no line `out PORT`",), lines("condition A told\ntell 1 1 SUCCESS x=1")),
    world("an effect without its action", "BadLine 3", "W:3:1:", ("above a line `sets` stands an action",),
          lines("fact x 1\nsets x = 1")),
    world("fails of a gate", "BadLine 3", "W:3:1:", ("A is not timed",), lines("action A gate 1\nfails 1")),
    world("an expression that ends", "BadLine 3", "W:3:21:", ("the text ends where",), lines("fact x 1\ncondition A when x +")),
    world("a text in an expression", "BadLine 3", "W:3:23:", ("has no texts",), lines("fact x 1\ncondition A when x == 'a'")),
    world("a real number in an expression", "BadLine 3", "W:3:22:", ("whole numbers",), lines("fact x 1\ncondition A when x > 0.5")),
    world("runners after an event", "BadLine 3", "W:3:1:", ("before the first event",), lines("tick 1\nrunners 2")),
    world("another sign", "BadLine 2", "W:2:6:", ("printable ASCII",), lines("fact ö 1").replace("ö", "\udcf6")),
    world("a wide number in a line", "Range 2", "W:2:8:", ("out of the range of a fact",), lines("fact x 9223372036854775808")),
    world("a runner too many", "Range 2", "W:2:6:", ("out of the range of runners", "`runners N`"), lines("tick 2")),
    world("a fact twice", "DoubleName 3", "W:3:6:", ("second fact x", "W:2:6: note"), lines("fact x 1\nfact x 2")),
    world("a row of a built-in node", "DoubleName 2", "W:2:8:", ("Sequence is a name of the tree format",),
          lines("action Sequence timed 0")),
    world("a fact that is not there", "NoName 3", "W:3:16:",
          ("no earlier line has a fact batery", "did you mean battery?", "known facts: battery"),
          lines("fact battery 1\ncondition A is batery == 1")),
    world("a name in an expression", "NoName 3", "W:3:29:", ("frce is neither", "did you mean force?", "known ports: force"),
          lines("fact x 1\ncondition A(force) when x > frce")),
    world("a need that compares nothing", "NoName 4", "W:4:7:", ("C is no condition of the form `is`",),
          lines("condition C when 1\naction A timed 0\nneeds C")),
    world("a goal that is not there", "NoName 2", "W:2:6:", ("no earlier line has a condition G", "no conditions are known"),
          lines("goal G")),
    world("a moment that goes back", "MomentBack 4", "W:4:4:", ("4 lies before the last moment, 5", "W:2:4: note"),
          lines("at 5\ntick 1\nat 4")),
    world("an end that lies before the last moment", "MomentBack 3", "W:3:16:", ("4 lies before the last moment, 5", "W:2:4: note"),
          lines("at 5\nevery 10 until 4 tick 1")),
    world("a moment before the last round", "MomentBack 3", "W:3:4:", ("9 lies before the last moment, 10", "W:2:16: note"),
          lines("every 10 until 15 tick 1\nat 9")),
    world("rounds without a time", "Range 2", "W:2:7:", ("0 is out of the range of milliseconds from one round to the next", "it is 1 to"),
          lines("every 0 until 9 tick 1")),
    world("rounds of a runner too many", "Range 2", "W:2:31:", ("2 is out of the range of runners",), lines("every 10 until 15 tick 1 halt 2")),
    world("rounds of nothing", "BadLine 2", "W:2:18:", ("tick or halt is missing", "`every MS until MS tick R ..`"), lines("every 10 until 15")),
    world("rounds of a change", "BadLine 2", "W:2:19:", ("here stands tick or halt",), lines("every 10 until 15 set x 1")),
    world("rounds without an end", "BadLine 2", "W:2:10:", ("here stands until",), lines("every 10 tick 1")),
    world("too many rounds", "TooMany 2", "W:2:1:", ("the line makes 100,002 events, and 0 stand before it", "at most 100,000 events"),
          lines("every 1 until 50000 tick 1 halt 1")),
    world("too many ports", "TooMany 2", "W:2:1:", ("at most 8 ports",), lines("action A(a,b,c,d,e,f,g,h,i) timed 0")),
    world("an effect that adds, twice", "DoubleName 5", "W:5:6:", ("A sets x already",),
          lines("fact x 1\naction A timed 0\nsets x += 1\nsets x = 1")),
    world("a file too long", "TooLong", "W: error:", ("1048577 bytes",), " " * 1_048_577),
    world("mistake 7, leaf without a row", "NoRow 'HandOver'", "T:7:7:",
          ("the leaf HandOver (node 11) has no row in W", "the row HandsOver is near", "\naction HandOver timed 0\n"),
          changed(THREE_ROWS, "HandOver", "HandsOver"), THREE_TREES),
    world("a row of other letters, which a leaf uses", "NoRow 'dock'", "T:3:18:", ("did you mean Dock?",), lines("action Dock timed 0"),
          nodes("<Sequence><Dock/><dock/></Sequence>")),
    world("a node of version 3", "NoRow 'SubTreePlus'", "T:3:1:", ("in version 4 it is SubTree",), lines("tick 1"),
          nodes('<SubTreePlus ID="M" __autoremap="true"/>')),
    world("several leaves without rows", "NoRow 'A'", "T:3:11:",
          ("T:3:29: note: B (node 3) has no row", "\naction A(x,y) timed 0\n", "\ncondition B when 1\n"),
          lines("action C timed 0"), nodes('<Sequence><A x="1" y="2"/>  <Condition ID="B"/><C/></Sequence>')),
    world("a leaf that can have no row", "NoRow 'open-door'", "T:3:1:", ("no row can have the ID 'open-door'",), lines("tick 1"),
          nodes("<open-door/>")),
]


# what the program by itself never answers to a tick
UNASKED = [
    Case("a driver that is missing", 4, "refused world NoDriver Gate\n", "W: error:", ("no driver serves",),
         ONE, lines("action A gate 1"), "tick T W", False),
]

PLANS = [
    Case("no goal", 4, "refused world NoGoal\n", "W: error:", ("has no goal", "`goal ID`"), ONE, lines("action A gate 1"), "plan W"),
    Case("no goal in a ground file", 4, "refused world NoGoal\n", "W: error:", ("has no goal", "`goal ID`"), ONE, "bt-ground 1\n",
         "gplan W"),
    Case("a plan of a ground file", 4, "refused world Header 1\n", "W:1:1:", ("looks like a ground file",), ONE, "bt-ground 1\n", "plan W"),
]


def read(name: str, what: str, words: str, *said: str, asked: bool = True) -> Case:
    """A file that could not be read."""
    place = next(word for word in words.split() if word not in ("tick", "check", "mock", "ground", "T", "W"))
    return Case(name, 7, f"refused read {what}\n", f"{place}: error: the {what} file can't be read: ", said, ONE, words=words, asked=asked)


READS = [
    read("no tree file", "tree", "check none", "there is no such file"),
    read("no world file", "world", "tick T none", "there is no such file"),
    read("no rules file", "rules", "mock T W none", "there is no such file"),
    read("no ground file", "world", "ground none", "there is no such file"),
    read("a tree in no folder", "tree", "check none/T", "there is no folder none"),
    read("a name misspelled", "tree", "check TT", "there is no such file", "did you mean T?"),
    read("an option in the place of a file", "tree", "check -h", "the word -h stands where the file's name is expected",
         "`bt check --help` tells the words of it"),
    read("the option of a mocked tree in the place of a file", "world", "mock T --print W", "the word --print stands where", "--print comes before the files"),
    read("the same misspelled", "tree", "mock --prnt T W", "the word --prnt stands where", "--print comes before the files"),
    read("another option of mocks there", "world", "mock T --main W", "the word --main stands where", "options come after the files"),
    read("mistake 11, file name", "tree", "check delivr.xml", "there is no such file"),
    read("a folder", "tree", "check .", "it is a folder", asked=False),
    read("a long name", "tree", "check " + "x" * 300, "file name too long", asked=False),
]


def ground(name: str, refused: str, place: str, said: "tuple[str, ...]", text: str, words: str = "ground W") -> Case:
    """A ground file that is refused."""
    return Case(name, 4, f"refused ground {refused}\n", place, said + (f"({refused})",), ONE, text, words)


def grounds_of(*rows: str) -> str:
    """A ground file of these lines after its header."""
    return "\n".join(["bt-ground 1", *rows]) + "\n"


NESTED = ("forall A s", "forall B s", "forall C s")

GROUNDS = [
    ground("a ground file of another number", "Header 1", "W:1:1:", ("`bt-ground 1`",), "bt-ground 2\n"),
    ground("a header with white space", "Header 1", "W:1:1:", ("exactly `bt-ground 1`",), "bt-ground 1 \n"),
    ground("a world script", "Header 1", "W:1:1:", ("this is a world script", "goes to `tick`"), lines("fact x 1")),
    ground("a block of no variable", "BadLine 3", "W:3:1:", ("has not its form",), grounds_of("sort s a b", "forall x s")),
    ground("a mark of no variable", "BadLine 2", "W:2:1:", ("upper-case letters",), grounds_of("fact f_$x 1")),
    ground("a value twice", "DoubleName 2", "W:2:1:", ("a second time",), grounds_of("sort s a a")),
    ground("mistake 9, unknown sort", "NoName 4", "W:4:1:", ("no earlier line has a sort rom", "did you mean room?", "known sorts: room"),
           changed(ROOMS, "R room", "R rom")),
    ground("a sort before all sorts", "NoName 2", "W:2:1:", ("no earlier line has a sort s", "no sorts are known"), grounds_of("forall R s")),
    ground("a variable of no open block", "NoName 4", "W:4:3:", ("no open block has the variable Y", "`forall Y SORT`"),
           grounds_of("sort s a", "forall X s", "  fact f_$Y 1", "end")),
    ground("a fourth block", "TooNested 6", "W:6:1:", ("three blocks",), grounds_of("sort s a", *NESTED, "forall D s")),
    ground("a seventeenth sort", "TooMany 18", "W:18:1:", ("at most 16",), grounds_of(*[f"sort s{n} a" for n in range(17)])),
    ground("a block without its end", "Unended 4", "W:4:1:", ("write `end`",), grounds_of("sort s a", *NESTED[:2], "end", "fact x 1").replace("end\n", "", 1)),
    ground("a script too long", "TooManyGround 1228811", "W: error:", ("1,048,576",),
           grounds_of(f"sort s {' '.join('abcdefghijklmnop')}", *NESTED, "x" * 299, "end", "end", "end")),
    ground("mistake 10, faulty line of the world script", "World NoName 5", "W:5:1:",
           ("no earlier line has a fact att", "in the world script it is `condition At_kitchen is att == 1`", "did you mean at?"),
           changed(ROOMS, "is at", "is att"), "gplan W"),
    ground("a line that its block writes twice", "World DoubleName 4", "W:4:1:", ("a second fact f", "writes it once for each value"),
           grounds_of("sort s a b", "forall X s", "fact f 1", "end"), "gplan W"),
    ground("a line that a block has written", "World DoubleName 6", "W:6:1:", ("a second fact f_b", "W:4:1: note: the first one"),
           grounds_of("sort s a b", "forall X s", "fact f_$X 1", "end", "fact f_b 1"), "gplan W"),
]


def rules(name: str, refused: str, text: str, *said: str, nodes: str = ONE, place: str = "R: error:") -> Case:
    """Mock rules that are refused, or that make of a tree one that is."""
    return Case(name, 10, f"refused rules {refused}\n", place, said, nodes, lines("tick 1"), "mock T W R", rules=text)


def configured(text: str) -> str:
    """Rules with a configuration that has these members, which begin on line 2."""
    return '{"TestNodeConfigs": {"New": {\n' + text + '\n}}}'


# a leaf becomes a Delay over another one, whose script names an entry
NEW = '{"TestNodeConfigs": {"New": {"return_status": "SUCCESS", "post_script": "m := 1"}}, "SubstitutionRules": {"A": "New"}}'

MOCKS = [
    rules("mistake 13, status misspelled", "Form 'Stuck'", changed(STUCK, "FAILURE", "FALIURE"), "return_status of Stuck is neither SUCCESS nor FAILURE",
          "did you mean FAILURE?", nodes=THREE_TREES, place="R:3:33: error:"),
    rules("no JSON", "Json", "{", "is no JSON text", "expecting property name", place="R:1:2: error:"),
    rules("JSON with a comma too many", "Json", '{\n"SubstitutionRules": {"A": "B",}\n}', "is no JSON text", place="R:2:32: error:"),
    rules("JSON that goes on", "Json", "{}\n{}", "goes on after its value", place="R:2:1: error:"),
    rules("rules that are not UTF-8", "Json", '{\n"\udcff": 1}', "the file is not UTF-8", place="R:2:2: error:"),
    rules("half a character", "Json", '{"a": "\\ud800"}', "is no JSON text", place="R:1:1: error:"),
    rules("a number that is none", "Json", '{"a": NaN}', "is no JSON text", place="R:1:1: error:"),
    rules("rules that are a list", "Form ''", "[]", "the rules are no object (Form '')", place="R:1:1: error:"),
    rules("no object", "Form ''", '{"SubstitutionRules": []}', "SubstitutionRules is no object (Form '')", place="R:1:23: error:"),
    rules("a configuration that is a text", "Form 'New'", '{"TestNodeConfigs": {"New": "SUCCESS"}}', "(Form 'New')", place="R:1:29: error:"),
    rules("a status of another text", "Form 'New'", configured('"return_status": "RUNNING"'), "(Form 'New')", place="R:2:18: error:"),
    rules("a status misspelled", "Form 'New'", configured('"return_status": "SUCESS"'), "return_status of New is neither SUCCESS nor FAILURE (Form 'New')",
          "did you mean SUCCESS?", place="R:2:18: error:"),
    rules("no status", "Form 'New'", configured('"return_stats": "SUCCESS"'), "has no return_status", "did you mean return_status?", place="R:1:29: error:"),
    rules("a delay with a point", "Form 'New'", configured('"return_status": "SUCCESS",\n"async_delay": 1.5'), "in digits alone", place="R:3:16: error:"),
    rules("a delay with an exponent", "Form 'New'", configured('"return_status": "SUCCESS",\n"async_delay": 1e3'), "in digits alone",
          place="R:3:16: error:"),
    rules("a script that is a number", "Form 'New'", configured('"return_status": "SUCCESS",\n"post_script": 1'), "post_script of New is no text",
          place="R:3:16: error:"),
    rules("a rule of no text", "Form 'A'", '{"SubstitutionRules": {\n"A": {"return_status": "SUCCESS"}}}', "(Form 'A')", place="R:2:6: error:"),
    rules("a post_script", "BadScript 'New' Syntax 4", configured('"return_status": "SUCCESS", "post_script": "m :="'),
          "(BadScript 'New' Syntax 4)", "post_script of New", place="R:2:44: error:"),
    rules("rules that are too long", "TooLong", "{}" + " " * 1_048_575, "1048577 bytes"),
    rules("mocks of too many nodes", "TooManyNodes", NEW, "two nodes of one", nodes=nodes(f"<Sequence>{'<A/>' * 2_048}</Sequence>")),
    rules("mocks that are too deep", "TooDeep", NEW, "two nodes of one", nodes=nodes("<Inverter>" * 255 + "<A/>" + "</Inverter>" * 255)),
    rules("mocks with too many keys", "TooManyKeys", NEW, "at most 4,096",
          nodes=nodes("<Sequence><B " + " ".join(f'p{n}="{{k{n}}}"' for n in range(4_096)) + "/><A/></Sequence>")),
    rules("mocks with too much work", "TooMuchWork", NEW, "at most 100,000", "T:3:1: error: one visit of Repeat (node 1) may make 197001 visits",
          nodes=nodes('<Repeat num_cycles="1000"><Repeat num_cycles="98"><A/></Repeat></Repeat>')),
]


MOCKS += [
    Case("a mocked tree without a row", 4, "refused world NoRow 'Stck'\n", "T:3:11:",
         ("the leaf Stck 'A' (node 2) has no row in W", "R:2:30: warning: Stck is no configuration", "did you mean Stuck?",
          "R:2:38: warning: the rule 'C' replaces no node", "the paths are 'A', 'B'"),
         nodes("<Sequence><A/><B/></Sequence>"), lines("action B timed 0\ntick 1"), "mock T W R",
         rules='{ "TestNodeConfigs": { "Stuck": { "return_status": "FAILURE" } },\n  "SubstitutionRules": {"A": "Stck", "C": "AlwaysSuccess"} }'),
]


def words(name: str, text: str, *said: str) -> Case:
    """Words that are no command."""
    return Case(name, 2, "refused words\n", "bt: ", said + ("usage: bt tick TREE WORLD [--main ID]", "bt load N"), ONE, words=text)


WORDS = [
    words("no word", "", "a command is missing"),
    words("an unknown command", "chek T", "'chek' is no command: did you mean check?"),
    words("a file is missing", "tick T", "tick: WORLD is missing"),
    words("a word too many", "check T W", "'W' is one word too many"),
    words("an unknown option", "check T --tree M", "'--tree' is no option of it"),
    words("an option without its value", "check T --main", "after --main its ID is missing"),
    words("an option twice", "check T --main A --main B", "--main stands twice"),
    words("no number of rounds", "live T W", "--ticks N is missing"),
    words("a number of rounds", "live T W --ticks 0", "--ticks is a number from 1 to 100000"),
    words("a number of leaves", "load 01", "N is a number from 1 to 1000"),
    words("a number of sequences", "plan W --expand 121", "--expand is a number from 0 to 120"),
    words("an option of another command", "plan W --main M", "'--main' is no option of it"),
    words("an option before the file", "check --strict T", "check: --strict comes after the files"),
    words("an option with its value before the files", "mock --print --main M T R", "mock --print: --main comes after the files"),
    words("a strict check misspelled", "check T --strct", "'--strct' is no option of it: did you mean --strict?"),
    words("strict twice", "check T --strict --strict", "--strict stands twice"),
    words("strict with a value", "check T --strict M", "'M' is one word too many"),
    words("a mocked tree without its rules", "mock --print T", "mock --print: RULES is missing"),
    words("a mocked tree with a world", "mock --print T W R", "'R' is one word too many"),
    words("the option of a mocked tree at the end", "mock T W R --print", "mock: --print comes before the files"),
]

CASES = WORLDS + UNASKED + PLANS + READS + GROUNDS + MOCKS + WORDS
