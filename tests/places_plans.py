"""Plans that were not found, or that ended in a fault."""

from places_cases import HOME as PAGE_HOME
from places_cases import Case, changed, lines, nodes

HOME = lines("fact at 0\ncondition AtHome is at == 1\n%s\ngoal AtHome")

STEP = "<!-- expand 2 AtHome Go raises 0 -->\n"


def plan(name: str, output: str, place: str, said: "tuple[str, ...]", world: str, words: str = "plan W", status: int = 6) -> Case:
    """A plan of a world that ends so."""
    return Case(name, status, output, place, said, nodes("<A/>"), world, words)


GROUND = """\
bt-ground 1
sort room kitchen hall
fact at 0
forall R room
condition At_$R is at == #R
action Go_$R(speed) timed 0
sets at = #R
end
goal At_hall
"""

CASES = [
    plan("mistake 12, an input of a planned action", "<!-- no plan NoTemplate AtHome -->\n", "W:4:11:",
         ("W:8:6: note: GoHome sets at = 1, and has the input speed",), changed(PAGE_HOME, "GoHome timed", "GoHome(speed) timed")),
    plan("an action with an input", "<!-- no plan NoTemplate AtHome -->\n", "W:3:11: error: AtHome failed, and no action that is left makes at == 1 true",
         ("W:5:6: note: Go sets at = 1, and has the input speed: a planned action has no inputs",),
         HOME % "action Go(speed) timed 0\nsets at = 1"),
    plan("no action for a condition", "<!-- no plan NoTemplate AtHome -->\n", "W:3:11:",
         ("no row makes it true: an action does by a line `sets at = VALUE`", "what changes at: Go (at = 2), Back (at += 0)"),
         HOME % "action Go timed 0\nsets at = 2\naction Back timed 0\nsets at += 0"),
    plan("a told row", "<!-- no plan NoTemplate AtHome -->\n", "W:3:11:", ("no row changes at", "a told row has no such lines, and serves no plan: Go"),
         HOME % "action Go told"),
    plan("no action at all", "<!-- no plan NoTemplate AtHome -->\n", "W:3:11:", ("no row changes at",), HOME % ""),
    plan("an action that was tried", STEP + "<!-- no plan NoTemplate AtHome -->\n", "W:3:11:",
         ("W:5:6: note: Go sets at += 1, and was tried for it before",), HOME % "action Go replay 0 F\nsets at += 1"),
    plan("a condition and what it needs", STEP + "<!-- no plan NoTemplate AtHome Lit -->\n", "W:3:11:",
         ("was tried for it before", "W:5:11: error: Lit failed, and no action that is left makes light > 0 true", "no row changes light"),
         HOME % "fact light 0\ncondition Lit is light > 0\naction Go timed 0\nneeds Lit\nsets at = 1"),
    plan("a row of a ground file", "<!-- no plan NoTemplate At_hall -->\n", "W:5:1:", ("W:7:1: note: Go_hall sets at = 2, and has the input speed",),
         GROUND, "gplan W"),
    plan("goals that can't hold together", "<!-- expand 2 Away Leave raises 0 -->\n<!-- no plan NoOrder Leave AtHome -->\n", "W:8:6:",
         ("Leave may make AtHome false, which has to hold before it (at == 1)", "W:3:11: note: the condition AtHome"),
         HOME % "condition Away is at == 2\naction Go timed 0\nsets at = 1\naction Leave timed 0\nsets at = 2\ngoal Away"),
    plan("too few steps", STEP + "<!-- no plan Expansions 1 -->\n", "bt: error: 1 sequences were added", ("allow more with `--expand N`",),
         HOME % "fact light 0\ncondition Lit is light > 0\naction Go timed 0\nneeds Lit\nsets at = 1\naction On timed 0\nsets light = 1",
         "plan W --expand 1"),
    plan("an action that never ends", STEP + "<!-- no plan StillRunning 5 -->\n", "bt: error: in 5 ticks", ("--ticks N",),
         HOME % "action Go gate 0\nsets at = 1", "plan W --ticks 5"),
    plan("an expression that divides by 0", STEP + "<!-- no plan Faulted 5 ZeroDivisor -->\n", "W:5:7:",
         ("the modelled run of the plan ended in a fault, a division by 0, which may be of this part of Go",),
         HOME % "action Go timed 0\nfails 1 / at\nsets at = 1", status=5),
    plan("an effect that adds too much", STEP + "<!-- no plan Faulted 5 Overflow -->\n", "W:6:6:", ("64 bits, which may be of this part of Go",),
         HOME % "fact far 9223372036854775807\naction Go timed 0\nsets far += 1\nsets at = 1", status=5),
]
