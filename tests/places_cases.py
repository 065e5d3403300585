"""A row of the tables of `places`: files, words, what the program answers, and what must then be said."""

from dataclasses import dataclass
from typing import Tuple


@dataclass(frozen=True)
class Case:
    """Files T, W, R and E, the program's words for them, its exit and output, and what must be said of them.

    `place` is the front of the first line, as `T:3:7:`; each text of `said` stands somewhere. Where the program can't
    answer so by itself, `asked` is false and it is not asked."""

    name: str
    status: int
    output: str
    place: str
    said: Tuple[str, ...]
    tree: str
    world: str = "bt-world 1\n"
    words: str = "check T"
    asked: bool = True
    rules: str = ""
    expect: str = ""


def nodes(text: str, head: str = 'BTCPP_format="4"') -> str:
    """A file of one tree with these nodes, which begin on line 3."""
    return f'<root {head}>\n<BehaviorTree ID="M">\n{text}\n</BehaviorTree>\n</root>\n'


def pair(first: str, second: str, head: str = 'BTCPP_format="4" ') -> str:
    """A file of two trees, M with nodes that begin on line 3, and N with nodes that begin on line 6 where the first are one line."""
    return nodes(f'{first}\n</BehaviorTree>\n<BehaviorTree ID="N">\n{second}', head + 'main_tree_to_execute="M"')


def lines(text: str) -> str:
    """A world script with these lines, which begin on line 2."""
    return "bt-world 1\n" + text + "\n"


# a file of three trees and its world, in which one mistake is made at a time
THREE_TREES = """\
<?xml version="1.0" encoding="UTF-8"?>
<root BTCPP_format="4" main_tree_to_execute="Deliver">
  <BehaviorTree ID="Deliver">
    <Sequence name="top">
      <ReadAddress room="{room}"/>
      <SubTree ID="DriveTo" goal="{room}" way="{way}"/>
      <HandOver/>
    </Sequence>
  </BehaviorTree>
  <BehaviorTree ID="DriveTo">
    <Sequence>
      <RetryUntilSuccessful num_attempts="3">
        <Drive to="{goal}" steps="{steps}"/>
      </RetryUntilSuccessful>
      <Script code="way := steps * 2"/>
      <SubTree ID="Dock"/>
    </Sequence>
  </BehaviorTree>
  <BehaviorTree ID="Dock">
    <Timeout msec="500">
      <Grip force="3"/>
    </Timeout>
  </BehaviorTree>
</root>
"""

THREE_ROWS = """\
bt-world 1
fact at 0
fact room_number 12
action ReadAddress timed 0
out room = room_number
action Drive(to) timed 400
sets at = 12
out steps = to - at
action Grip(force) timed 100
fails force > 5
action HandOver timed 0
tick 1
at 400
tick 1
"""

# a ground file, in which one mistake is made at a time
ROOMS = """\
bt-ground 1
sort room kitchen hall
fact at 0
forall R room
condition At_$R is at == #R
end
goal At_hall
"""

# a world to plan in, in which one mistake is made
HOME = """\
bt-world 1
fact at 0
fact light 0
condition AtHome is at == 1
condition Lit is light == 1
action GoHome timed 100
needs Lit
sets at = 1
action Light timed 0
sets light = 1
goal AtHome
"""

# mock rules, in which one mistake is made
STUCK = """\
{
  "TestNodeConfigs": {
    "Stuck": { "return_status": "FAILURE", "async_delay": 250 }
  },
  "SubstitutionRules": {
    "DriveTo/Drive": "Stuck"
  }
}
"""

WITH_A_GOAL = THREE_ROWS.replace("tick 1\n", "condition Home is at == 0\ngoal Home\ntick 1\n", 1)


def changed(text: str, old: str, new: str) -> str:
    """The text with a mistake in it."""
    assert text.count(old) == 1, old
    return text.replace(old, new)
