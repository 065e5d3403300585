"""Sessions by chance over the trees of examples/, each of which its record gives again."""

import pathlib
import random

import bt_robot
from bed import TOP, Session, test

# So many sessions of each tree, and cycles of each.
SESSIONS, CYCLES = 3, 25


def prepare():
    """Nothing more is needed."""


class ByChance:
    """An action that ends after some cycles or at once, with outputs."""

    def __init__(self, chance):
        self.chance = chance

    def on_start(self, leaf):
        """Begins."""
        assert not getattr(self, "is_held", False), f"{leaf.path} is started twice"
        self.is_held, self.left = True, self.chance.choice([0, 0, 1, 2, 5])
        return self.on_running(leaf)

    def on_running(self, leaf):
        """Goes on, or ends."""
        if self.left:
            self.left -= 1
            return bt_robot.RUNNING
        self.is_held = False
        for port in leaf.row.outputs:
            leaf.output(port, self.chance.choice([0, 1, 7, -3, "some text", "it's\n€"]))
        return self.chance.random() < 0.7

    def on_halted(self):
        """Stops."""
        assert self.is_held, "what does not run is stopped"
        self.is_held = False


def play(folder, example, seed):
    """A session of an example, whose leaves answer by chance."""
    chance = random.Random(seed)
    world = bt_robot.rows.World(example.with_suffix(".world").read_text())
    it = Session(folder, example)
    for line in map(str.split, world.text.splitlines()):
        id_ = line[1].split("(")[0] if len(line) > 1 else ""
        if line[:1] == ["condition"]:
            it.robot.condition(id_)(lambda: chance.random() < 0.5)
        elif line[:1] == ["action"]:
            it.robot.action(id_, chance)(ByChance)
    try:
        for _ in range(CYCLES):
            it.ticks(1, chance.choice([0, 0.01, 0.3, 1]))
            if chance.random() < 0.05:
                it.robot.halt()
    except bt_robot.Fault:
        # (a text where the tree counts, or an entry that is not there yet)
        pass
    it.check_replay()


def add_tests():
    """A test for each example that has a world."""
    for example in sorted(pathlib.Path(TOP / "examples").glob("*.xml")):
        if example.with_suffix(".world").exists():
            def played(folder, example=example):
                for seed in range(SESSIONS):
                    play(folder, example, f"{example.stem} {seed}")
            globals()[f"by_chance_{example.stem}"] = test(played)


add_tests()
