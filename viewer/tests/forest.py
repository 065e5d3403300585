"""Trees of any number of nodes with their worlds, and traces of their runs: a robot's errands, one after another."""

# What the rows of the leaves do: for how many milliseconds they run, and how they end, time after time; then as the last.
ROWS = {
    "IsAt": (0, "F"), "PlanPath": (0, "S"), "FollowPath": (300, "S"), "WatchObstacles": (200, "S"), "HandFull": (0, "F"),
    "MoveArm": (200, "S"), "Grip": (100, "FS"), "OpenHand": (0, "S"), "Lift": (100, "S"), "Retreat": (100, "S"),
    "BatteryOk": (0, "SSFSSSFSFSSFS"), "Dock": (200, "S"), "Charge": (400, "S"), "LookLeft": (100, "S"), "LookRight": (100, "S"),
    "IsClean": (0, "FS"), "TakePicture": (0, "S"), "Report": (100, "S"), "CleanUp": (300, "S"), "Tidy": (0, "S"),
}
PERIOD = 100
# The trees that the errands use. A node is its kind, its name or None, and its children; a word alone is a leaf.
GO_TO = ("Fallback", "reach", "IsAt", ("Sequence", "drive", "PlanPath", ("Parallel", None, "FollowPath", "WatchObstacles")))
TREES = {
    "GoTo": GO_TO,
    "PickUp": ("Sequence", "grasp", ("Inverter", None, "HandFull"), "MoveArm",
               ("Fallback", "hold", "Grip", ("Sequence", "once more", "OpenHand", "MoveArm", "Grip")), "Lift"),
    "PutDown": ("Sequence", "release", "MoveArm", "OpenHand", "Retreat"),
    "StayCharged": ("Fallback", "energy", "BatteryOk", ("Sequence", "refill", ("GoTo", "GoTo dock"), "Dock", "Charge")),
    "Inspect": ("Fallback", "inspect", ("Sequence", "look", "LookLeft", "LookRight", "IsClean"),
                ("Sequence", "clean", "TakePicture", "Report", "CleanUp")),
}
ROOMS = ("kitchen", "hall", "office", "lab", "store", "garden", "garage", "attic")
THINGS = ("cup", "book", "parcel", "letter", "plant")
MOST_SCOPES = 250


def errand(number):
    room, other = ROOMS[number % 8], ROOMS[(number * 3 + 1) % 8]
    return ("Sequence", f"Bring {THINGS[number % 5]} {number + 1}", ("StayCharged", None), ("GoTo", f"GoTo {room}"), ("PickUp", None),
            ("GoTo", f"GoTo {other}"), ("PutDown", None), ("Inspect", f"Inspect {other}"))


class Node:
    """A node of the opened tree, and what a run keeps of it."""

    def __init__(self, kind, name, uid):
        self.kind, self.name, self.uid = kind, name, uid
        self.children, self.status, self.next, self.until, self.times = [], "IDLE", 0, 0, 0


class Forest:
    """A tree of so many nodes: errands, and leaves `Tidy` for what is left. `at_once` errands go below one Sequence."""

    def __init__(self, size, at_once=14):
        self.nodes, self.scopes = [], 0
        root = self.add(("Sequence", "Main errands"))
        number, group = 0, root
        while len(self.nodes) + 60 <= size:
            if size > 1000 and number % at_once == 0:
                group = self.add(("Sequence", f"Floor {number // at_once + 1}"), root)
            self.add(errand(number), group)
            number += 1
        while len(self.nodes) < size:
            self.add("Tidy", root)

    def add(self, made, above=None):
        kind, name, *children = (made, None) if isinstance(made, str) else made
        is_scope = kind in TREES and self.scopes < MOST_SCOPES
        self.scopes += is_scope
        if kind in TREES and not is_scope:  # No scope is left: the tree stands there itself.
            kind, children = "Sequence", [TREES[made[0]]]
            name = name or made[0]
        node = Node(kind, name, len(self.nodes) + 1)
        self.nodes.append(node)
        if above:
            above.children.append(node)
        for child in [TREES[kind]] if is_scope else children:
            self.add(child, node)
        return node

    # ---- Its texts

    def xml(self):
        trees = "".join(f'  <BehaviorTree ID="{name}">\n{text_of(made, 4)}  </BehaviorTree>\n' for name, made in TREES.items())
        main = f'  <BehaviorTree ID="Main">\n{self.text_below(self.nodes[0], 4)}  </BehaviorTree>\n'
        return f'<root BTCPP_format="4" main_tree_to_execute="Main">\n{main}{trees}</root>\n'

    def text_below(self, node, indent):
        if node.kind in TREES:
            return mark("SubTree", f' ID="{node.kind}"', node.name, indent, "")
        return mark(node.kind, "", node.name, indent, "".join(self.text_below(child, indent + 2) for child in node.children))

    def world(self, ticks):
        rows = [f"action {name} replay {time} {outcomes}" for name, (time, outcomes) in ROWS.items()]
        events = [line for tick in range(ticks) for line in (f"at {tick * PERIOD}", "tick 1")]
        return "\n".join(["bt-world 1", *rows, *events]) + "\n"

    # ---- Its run

    def trace(self, ticks, **rows):
        """The trace of a run of so many ticks, and its finish. Rows that are given stand in the place of those above."""
        self.lines, self.rows = [], {**ROWS, **rows}
        for node in self.nodes:
            node.times = 0
        for tick in range(ticks):
            self.now = tick * PERIOD
            self.lines.append(f"tick 1 at {self.now}")
            answer = self.tick(self.nodes[0])
            self.lines.append(f"root 1 {answer}")
            if answer != "RUNNING":
                self.change(self.nodes[0], "IDLE")
        self.lines.append(f"finish 1 at {self.now}")
        self.halt(self.nodes[0])
        return "\n".join(self.lines) + "\n"

    def change(self, node, status):
        if node.status != status:
            self.lines.append(f"node {node.uid} {node.status} {status}")
            node.status = status

    def tick(self, node):
        if not node.children:
            return self.call(node)
        if node.status == "IDLE":
            node.next = 0
            self.change(node, "RUNNING")
        answer = self.tick_all(node) if node.kind == "Parallel" else self.tick_on(node)
        if answer != "RUNNING":
            for child in node.children:
                self.halt(child)
        self.change(node, answer)
        return answer

    def tick_all(self, node):
        answers = [child.status if child.status in ("SUCCESS", "FAILURE") else self.tick(child) for child in node.children]
        return "RUNNING" if "RUNNING" in answers else "SUCCESS"

    def tick_on(self, node):
        goes_on = "FAILURE" if node.kind == "Fallback" else "SUCCESS"
        while node.next < len(node.children):
            answer = self.tick(node.children[node.next])
            if node.kind == "Inverter" and answer != "RUNNING":
                return "FAILURE" if answer == "SUCCESS" else "SUCCESS"
            if answer != goes_on:
                return answer
            node.next += 1
        return goes_on

    def call(self, leaf):
        time, outcomes = self.rows[leaf.kind]
        word = "running" if leaf.status == "RUNNING" else "start"
        if word == "start":
            leaf.until = self.now + time
        answer = "RUNNING"
        if self.now >= leaf.until:
            answer = {"S": "SUCCESS", "F": "FAILURE"}[outcomes[min(leaf.times, len(outcomes) - 1)]]
            leaf.times += 1
        self.lines.append(f"call {leaf.uid} {word} {answer}")
        self.change(leaf, answer)
        return answer

    def halt(self, node):
        for child in node.children:
            self.halt(child)
        if node.status == "RUNNING" and not node.children:
            self.lines.append(f"call {node.uid} halted")
        self.change(node, "IDLE")


def mark(kind, attributes, name, indent, below):
    start = f'{" " * indent}<{kind}{attributes}' + (f' name="{name}"' if name else "")
    return f'{start}>\n{below}{" " * indent}</{kind}>\n' if below else f"{start}/>\n"


def text_of(made, indent):
    if isinstance(made, str):
        return mark(made, "", None, indent, "")
    kind, name, *children = made
    if kind in TREES:
        return mark("SubTree", f' ID="{kind}"', name, indent, "")
    return mark(kind, "", name, indent, "".join(text_of(child, indent + 2) for child in children))
