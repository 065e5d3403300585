"""The tests of large trees: whether they can be read in a window of 1280 by 800, and what follows the run in them."""
import subprocess

import forest
import inputs
from expect import holds, same

WINDOW = (1280, 800)
# A name is legible from this height of its font on, in pixels of the screen.
LEGIBLE = 7.7

# Whether the whole drawing is in the window, and the height of the font of names in cells.
FITS = """
const { camera, arranged, room } = page.tree;
const { left, top, right, bottom } = camera.part(room);
return { isWhole: left <= 0 && top <= 0 && right >= arranged.extent.width && bottom >= arranged.extent.height, font: 11 * camera.scale };
"""
# The names that can be read, each with where it stands: labels, and names in boxes or cells.
NAMES = """
const done = arguments[0];
requestAnimationFrame(() => requestAnimationFrame(() => {
  const window = document.getElementById('tree').getBoundingClientRect();
  done([...document.querySelectorAll('#tree .tag, #tree .node')].filter((group) => {
    const text = group.querySelector('text:not(.small)');
    const box = text?.getBoundingClientRect();
    const font = text ? parseFloat(getComputedStyle(text).fontSize) * (group.matches('.tag') ? 1 : page.tree.camera.scale) : 0;
    return font >= %s && text.closest('.fold') === null && box.left >= window.left - 1 && box.right <= window.right + 1
      && box.top >= window.top - 1 && box.bottom <= window.bottom + 1;
  }).map((group) => Number(group.dataset.uid)));
}));
""" % LEGIBLE
RUNNING_LEAVES = """
const statuses = page.run.statusesAfter(page.count, 1);
return page.run.tree.nodes.slice(1).filter((node) => node.children.length === 0 && statuses[node.uid] === 1).map((node) => node.uid);
"""
GROUPS = "return page.run.tree.nodes.slice(1).filter((node) => node.children.length > 0 && node.family !== 'decorator').map((node) => node.uid)"
# How long a step takes until all is drawn, in the middle of so many.
STEPS = """
const [steps, done] = arguments;
const times = [];
const step = (left) => {
  if (left === 0) return done(times.sort((a, b) => a - b)[Math.floor(steps / 2)]);
  const begin = performance.now();
  page.go(page.count + 1);
  requestAnimationFrame(() => { times.push(performance.now() - begin); setTimeout(() => step(left - 1)); });
};
step(steps);
"""


class LargeTrees:
    """Tests of trees of 129, 300 and 4,096 nodes. What they need is in the class that has them."""

    def show_forest(self, size, ticks=120, **more):
        """Opens a run of a tree of so many nodes, in a window of 1280 by 800."""
        made = forest.Forest(size)
        self.browser.resize(*WINDOW)
        self.show(names=["errands.xml", "errands.world"], tree=made.xml(), source=made.xml(), world=made.world(ticks),
                  trace=made.trace(ticks), exit=0, **more)
        return made

    def names_that_are_legible(self):
        return set(self.browser.wait(NAMES))

    def test_tree_of_300_nodes(self):
        self.show_forest(300)
        self.browser.run("page.go(60)")
        names = self.names_that_are_legible()
        same("the nodes that are shown", len(self.browser.boxes()), 300)
        groups = set(self.browser.run(GROUPS))
        holds(f"groups without a legible name: {sorted(groups - names)}", groups <= names)
        running = set(self.browser.run(RUNNING_LEAVES))
        holds(f"what runs has no legible name: {sorted(running - names)}", running and running <= names)
        holds("the tree is not whole", self.browser.run(FITS)["isWhole"])
        self.look("tree_300")

    def test_tree_of_129_nodes(self):
        self.show_forest(129)
        self.browser.run("page.go(60)")
        inner = {uid for uid in range(1, 130) if uid not in self.browser.run(
            "return page.run.tree.nodes.slice(1).filter((node) => node.family === 'decorator').map((node) => node.uid)")}
        names = self.names_that_are_legible()
        holds(f"nodes without a legible name: {sorted(inner - names)}", inner <= names)
        self.look("tree_129")

    def test_fit(self):
        for size in (300, 4096):
            self.show_forest(size)
            for direction in ("down", "right", "rows"):
                self.browser.find(f"#direction-{direction}").click()
                self.browser.find("#unfold-all").click()
                self.browser.run("page.go(60)")
                self.browser.boxes()
                same(f"whole, {size} nodes, {direction}", self.browser.run(FITS)["isWhole"], True)
                names = self.names_that_are_legible()
                running = set(self.browser.run(RUNNING_LEAVES))
                holds(f"nothing that runs has a legible name, {size} nodes, {direction}", running & names)
                self.look(f"fit_{size}_{direction}")
                self.browser.run("page.tree.zoom(3); page.tree.pan(200, 100)")
                same("a part", self.browser.run(FITS)["isWhole"], False)
                self.browser.press("0")
                same(f"whole again by 0, {size} nodes, {direction}", self.browser.run(FITS)["isWhole"], True)

    def test_small_boxes(self):
        self.show_forest(129)
        self.browser.find("#direction-down").click()
        self.browser.find("#unfold-all").click()
        self.browser.run("page.go(60)")
        self.browser.boxes()
        same("how boxes are drawn", self.browser.run("return page.tree.level"), "tiny")
        blocks = self.browser.run("return [...document.querySelectorAll('.node.block')].map((box) => Number(box.dataset.uid))")
        kinds = self.browser.run("return arguments[0].map((uid) => page.run.tree.node(uid).family)", blocks)
        holds(f"no subtree is one block: {kinds}", set(kinds) == {"subtree"})
        statuses = self.browser.run("return [...document.querySelectorAll('.node.block')].map((box) => box.dataset.status)")
        holds("a subtree that runs is shut in a block", "RUNNING" not in statuses)
        self.browser.run(f"page.select({blocks[0] + 2})")
        holds("the chosen node is shut in a block", blocks[0] + 2 in self.browser.boxes())

    def test_many_leaves_stand_in_rows(self):
        leaves = "".join(f"<Leaf{number}/>" for number in range(40))
        self.browser.resize(*WINDOW)
        self.show(tree=f'<root><BehaviorTree ID="Main"><Sequence>{leaves}</Sequence></BehaviorTree></root>', trace="")
        for direction, across, along in (("down", "x", "y"), ("right", "y", "x")):
            self.browser.run(f"page.choose(() => page.setDirection('{direction}'))")
            places = self.browser.run("return [...page.tree.arranged.places].slice(1).map(([uid, place]) => place)")
            rows = {place[along] for place in places}
            holds(f"{len(rows)} rows, {direction}", 3 <= len(rows) <= 12 and len({place[across] for place in places}) < 40)
            same("boxes", len(self.browser.boxes()), 41)
            self.look(f"leaves_{direction}")

    def test_minimap(self):
        self.show_forest(300)
        shown = "return getComputedStyle(document.querySelector('#tree .minimap')).display !== 'none'"
        self.browser.boxes()
        same("a small picture of what is whole", self.browser.run(shown), False)
        self.browser.run("page.tree.zoom(3)")
        self.browser.boxes()
        same("a small picture of what is not", self.browser.run(shown), True)
        self.look("minimap")
        self.browser.click_at("#tree .minimap", 20, 20)
        self.browser.boxes()
        before = self.browser.run("return page.tree.camera.part(page.tree.room).left")
        self.browser.click_at("#tree .minimap", 140, 80)
        holds("a click does not move the window", self.browser.run("return page.tree.camera.part(page.tree.room).left") > before + 100)

    def test_traces_of_large_trees(self):
        if self.is_stored:
            return  # The traces are made by the tests; this one compares them with those of the program.
        for size, ticks in ((129, 200), (4096, 300)):
            made = forest.Forest(size)
            files = [self.folder / "errands.xml", self.folder / "errands.world"]
            files[0].write_text(made.xml())
            files[1].write_text(made.world(ticks))
            ticked = subprocess.run([self.program, "tick", *files], capture_output=True, text=True)
            holds(f"the trace of {size} nodes is not that of the program", ticked.stdout == made.trace(ticks))

    # ---- What follows the run

    def test_follow_unfolds(self):
        self.show_forest(4096, ticks=200)
        folded = self.browser.run("return page.tree.folds.size")
        holds("nothing is folded", folded > 10)
        seen = []
        for event in (30, 60, 150):
            self.browser.run(f"page.go({event})")
            shown = set(self.browser.run("return page.tree.arranged.shown"))
            running = set(self.browser.run(RUNNING_LEAVES))
            holds(f"what runs is folded after event {event}", running and running <= shown)
            seen.append(running)
        holds("what ran before is not folded again", not seen[0] <= shown)
        self.look("follow")
        edges = self.browser.run("return document.querySelectorAll('#tree .edges.running path').length")
        holds(f"{edges} edges in the colour of what runs", edges >= 3)
        self.browser.run("page.go(0)")
        same("folded at the end as in the beginning", self.browser.run("return page.tree.folds.size"), folded)
        self.browser.find("#follow").click()
        self.browser.run("page.go(60)")
        same("folded where nothing is followed", self.browser.run("return page.tree.folds.size"), folded)

    def test_follow_leaves_what_the_reader_folded(self):
        self.show_forest(129)
        self.browser.run("page.tree.toggleFold(37); page.go(60)")
        holds("what the reader folded was opened", 38 not in self.browser.boxes())

    def test_follow_in_a_plan(self):
        self.browser.resize(700, 560)
        self.view("--plan", inputs.DATA / "key.world")
        for _ in range(4):
            self.browser.press("ARROW_RIGHT")
            added = self.browser.run("return [...page.tree.marked]")
            boxes = self.browser.run("""
                const window = document.getElementById('tree').getBoundingClientRect();
                return [...document.querySelectorAll('#tree .node.added')].filter((group) => {
                  const box = group.getBoundingClientRect();
                  return box.left >= window.left && box.right <= window.right && box.top >= window.top;
                }).map((group) => Number(group.dataset.uid));""")
            holds(f"what was added is not in the window: {added}", boxes and min(added) in boxes)

    # ---- Time

    def test_steps_of_a_large_tree(self):
        self.show_forest(4096, ticks=1500)
        for how in ("rows", "down"):
            self.browser.run(f"page.choose(() => page.setDirection('{how}')); page.go(400)")
            begin = self.browser.processor_seconds()
            took = self.browser.wait(STEPS, 41)
            busy = (self.browser.processor_seconds() - begin) / 41 * 1000
            print(f"  4,096 nodes, {how}: a step takes {took:.0f} ms, with {busy:.0f} ms of the processor")
            holds(f"a step takes {took:.0f} ms", min(took, busy) < self.STEP_MS or self.is_busy())
