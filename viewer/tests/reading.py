"""The tests of what helps to read a run: the time line's groups, the chosen node, playing, the search, the address."""
import inputs
from expect import holds, same

ROWS = "return page.timeline.rows.map((row) => row.uid ?? row.title ?? row.series.title)"
LABELS = "return [...document.querySelectorAll('#timeline-labels .of-node')].map((label) => label.textContent)"
PLAYED = """
const done = arguments[0];
const look = () => page.player.isOn ? setTimeout(look, 10) : done(page.count);
page.player.toggle();
look();
"""


class Reading:
    """Tests of small runs and of one of 129 nodes. What they need is in the class that has them."""

    def test_groups_of_the_time_line(self):
        self.show_forest(129, ticks=40)
        self.browser.run("page.go(20); page.timeline.scroller.scrollTop = 0")
        self.browser.boxes()
        labels = self.browser.run(LABELS)
        holds(f"equal names are not told apart: {labels}", any("IsAt" in label and "in GoTo dock" in label for label in labels))
        rows = self.browser.run(ROWS)
        visited = self.browser.run("""return page.run.tree.nodes.slice(1).filter((node) =>
                page.run.changes.of(page.run.place(1, node.uid)).length > 0).map((node) => node.uid)""")
        holds("a row of what was never visited", set(uid for uid in rows if isinstance(uid, int)) <= set(visited))
        self.look("time_line")
        self.browser.find("#rows-visited").click()
        holds("the switch hides them still", len(self.browser.run(ROWS)) > len(rows))
        self.browser.find("#rows-visited").click()
        group = self.browser.run("return page.timeline.rows.find((row) => row.isGroup && page.run.tree.node(row.uid).name === 'PickUp').uid")
        self.browser.run(f"page.timeline.revealRow({group}, 1); page.timeline.draw()")
        self.browser.run("[...document.querySelectorAll('.group-label')].find((label) => label.textContent.includes('PickUp'))"
                         ".querySelector('.label-fold').click()")
        shut = self.browser.run(ROWS)
        size = self.browser.run(f"return page.run.tree.node({group}).size")
        holds("the group's own row is gone", group in shut)
        holds("rows of the group are shown", not any(uid in shut for uid in range(group + 1, group + size)))
        self.look("time_line_shut")

    def test_calls_only(self):
        trace = self.example("pick_and_place")
        self.browser.run("page.go(2)")
        self.browser.find("#calls-only").click()
        block = inputs.blocks_of(trace)[1]
        lines = self.browser.run("return [...document.querySelectorAll('#event-lines .line-text')].map((text) => text.textContent)")
        same("the lines", lines, [line for line in block if line.split()[0] in ("tick", "call", "root")])
        self.browser.run("page.go(3)")
        holds("the choice is kept", self.browser.find("#calls-only").get_attribute("aria-pressed") == "true")

    def test_chosen_node(self):
        self.example("pick_and_place")
        self.browser.run("page.go(2); page.select(8)")
        holds("the value of a port is not told", "{force} = 20" in self.browser.text("#node-facts"))
        same("its counts", self.browser.text("#node-counts").splitlines()[1:], ["so far 2 0 1 0", "in all 3 1 1 1"])
        same("where it stands", self.browser.text("#node-source-title"), "Line 11 of examples/pick_and_place.xml")
        holds("its line is not quoted", '<Grip force="{force}"' in self.browser.text("#node-xml"))
        self.look("chosen_node")
        self.browser.find("#node-next").click()
        holds("no next event", self.browser.run("return page.count") > 2)
        self.browser.run("page.go(1)")
        holds("the value is that of another event", "{force} = 10" in self.browser.text("#node-facts"))
        self.browser.run("page.select(6)")
        same("the lines of a group", self.browser.text("#node-source-title"), "Lines 9 to 12 of examples/pick_and_place.xml")

    def test_visited_again(self):
        """Below a PipelineSequence a leaf that succeeds again changes no status, and is visited nonetheless."""
        tree = '<root><BehaviorTree ID="M"><PipelineSequence><A/><RateController hz="100"><B/></RateController></PipelineSequence></BehaviorTree></root>'
        begin = ["tick 1 at 0", "node 1 IDLE RUNNING", "call 2 start SUCCESS", "node 2 IDLE SUCCESS", "node 3 IDLE RUNNING",
                 "call 4 start RUNNING", "node 4 IDLE RUNNING", "root 1 RUNNING"]
        again = ["tick 1 at 10", "call 2 start SUCCESS", "call 4 running RUNNING", "root 1 RUNNING"]
        end = ["tick 1 at 20", "call 2 start FAILURE", "node 2 SUCCESS FAILURE", "node 2 FAILURE IDLE", "call 4 halted", "node 4 RUNNING IDLE",
               "node 3 RUNNING IDLE", "node 1 RUNNING FAILURE", "root 1 FAILURE", "node 1 FAILURE IDLE"]
        self.show(tree=tree, trace="".join(f"{line}\n" for line in begin + again + end))
        self.browser.run("page.go(2)")
        for uid, counts in ((1, ["so far 1 0 0 0", "in all 1 0 1 0"]), (2, ["so far 2 2 0 0", "in all 3 2 1 0"]),
                            (3, ["so far 1 0 0 0", "in all 1 0 0 1"]), (4, ["so far 1 0 0 0", "in all 1 0 0 1"])):
            self.browser.run(f"page.select({uid})")
            same(f"the counts of node {uid}", self.browser.text("#node-counts").splitlines()[1:], counts)

    def test_signs_of_navigation(self):
        self.example("nav2_to_pose")
        families = "return [1, 2, 3, 12].map((uid) => page.run.tree.node(uid).family)"
        same("the signs", self.browser.run(families), ["recovery", "sequence", "decorator", "rotation"])
        self.browser.boxes()
        same("the letter of a pipeline", self.browser.run("return document.querySelector('.node[data-uid=\"2\"] .sign text').textContent"), "P")
        self.look("navigation")

    def test_values_through_subtrees(self):
        self.example("deliver_mail")
        self.browser.run("page.go(page.length)")
        for uid, port in self.browser.run("""return page.run.tree.nodes.slice(1).flatMap((node) =>
                node.ports.filter(({ value }) => value.startsWith('{')).map((port) => [node.uid, port.name]))"""):
            self.browser.run(f"page.select({uid})")
            facts = self.browser.text("#node-facts")
            holds(f"no value of {port} of node {uid}: {facts}", "no value" not in facts)

    # ---- Playing

    def test_playing(self):
        self.example("pick_and_place")
        self.browser.run("document.getElementById('speed').value = 'events 15'")
        same("where it ends", self.browser.wait(PLAYED), 7)
        self.browser.run("page.go(0); document.getElementById('stop-at').value = 'FAILURE'")
        same("where a failure stops it", self.browser.wait(PLAYED), 2)
        self.browser.run("page.go(0); document.getElementById('stop-at').value = ''; page.select(11)")
        self.browser.press("b")
        holds("the button does not say it", self.browser.find("#node-stop").get_attribute("aria-pressed") == "true")
        same("the mark at the box", len(self.browser.run("return [...document.querySelectorAll('.stop-mark')]")), 1)
        same("where the node stops it", self.browser.wait(PLAYED), 3)
        self.browser.press("b")
        self.browser.run("page.go(0); document.getElementById('speed').value = 'real 10'; window.began = performance.now()")
        same("where it ends in real time", self.browser.wait(PLAYED), 7)
        took = self.browser.run("return performance.now() - window.began")
        holds(f"600 ms ten times as fast took {took:.0f} ms", 55 <= took < 5000)

    def test_jumps(self):
        self.example("battery_guard")
        for key, count in (("h", 3), ("x", 4), ("X", 3), ("H", 3)):
            before = self.browser.run("return page.count")
            self.browser.press(key)
            after = self.browser.run("return page.count")
            holds(f"{key} from event {before} leads to {after}", after != before or count == before)
        self.browser.run("page.go(0)")
        self.browser.find("#next-failure").click()
        lines = self.browser.run("return [...document.querySelectorAll('#event-lines .marked .line-text')].map((text) => text.textContent)")
        holds(f"the failure is not marked: {lines}", len(lines) == 1 and lines[0].endswith("FAILURE"))

    def test_search(self):
        self.show_forest(129)
        self.browser.press("/", *"goto")
        same("the number of hits", self.browser.text(".hits-head"), "6 hits")
        same("the list", len(self.browser.run("return [...document.querySelectorAll('.hit')]")), 6)
        self.browser.press("ENTER", "ENTER")
        same("the number of the hit", self.browser.text(".hits-head"), "2 of 6 hits")
        same("the chosen one", self.browser.text("#node-head strong"), "GoTo kitchen")
        self.look("search")
        self.browser.run("document.querySelectorAll('.hit')[4].click()")
        same("the one that is clicked", self.browser.run("return page.selected"), 75)
        self.browser.press("BACKSPACE", "x", "y")
        holds("it does not say that there is none", "No node" in self.browser.text(".hits-head"))
        self.browser.press("ESCAPE")
        holds("the list stays", not self.browser.find("#hits").is_displayed())

    def test_address(self):
        self.example("pick_and_place")
        self.browser.run("page.go(3); page.select(8)")
        address = self.browser.wait("const done = arguments[0]; setTimeout(() => done(location.href), 500)")
        same("the address", address.split("#")[1], "event=3&node=8")
        self.browser.driver.get("about:blank")
        self.browser.driver.get(address)
        same("what it leads to", self.browser.run("return [page.count, page.selected]"), [3, 8])
        self.browser.run("location.hash = '#event=5&node=2'")
        self.browser.boxes()
        same("where it is changed", self.browser.run("return [page.count, page.selected]"), [5, 2])

    # ---- How it looks

    def test_dark_theme(self):
        self.browser.theme("dark")
        self.view(inputs.DATA / "fault.xml", inputs.DATA / "fault.world")
        self.browser.run("page.go(page.length); page.select(5)")
        self.compare_contrast()
        self.example("fetch_cup")
        self.browser.run("page.go(2); page.select(4)")
        self.compare_contrast()
        ground = self.browser.run("return getComputedStyle(document.body).backgroundColor")
        holds(f"the ground is {ground}", sum(map(int, ground[4:-1].split(","))) < 120)
        self.look("dark")
        self.show_forest(129)
        self.browser.run("page.go(60)")
        self.compare_contrast()
        self.look("dark_rows")

    def test_print_in_the_dark_theme(self):
        self.browser.theme("dark")
        self.show_forest(129)
        self.browser.run("page.go(60); window.dispatchEvent(new Event('beforeprint'))")
        same("the ink", self.browser.run("return getComputedStyle(document.body).color"), "rgb(27, 36, 48)")
        same("the cells", self.browser.run("return document.querySelectorAll('#tree .cell').length"), 129)
        holds("leaves have no names", self.browser.run("return document.querySelector('#tree .cell:not(.group) text').textContent !== ''"))
        self.browser.run("window.dispatchEvent(new Event('afterprint'))")
        holds("it stays light", self.browser.run("return getComputedStyle(document.body).color") != "rgb(27, 36, 48)")

    def test_narrow_window(self):
        self.browser.resize(420, 900)
        self.example("pick_and_place")
        self.browser.run("page.go(2)")
        for selector in ("#position-last", "#help-button", "#search", "#stop-at", "#time-in"):
            right = self.browser.run("return document.querySelector(arguments[0]).getBoundingClientRect().right", selector)
            holds(f"{selector} is cut off at {right}", right <= 420)
        holds("the page is wider than the window", self.browser.run("return document.documentElement.scrollWidth") <= 420)
        self.look("narrow")
