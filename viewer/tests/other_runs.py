"""The tests of a run that goes on, and of two runs side by side."""
import os
import pathlib
import signal
import subprocess
import sys
import urllib.error
import urllib.request

import forest
from expect import holds, same
from inputs import EXAMPLES, TOP

# Prints a stored trace, and waits before each event until a line comes on a pipe.
SLOWLY = """
import sys
pipe = open(sys.argv[2])
for number, line in enumerate(open(sys.argv[1])):
    if line.split()[0] in ("tick", "set", "tell", "halt", "finish") and number > 0:
        pipe.readline()
    sys.stdout.write(line)
    sys.stdout.flush()
sys.exit(5)
"""
COUNTED = "const [count, done] = arguments; const look = () => page.length >= count ? done(page.count) : setTimeout(look, 20); look()"
ENDED = "const done = arguments[0]; const look = () => page.live?.source.readyState === 2 ? done() : setTimeout(look, 20); look()"


def status_of(link, method="GET", **headers):
    """The status of an answer to a request."""
    try:
        with urllib.request.urlopen(urllib.request.Request(link, method=method, headers=headers), timeout=10) as answer:
            return answer.status
    except urllib.error.HTTPError as fault:
        return fault.code


class OtherRuns:
    """What they need is in the class that has them."""

    def served(self, *words, **options):
        """`./view --live` with these words, and the link that it prints."""
        call = subprocess.Popen([TOP / "view", "--live", "0", *words], env={**os.environ, "BT": self.program},
                                stdout=subprocess.PIPE, text=True, **options)
        return call, call.stdout.readline().strip()

    def stop(self, call):
        call.send_signal(signal.SIGINT)
        return call.wait(10)

    def test_live_run(self):
        tree, world, trace = (EXAMPLES / f"pick_and_place.{end}" for end in ("xml", "world", "trace"))
        pipe = self.folder / "pipe"
        os.mkfifo(pipe)
        call, link = self.served(tree, world, "--", sys.executable, "-c", SLOWLY, trace, pipe)
        with open(pipe, "w") as steps:
            self.browser.driver.get(link)
            same("the first event is followed", self.browser.wait(COUNTED, 1), 1)
            for count in (2, 3):
                print(file=steps, flush=True)
                same("the next event is followed", self.browser.wait(COUNTED, count), count)
            self.look("live")
            self.browser.press("ARROW_LEFT")
            same("it is followed no more", self.browser.find("#live").get_attribute("aria-pressed"), "false")
            print(file=steps, flush=True)
            same("the event before stays", self.browser.wait(COUNTED, 4), 2)
            self.browser.press("l")
            same("it is followed again", self.browser.run("return [page.count, page.live.isFollowing]"), [4, True])
            # Another page has all that came before.
            self.browser.driver.get(link)
            same("what was is kept", self.browser.wait(COUNTED, 4), 4)
            print("\n" * 9, file=steps, flush=True)
        self.browser.wait(ENDED)
        same("the state at the end", self.browser.text("#live"), "Ended")
        same("the result", self.browser.text("#result"), "Status 5: the run ended in a fault")
        self.compare(trace.read_text())
        same("the status", self.stop(call), 5)

    def test_live_run_from_standard_input(self):
        tree, world, trace = (EXAMPLES / f"fetch_cup.{end}" for end in ("xml", "world", "trace"))
        with open(trace) as lines:
            call, link = self.served(tree, world, stdin=lines)
        self.browser.driver.get(link)
        self.browser.wait(ENDED)
        self.compare(trace.read_text())
        same("the status", self.stop(call), 0)

    def test_live_run_that_is_cut_off(self):
        trace = (EXAMPLES / "fetch_cup.trace").read_text()[:200]
        lines = self.folder / "lines"
        lines.write_text(trace)
        with open(lines) as source:
            call, link = self.served(EXAMPLES / "fetch_cup.xml", EXAMPLES / "fetch_cup.world", stdin=source)
        self.browser.driver.get(link)
        self.browser.wait(ENDED)
        holds("the page does not say it", "cut off" in self.browser.text("#cut"))
        self.compare(trace.rsplit("\n", 1)[0] + "\n")
        self.stop(call)

    def test_live_run_that_does_not_fit(self):
        lines = self.folder / "lines"
        lines.write_text("tick 1 at 0\nnode 1 IDLE RUNNING\nnode 1 IDLE SUCCESS\n")
        with open(lines) as source:
            call, link = self.served(EXAMPLES / "fetch_cup.xml", EXAMPLES / "fetch_cup.world", stdin=source)
        self.browser.driver.get(link)
        self.browser.wait("const done = arguments[0]; const look = () => page.live?.isBroken ? done() : setTimeout(look, 20); look()")
        same("the message", self.browser.text("#message h2"), "Line 3 of the trace does not fit")
        self.stop(call)

    def test_who_may_read_a_live_run(self):
        call, link = self.served(EXAMPLES / "fetch_cup.xml", stdin=subprocess.DEVNULL)
        holds(f"the link is {link}", link.startswith("http://127.0.0.1:"))
        top, token = link.rsplit("/", 2)[:2]
        holds("the token is short", len(token) >= 20)
        same("the link", status_of(link), 200)
        for other in (f"{top}/", f"{top}/events", f"{top}/{token}x/", f"{link}../view", f"{link}run"):
            same(other, status_of(other), 404)
        same("a name that leads here", status_of(link, Host="robots.example"), 403)
        for method in ("POST", "PUT", "DELETE"):
            same(f"{method} is answered", status_of(link, method), 501)
        sockets = pathlib.Path(f"/proc/{call.pid}/net/tcp").read_text()
        port = f"{int(top.rsplit(':', 1)[1]):04X}"
        listening = {line.split()[1] for line in sockets.splitlines() if f":{port} " in line and line.split()[3] == "0A"}
        same("where it listens", listening, {f"0100007F:{port}"})
        self.stop(call)

    # ---- Two runs

    def test_compared_runs(self):
        made, other = forest.Forest(129), forest.Forest(129)
        trace = other.trace(120, Grip=(100, "S"))
        part = next(at for at, (one, two) in enumerate(zip(made.trace(120).split("\ntick"), trace.split("\ntick"))) if one != two)
        self.show_forest(129, other=trace, otherName="grip_holds.trace")
        holds("the event is not told", f"part at event {part + 1}" in self.browser.text("#parted"))
        self.browser.find("#go-part").click()
        same("the event", self.browser.run("return page.count"), part + 1)
        holds("no line is marked", len(self.browser.run("return [...document.querySelectorAll('#event-lines .parted')]")) > 0)
        holds("no line of the other is marked", len(self.browser.run("return [...document.querySelectorAll('#other-lines .parted')]")) > 0)
        self.browser.boxes()
        statuses = "return [...document.querySelectorAll(arguments[0])].map((box) => [box.dataset.uid, box.dataset.status])"
        one, two = (dict(self.browser.run(statuses, f"{host} .node")) for host in ("#tree", "#tree-other"))
        holds("both trees are the same", one != two and one.keys() == two.keys())
        self.look("compared")
        self.browser.run("page.tree.toggleFold(2); page.tree.zoom(1.5)")
        self.browser.boxes()
        cameras = self.browser.run("return [page.tree, page.comparison.view].map(({ camera: { scale, x, y }, folds }) => [scale, x, y, folds.has(2)])")
        same("what the other tree shows", cameras[1], cameras[0])
        self.browser.run("page.go(3)")
        same("lines that are marked before", len(self.browser.run("return [...document.querySelectorAll('.line.parted')]")), 0)

    def test_another_run_after_compared_ones(self):
        self.show_forest(129, other=forest.Forest(129).trace(120, Grip=(100, "S")))
        trace = (EXAMPLES / "fetch_cup.trace").read_text()
        self.browser.run("page.openData({ tree: arguments[0], trace: arguments[1] })", (EXAMPLES / "fetch_cup.xml").read_text(), trace)
        holds("the other tree is still there", not self.browser.find("#tree-other").is_displayed())
        self.compare(trace)

    def test_compared_with_a_file(self):
        cut = self.folder / "shorter.trace"
        lines = (EXAMPLES / "fetch_cup.trace").read_text().splitlines(keepends=True)
        last = max(number for number, line in enumerate(lines) if line.startswith(("tick", "set", "tell", "finish")))
        cut.write_text("".join(lines[:last]))
        status, _ = self.view(EXAMPLES / "fetch_cup.xml", EXAMPLES / "fetch_cup.world", "--compare", str(cut))
        same("the status", status, 0)
        holds("it is not said", "One run ends before event 9" in self.browser.text("#parted"))
        cut.write_text("tick 1 at 0\nnode 9 IDLE RUNNING\n")
        self.view(EXAMPLES / "fetch_cup.xml", EXAMPLES / "fetch_cup.world", "--compare", str(cut))
        same("a trace of another tree", self.browser.text("#message h2"), "Line 2 of the other trace does not fit")
