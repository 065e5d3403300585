"""What is left when a process ends, is slow, or says what it may not."""

import os
import pathlib
import re
import signal
import subprocess
import sys
import threading
import time

import bt_robot
from bed import PATIENCE, Bed, Session, of_pipes, python_host, raised, same, test, tree_file

# A session in which two actions run beside one another, one ends with a text, and one is halted.
TREE = '<Parallel><A s="{s}"/><ReactiveSequence><C/><B/></ReactiveSequence></Parallel>'
WORLD = "bt-world 1\ncondition C told\naction A told\nout s\naction B told\n"
LINES = ["tell 1 4 SUCCESS", "tick 1", "at 50", "tick 1", "tell 1 2 SUCCESS s='it\\'s \\x0a'", "tell 1 4 SUCCESS", "tick 1", "at 70", "tick 1"]
EVENTS = 1_000_000


def prepare():
    """Nothing more is needed."""


def files(folder):
    """The tree and the world of the session."""
    (folder / "world").write_text(WORLD)
    return [tree_file(folder, TREE), folder / "world"]


def serve(folder, said, **how):
    """What the engine answers to bytes, and its status."""
    ran = subprocess.run([Bed.program, "serve", *files(folder)], input=said, stdout=subprocess.PIPE, timeout=PATIENCE, **how)
    return ran.returncode, ran.stdout.decode()


def check_stops(printed):
    """Each action that was held has ended or was stopped, once."""
    held = set()
    for uid, what in re.findall(r"^(?:call|quench 1) (\d+)(.*)$", printed, re.M):
        if what.endswith(" RUNNING"):
            held.add(uid)
        elif uid in held:
            held.remove(uid)
        else:
            assert what.startswith(" start"), (uid, what)
    same(held, set())


@of_pipes
def every_prefix_of_a_session_ends_it(folder):
    said = "".join(f"{line}\n" for line in LINES).encode()
    for size in range(len(said) + 1):
        status, printed = serve(folder, said[:size])
        check_stops(printed)
        is_whole = size == 0 or said[size - 1:size] == b"\n"
        same(status, 0 if is_whole else 11)
        same(printed.splitlines().count("ok"), said[:size].count(b"\n"))
        assert is_whole or f"refused request End {said[:size].count(10) + 1}\n" in printed, printed


@of_pipes
def a_wrong_line_stops_the_robot(folder):
    for line, kind in [("tock 1", "BadLine"), ("tick 2", "NoRunner"), ("at 10", "MomentBack"), ("tell 1 1 SUCCESS", "NoLeaf"), ("set x 1", "NoName"),
                       ("tell 1 2 SUCCESS t=1", "NoOutput"), ("at 1000000000001", "Range")]:
        status, printed = serve(folder, "".join(f"{it}\n" for it in [*LINES[:4], line, "tick 1"]).encode())
        same((status, f"refused request {kind} 5" in printed.splitlines()), (11, True))
        check_stops(printed)
        assert "\ncall 2 halted\n" in printed, printed


@of_pipes
def a_line_has_65536_bytes_at_most(folder):
    for size, wanted in [(65536, 0), (65537, 11)]:
        line = "tick" + " " * (size - 5) + "1"
        status, printed = serve(folder, f"{line}\n".encode())
        same((status, "refused request TooLong 1" in printed), (wanted, wanted == 11))
        check_stops(printed)


@of_pipes
def a_host_that_is_killed_stops_its_robot(folder):
    for count in range(1, len(LINES) + 1):
        text = "".join(f"{line}\n" for line in LINES[:count])
        code = f"import sys, time\nsys.stdout.write({text!r})\nsys.stdout.flush()\ntime.sleep({PATIENCE})"
        host = subprocess.Popen([sys.executable, "-c", code], stdout=subprocess.PIPE)
        with open(folder / "printed", "wb") as printed:
            engine = subprocess.Popen([Bed.program, "serve", *files(folder)], stdin=host.stdout, stdout=printed)
        host.stdout.close()
        wait_for(lambda: (folder / "printed").read_text().splitlines().count("ok") == count)
        host.kill()
        host.wait()
        same(engine.wait(PATIENCE), 0)
        check_stops((folder / "printed").read_text())


def wait_for(holds):
    """Waits until something holds."""
    end = time.monotonic() + PATIENCE
    while not holds():
        assert time.monotonic() < end, "it never comes"
        time.sleep(0.01)


def child_of(host):
    """The engine of a host."""
    for path in pathlib.Path("/proc").glob("[0-9]*/stat"):
        try:
            words = path.read_text().rsplit(")", 1)[1].split()
        except (FileNotFoundError, ProcessLookupError):
            continue
        if int(words[1]) == host and words[0] != "Z":
            yield int(path.parent.name)


@of_pipes
def an_engine_that_is_killed_is_told_and_all_stops(folder):
    it = Session(folder, "<Parallel><A/><B/></Parallel>")
    it.lasting("A", 9)
    it.lasting("B", 9)
    same(it.ticks(1), ["RUNNING"])
    for pid in child_of(os.getpid()):
        os.kill(pid, signal.SIGKILL)
    raised(bt_robot.EngineLost, lambda: it.ticks(1))
    same(it.log, ["A starts", "B starts", "A stops", "B stops"])


def heed_interrupts():
    """Lets a process be interrupted that is started by one in the background, which ignores it."""
    signal.signal(signal.SIGINT, signal.SIG_DFL)


@test
def an_interrupted_host_stops_its_robot(folder):
    tree = tree_file(folder, "<A/>")
    host = subprocess.Popen(python_host(folder, f"""
robot = Robot({str(tree)!r}, engine=[{Bed.program!r}], library={Bed.is_in_process}, record={str(folder / "record")!r}, trace={str(folder / "trace")!r})
@robot.action("A")
def a():
    try:
        print("starts", flush=True)
        while True:
            yield
    finally:
        print("stops", flush=True)
robot.run(hz=100)
"""), stdout=subprocess.PIPE, stderr=subprocess.PIPE, text=True, preexec_fn=heed_interrupts)
    same(host.stdout.readline(), "starts\n")
    host.send_signal(signal.SIGINT)
    printed, said = host.communicate(timeout=PATIENCE)
    same((printed, "KeyboardInterrupt" in said), ("stops\n", True))
    assert "call 1 halted" in (folder / "trace").read_text()


def slow_engine(folder, pause):
    """The command of an engine that waits before it passes on each line that it is told."""
    path = folder / "slow"
    path.write_text(f"""#!{sys.executable}
import os, subprocess, sys, time
if sys.argv[1] != "serve":
    os.execv({Bed.program!r}, [{Bed.program!r}, *sys.argv[1:]])
engine = subprocess.Popen([{Bed.program!r}, *sys.argv[1:]], stdin=subprocess.PIPE)
for line in iter(sys.stdin.buffer.readline, b""):
    time.sleep({pause})
    engine.stdin.write(line)
    engine.stdin.flush()
engine.stdin.close()
sys.exit(engine.wait())
""")
    path.chmod(0o755)
    return [str(path)]


@of_pipes
def an_engine_that_is_slow_is_waited_for(folder):
    it = Session(folder, "<Sequence><A/><B/></Sequence>", engine=slow_engine(folder, 0.05))
    it.lasting("A", 2)
    it.done("B")
    same(it.ticks(3), ["RUNNING", "RUNNING", "SUCCESS"])
    it.check_replay()


@of_pipes
def an_engine_that_is_stuck_is_lost_and_all_stops(folder):
    it = Session(folder, "<A/>", engine=slow_engine(folder, "0 if b'tick' in line else 3600"), patience=2)
    it.lasting("A", 9)
    same(it.ticks(1), ["RUNNING"])
    raised(bt_robot.EngineLost, lambda: it.ticks(1))
    same(it.log, ["A starts", "A stops"])


@of_pipes
def an_engine_whose_output_is_closed_ends(folder):
    engine = subprocess.Popen([Bed.program, "serve", *files(folder)], stdin=subprocess.PIPE, stdout=subprocess.PIPE, bufsize=0)
    engine.stdout.close()
    try:
        engine.stdin.write(b"tick 1\n" * 100)
    except BrokenPipeError:
        pass
    same(engine.wait(PATIENCE) in (8, -signal.SIGPIPE), True)
    engine.stdin.close()


@of_pipes
def a_million_events_take_no_more_memory_than_a_thousand(folder):
    (folder / "world").write_text("bt-world 1\ncondition C told\n")
    tree = tree_file(folder, "<C/>")

    def run(count):
        """The most memory of a session of so many ticks, in KiB."""
        engine = subprocess.Popen([Bed.program, "serve", tree, folder / "world"], stdin=subprocess.PIPE, stdout=subprocess.PIPE)
        asking = threading.Thread(target=write_ticks, args=(engine.stdin, count))
        asking.start()
        oks = sum(line == b"ok\n" for line in engine.stdout)
        asking.join()
        _, status, used = os.wait4(engine.pid, 0)
        engine.returncode = status
        same((status, oks), (0, count))
        return used.ru_maxrss

    assert run(EVENTS) <= run(1000) + 512


def write_ticks(into, count):
    """Writes so many ticks."""
    for done in range(0, count, 1000):
        into.write(b"tick 1\n" * min(1000, count - done))
    into.close()


@test
def no_text_forges_a_line(folder):
    it = Session(folder, '<Sequence><A name="x&#10;call 2 halted&#10;ok" s="{s}"/><B s="{s}"/></Sequence>')
    text, seen = "'\nok\ncall 2 halted\nrefused request BadLine 1\n", []
    it.robot.action("A")(lambda leaf: leaf.output("s", text))

    @it.robot.action("B")
    def b(s):
        seen.append(s)
        yield

    same((it.ticks(2), seen), (["RUNNING", "SUCCESS"], [text]))
    it.check_replay()
