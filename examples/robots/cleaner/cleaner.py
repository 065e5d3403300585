#!/usr/bin/env python3
"""Cleans a floor: the tree of cleaner.xml drives the robot of simulator.py, 20 times a second.

usage: cleaner.py [--record FILE] [--trace FILE] [--svg FILE] [--real-time] [--library]

The clock is that of the simulation, so a minute takes a second, and each run is the same; with --real-time it takes as long
as it would. With --library the engine is no process of its own. The last line tells how it went.
"""
import argparse
import math
import pathlib
import sys
import time

HERE = pathlib.Path(__file__).resolve().parent
sys.path[:0] = [str(HERE), str(HERE.parents[2] / "clients/python")]
from bt_robot import RUNNING, SUCCESS, Robot  # noqa: E402
from simulator import Floor  # noqa: E402

HZ = 20
# Millimetres a second of the wheels, while driving and while turning on the spot.
FAST, SLOW = 300, 150
# Millimetres to a place at which the robot is there.
THERE = 40
# When the battery is to be charged, and when it is full.
LOW, FULL = 30, 99.9


def add_moves(robot, floor):
    """The actions that move the robot."""

    def moving(wheels, goes_on):
        """Drives by these wheels while a test holds; the bumper ends it as a failure. However it ends, the wheels stand."""
        try:
            while goes_on():
                floor.drive(*wheels())
                yield
                if floor.bumped:
                    return False
            return True
        finally:
            floor.drive(0, 0)

    def straight(speed, distance):
        """Drives so far ahead, or back."""
        x, y = floor.x, floor.y
        return moving(lambda: (speed, speed), lambda: floor.distance(x, y) < distance)

    @robot.action("DriveTo")
    def drive_to(x: int, y: int):
        return moving(lambda: towards(floor.bearing(x, y)), lambda: floor.distance(x, y) > THERE)

    @robot.action("BackUp")
    def back_up(distance: int):
        return straight(-SLOW, distance)

    @robot.action("DriveOn")
    def drive_on(distance: int):
        return straight(FAST, distance)

    @robot.action("Turn")
    def turn(degrees: int):
        heading = floor.heading + math.radians(degrees)
        return moving(lambda: (-SLOW, SLOW), lambda: floor.heading < heading)


def towards(bearing):
    """The wheels for a place at this bearing: on the spot until it lies ahead, and then in a curve."""
    if abs(bearing) > 0.4:
        return (-SLOW, SLOW) if bearing > 0 else (SLOW, -SLOW)
    return FAST - 200 * bearing, FAST + 200 * bearing


def add_cleaning(robot, floor):
    """What the robot knows of the floor, and how it cleans it."""

    @robot.condition("FloorIsClean")
    def floor_is_clean():
        return not floor.dirt

    @robot.action("FindDirt")
    def find_dirt(leaf):
        if not floor.dirt:
            return False
        x, y = min(floor.dirt, key=lambda spot: floor.distance(*spot))
        leaf.output("x", x)
        leaf.output("y", y)
        return True

    @robot.action("Vacuum")
    class Vacuum:
        """Sucks until there is a spot less."""

        def on_start(self):
            floor.suction = True
            self.left = len(floor.dirt)
            return self.on_running()

        def on_running(self):
            if len(floor.dirt) == self.left:
                return RUNNING
            self.on_halted()
            return SUCCESS

        def on_halted(self):
            floor.suction = False


def add_battery(robot, floor):
    """The battery: once it is low it is not good again before it is full."""
    is_low = False

    @robot.condition("BatteryOk")
    def battery_ok():
        nonlocal is_low
        is_low = is_low or floor.battery < LOW
        return not is_low

    @robot.action("Charge")
    def charge():
        nonlocal is_low
        while floor.battery < FULL:
            yield
        is_low = False


def main():
    parser = argparse.ArgumentParser(description="Cleans a floor.")
    for name in ("--record", "--trace", "--svg"):
        parser.add_argument(name, metavar="FILE")
    for name in ("--real-time", "--library"):
        parser.add_argument(name, action="store_true")
    words = parser.parse_args()
    floor = Floor()

    def pass_time(seconds):
        if words.real_time:
            time.sleep(seconds)
        floor.step(seconds)

    files = {"record": words.record, "trace": words.trace, "library": words.library}
    with Robot(HERE / "cleaner.xml", **files, clock=lambda: floor.time, sleep=pass_time) as robot:
        add_moves(robot, floor)
        add_cleaning(robot, floor)
        add_battery(robot, floor)
        status = robot.run(HZ)
    if words.svg:
        pathlib.Path(words.svg).write_text(floor.drawing(), encoding="utf-8")
    print(f"{status.value} after {floor.time:.1f} s: {len(floor.dirt)} spots left, {len(floor.bumps)} bumps, battery {floor.battery:.0f}")
    return 0 if status is SUCCESS else 1


if __name__ == "__main__":
    sys.exit(main())
