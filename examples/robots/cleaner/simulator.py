#!/usr/bin/env python3
"""A floor in two dimensions with a cleaning robot on it: two wheels, a bumper, a suction, a battery and a dock.

Lengths are millimetres, angles radians and times seconds; y goes upwards. The same wheels always give the same way.

usage: simulator.py [SVG]

As a program it is the robot of a host in another language: for each line `LEFT RIGHT SUCTION SECONDS` of standard input it
lets so many seconds pass and prints what `sensed` says; at the end it draws the way.
"""
import math
import sys

WIDTH, HEIGHT = 5000, 4000
RADIUS, AXLE = 170, 240
# Boxes that the robot does not know: left, bottom, right and top.
BOXES = [(1700, 1500, 2500, 2300), (3500, 2700, 4000, 3100)]
DOCK = (400, 400)
SPOTS = [(1200, 900), (3000, 700), (4300, 1300), (3200, 2300), (4500, 3500), (2600, 3400), (700, 1700)]
# What is near enough to be sucked up, or to charge, and the seconds that a spot takes.
NEAR, SECONDS_A_SPOT = 120, 1.0
# Hundredths of the battery a second: for standing, for the wheels, for the suction, and from the dock.
STANDING, WHEELS, SUCTION, CHARGING = 0.1, 1.1, 2.0, -12.0


class Floor:
    """The floor, and the robot as it moves."""

    def __init__(self):
        self.x, self.y = map(float, DOCK)
        self.heading, self.battery, self.time = 0.0, 100.0, 0.0
        self.left = self.right = 0.0
        self.suction = self.bumped = False
        self.dirt = {spot: SECONDS_A_SPOT for spot in SPOTS}
        self.way, self.bumps = [(self.x, self.y)], []

    def drive(self, left, right):
        """Sets the speeds of the wheels, in millimetres a second."""
        self.left, self.right = left, right

    def step(self, seconds):
        """Lets time pass. A move that would touch a wall or a box is not made, and presses the bumper."""
        speed = (self.left + self.right) / 2
        self.heading += (self.right - self.left) / AXLE * seconds
        x, y = self.x + speed * math.cos(self.heading) * seconds, self.y + speed * math.sin(self.heading) * seconds
        self.bumped = touches(x, y)
        if self.bumped:
            self.bumps.append((self.x, self.y))
        else:
            self.x, self.y = x, y
        self.work(seconds)
        self.time += seconds
        self.way.append((self.x, self.y))

    def work(self, seconds):
        """What suction, battery and dock do meanwhile."""
        for spot in [spot for spot in self.dirt if self.suction and self.distance(*spot) < NEAR]:
            self.dirt[spot] -= seconds
            if self.dirt[spot] < 1e-6:
                del self.dirt[spot]
        drain = STANDING + WHEELS * bool(self.left or self.right) + SUCTION * self.suction
        if not (self.left or self.right) and self.distance(*DOCK) < NEAR:
            drain = CHARGING
        self.battery = min(100.0, max(0.0, self.battery - drain * seconds))

    def distance(self, x, y):
        """How far a place is."""
        return math.hypot(x - self.x, y - self.y)

    def bearing(self, x, y):
        """By what angle to turn to the left for a place, from minus half a turn to half a turn."""
        angle = math.atan2(y - self.y, x - self.x) - self.heading
        return math.atan2(math.sin(angle), math.cos(angle))

    def sensed(self):
        """What the robot senses, as a line: its place and heading, battery, bumper, and the places of dirt."""
        places = [str(it) for spot in self.dirt for it in spot]
        return " ".join([repr(self.x), repr(self.y), repr(self.heading), repr(self.battery), str(int(self.bumped)), *places])

    def drawing(self):
        """The floor with the robot's way, as SVG."""
        line = " ".join(f"{x:.0f},{HEIGHT - y:.0f}" for x, y in self.way[::4])
        shapes = [rectangle(0, 0, WIDTH, HEIGHT, "#f6f1e7"), *(rectangle(*box, "#8a7f72") for box in BOXES)]
        shapes += [circle(*DOCK, NEAR, "#9fd3a8"), *(circle(*spot, 70, "#b5651d" if spot in self.dirt else "#e8d9c0") for spot in SPOTS)]
        shapes += [f'<polyline points="{line}" fill="none" stroke="#2b6cb0" stroke-width="18" stroke-linejoin="round"/>']
        shapes += [circle(*bump, 45, "#d33") for bump in self.bumps] + [circle(self.x, self.y, RADIUS, "#2b6cb0")]
        return "\n".join([f'<svg xmlns="http://www.w3.org/2000/svg" viewBox="0 0 {WIDTH} {HEIGHT}" width="750" height="600">', *shapes, "</svg>\n"])


def touches(x, y):
    """Whether the robot at this place would touch a wall or a box."""
    if not (RADIUS <= x <= WIDTH - RADIUS and RADIUS <= y <= HEIGHT - RADIUS):
        return True
    return any(math.hypot(x - min(max(x, left), right), y - min(max(y, bottom), top)) < RADIUS for left, bottom, right, top in BOXES)


def rectangle(left, bottom, right, top, colour):
    """A rectangle of the drawing."""
    return f'<rect x="{left}" y="{HEIGHT - top}" width="{right - left}" height="{top - bottom}" fill="{colour}"/>'


def circle(x, y, radius, colour):
    """A circle of the drawing."""
    return f'<circle cx="{x:.0f}" cy="{HEIGHT - y:.0f}" r="{radius}" fill="{colour}"/>'


def main(words):
    """Moves the robot by the lines of standard input."""
    floor = Floor()
    for line in sys.stdin:
        left, right, suction, seconds = map(float, line.split())
        floor.drive(left, right)
        floor.suction = bool(suction)
        floor.step(seconds)
        print(floor.sensed(), flush=True)
    for name in words[:1]:
        with open(name, "w", encoding="utf-8") as file:
            file.write(floor.drawing())


if __name__ == "__main__":
    main(sys.argv[1:])
