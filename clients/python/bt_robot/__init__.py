"""Drives a robot by a behavior tree: the engine runs the tree, as a process or as a library, and the leaves are functions and
classes of the robot's own program. How they are written is in README.md beside this folder."""

from .acting import LeafError
from .engine import EngineLost, Fault, Refused
from .leaves import FAILURE, IDLE, RUNNING, SKIPPED, SUCCESS, BadLeaf, BadValue, Leaf, NoEntry, NoInput, Status
from .robot import Robot, Unregistered

__all__ = ["BadLeaf", "BadValue", "EngineLost", "FAILURE", "Fault", "IDLE", "Leaf", "LeafError", "NoEntry", "NoInput", "RUNNING",
           "Refused", "Robot", "SKIPPED", "SUCCESS", "Status", "Unregistered"]
