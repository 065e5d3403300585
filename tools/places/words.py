"""The words of the program's command line: which command they are, or which of them is wrong."""

from dataclasses import dataclass, field
from typing import Dict, Iterator, List, Optional, Tuple

from .near import meant
from .values import number


@dataclass(frozen=True)
class Form:
    """A command: what stands after its word, and what may stand there too; which options it takes and needs, and the ranges of
    its numbers. An option that `VALUES` does not have stands alone."""

    operands: Tuple[str, ...]
    options: Tuple[str, ...] = ()
    needed: Tuple[str, ...] = ()
    ranges: Dict[str, Tuple[int, int]] = field(default_factory=dict)
    more: Tuple[str, ...] = ()
    many: Tuple[str, ...] = ()

    def named(self, rest: List[str]) -> Tuple[str, ...]:
        """What the words after the command name, before the first option. `many` is named by each of them that is left."""
        count = len(self.operands)
        if self.many:
            left = next((place for place, word in enumerate(rest[count:]) if word in self.options), len(rest[count:]))
            return self.operands + self.many * left
        return self.operands + (self.more if rest[count:] and rest[count] not in self.options else ())

    def usage(self, name: str) -> str:
        """The command as a line."""
        options = [said(option) if option in self.needed else f"[{said(option)}]" for option in self.options]
        many = [word for it in self.many for word in (it, f"{it}..")]
        return " ".join(["bt", name, *self.operands, *(f"[{it}]" for it in self.more), *many, *options])


VALUES = {"--main": "ID", "--ticks": "N", "--expand": "N", "--period": "MS"}


def said(option: str) -> str:
    """An option with what stands after it."""
    return f"{option} {VALUES[option]}" if option in VALUES else option


PLANNING = Form(("WORLD",), ("--expand", "--ticks", "--period"),
                ranges={"--expand": (0, 120), "--ticks": (1, 10_000), "--period": (0, 1_000_000)})

# the command of two words
PRINTING = "mock --print"

COMMANDS: Dict[str, Form] = {
    "tick": Form(("TREE", "WORLD"), ("--main",)),
    "live": Form(("TREE", "WORLD"), ("--ticks", "--main"), ("--ticks",), {"--ticks": (1, 100_000)}),
    "check": Form(("TREE",), ("--main", "--strict")),
    "dead": Form(("TREE",), ("--main",)),
    "exclusive": Form(("TREE",), ("--main",), many=("ID",)),
    "serve": Form(("TREE",), ("--main",), more=("WORLD",)),
    "load": Form(("N",), ranges={"N": (1, 1_000)}),
    "plan": PLANNING,
    "mock": Form(("TREE", "WORLD", "RULES"), ("--main",)),
    PRINTING: Form(("TREE", "RULES"), ("--main",)),
    "expect": Form(("TREE", "WORLD", "EXPECT"), ("--main",)),
    "ground": Form(("WORLD",)),
    "gplan": Form(("WORLD",), PLANNING.options, ranges=PLANNING.ranges),
}


@dataclass(frozen=True)
class Command:
    """A command with the files and the main tree that its words name, and whether a warning counts as an error."""

    name: str
    tree: Optional[str]
    world: Optional[str]
    rules: Optional[str]
    main: Optional[str]
    is_strict: bool = False
    expect: Optional[str] = None


def parted(words: List[str]) -> Tuple[str, List[str]]:
    """The name of a command, and the words after it."""
    count = 2 if words[:2] == PRINTING.split() else 1
    return " ".join(words[:count]), words[count:]


def command_of(words: List[str]) -> Optional[Command]:
    """The command that the words are, if they are one."""
    name, rest = parted(words)
    if name not in COMMANDS or wrong(words) is not None:
        return None
    operands = dict(zip(COMMANDS[name].named(rest), rest))
    options = dict(options_in(rest[len(operands):]))
    return Command(name, operands.get("TREE"), operands.get("WORLD"), operands.get("RULES"), options.get("--main"), "--strict" in options,
                   operands.get("EXPECT"))


def wrong(words: List[str]) -> Optional[str]:
    """What is wrong with the words, if they are no command."""
    if not words:
        return "a command is missing"
    for word in words:
        if not is_utf8(word):
            return f"'{word}' is not UTF-8"
    name, rest = parted(words)
    form = COMMANDS.get(name)
    if form is None:
        asked = meant(name, [it for it in COMMANDS if it != PRINTING])
        return f"'{name}' is no command" + "".join(": " + line for line in asked)
    if len(rest) < len(form.operands):
        return f"{name}: {form.operands[len(rest)]} is missing"
    if form.operands == ("N",) and not in_range(form, "N", rest[0]):
        return out_of_range(name, form, "N", rest[0])
    count = len(form.named(rest))
    if form.many and count == len(form.operands):
        return f"{name}: {form.many[0]} is missing"
    problem = wrong_options(name, form, rest[count:])
    early = [word for word in rest[:count] if word in form.options]
    return f"{name}: {early[0]} comes after the files" if problem is not None and early else problem


def options_in(rest: List[str]) -> Iterator[Tuple[str, Optional[str]]]:
    """The options that words are, each with its value: none of one that stands alone, or where the words end before it. A word
    that is no option stands alone."""
    words = iter(rest)
    for word in words:
        yield word, next(words, None) if word in VALUES else None


def wrong_options(name: str, form: Form, rest: List[str]) -> Optional[str]:
    """What is wrong with the words after the operands."""
    seen = []
    for word, value in options_in(rest):
        if f"{name} {word}" == PRINTING:
            return f"{name}: {word} comes before the files"
        if word not in form.options:
            what = f"'{word}' is no option of it" if word.startswith("-") else f"'{word}' is one word too many"
            return f"{name}: {what}" + "".join(": " + line for line in meant(word, form.options))
        if word in seen:
            return f"{name}: {word} stands twice"
        if word in VALUES and value is None:
            return f"{name}: after {word} its {VALUES[word]} is missing"
        if word in form.ranges and not in_range(form, word, value or ""):
            return out_of_range(name, form, word, value or "")
        seen.append(word)
    missing = [option for option in form.needed if option not in seen]
    return f"{name}: {said(missing[0])} is missing" if missing else None


def in_range(form: Form, what: str, word: str) -> bool:
    """Whether the word is a number in the range of an option or an operand."""
    value = number(word)
    least, most = form.ranges[what]
    return value is not None and least <= value <= most


def out_of_range(name: str, form: Form, what: str, word: str) -> str:
    """That a number is none, or out of its range."""
    least, most = form.ranges[what]
    return f"{name}: {what} is a number from {least} to {most} without a leading zero, and not '{word}'"


def is_utf8(word: str) -> bool:
    """Whether a word of the command line is UTF-8."""
    try:
        word.encode("utf-8")
    except UnicodeEncodeError:
        return False
    return True


def usage() -> List[str]:
    """The commands, a line each."""
    lines = [form.usage(name) for name, form in COMMANDS.items()]
    return ["usage: " + lines[0]] + ["       " + line for line in lines[1:]]
