"""A file with its lines, so that a place in it can be told as a line and a column."""

import bisect
import itertools
import os
import stat
from dataclasses import dataclass, field
from typing import List, Optional, Sequence, Tuple

MOST_BYTES = 1_048_576

ORDER_MARK = b"\xef\xbb\xbf"

MISSING = "there is no such file"

MOST_BESIDE = 1000

SORTS = {stat.S_IFDIR: "a folder", stat.S_IFIFO: "a pipe", stat.S_IFSOCK: "a socket"}


@dataclass
class Source:
    """The bytes of a file, and the name by which the user called it."""

    name: str
    data: bytes
    starts: List[int] = field(default_factory=list)
    offsets: Sequence[int] = ()

    def __post_init__(self) -> None:
        self.starts = [0]
        at = self.data.find(b"\n")
        while at >= 0:
            self.starts.append(at + 1)
            at = self.data.find(b"\n", at + 1)

    def byte_of(self, at: int) -> int:
        """The byte at which the character of this number begins, in a file that is UTF-8."""
        if not self.offsets:
            begins = [at for at, byte in enumerate(self.data) if byte & 0xC0 != 0x80] if not self.data.isascii() else range(len(self.data))
            self.offsets = [*begins, len(self.data)]
        return self.offsets[at]

    def line_of(self, at: int) -> int:
        """The line of a place, from 1."""
        return bisect.bisect_right(self.starts, at)

    def position(self, at: int) -> Tuple[int, int]:
        """The line and the column of a place, both from 1; the column counts characters."""
        line = self.line_of(at)
        return line, len(self.front(line, at)) + 1

    def front(self, line: int, at: int) -> str:
        """What stands in the line before the place."""
        return characters(without_mark(self.data[self.starts[line - 1]:at], line))

    def text(self, line: int) -> str:
        """The text of a line, without its end."""
        start = self.starts[line - 1]
        end = self.starts[line] - 1 if line < len(self.starts) else len(self.data)
        return characters(without_mark(self.data[start:end].rstrip(b"\r"), line))

    def span_of_line(self, line: int) -> Tuple[int, int]:
        """The places where the line's content begins and ends, without the white space around it."""
        start = self.starts[line - 1]
        end = self.starts[line] - 1 if line < len(self.starts) else len(self.data)
        text = self.data[start:end]
        left = len(text) - len(text.lstrip(b" \t\r"))
        right = len(text.rstrip(b" \t\r"))
        return start + min(left, right), start + right


def without_mark(line_bytes: bytes, line: int) -> bytes:
    """The bytes of a line, without a byte order mark at the beginning of the file."""
    return line_bytes[3:] if line == 1 and line_bytes.startswith(ORDER_MARK) else line_bytes


def characters(part: bytes) -> str:
    """The characters of some bytes, a sign for each byte that is none."""
    return part.decode("utf-8", "replace")


class Unlike(Exception):
    """A file, of this name, is not as the program has read it: it is a pipe, or has changed since."""


class NoFile(OSError):
    """That a name is one of a pipe or a device, which may have no end and can be read only once."""


def check_file(name: str) -> None:
    """Raises where there is something else than a file, or nothing."""
    mode = os.stat(name).st_mode
    if not stat.S_ISREG(mode):
        raise NoFile(0, f"it is {SORTS.get(stat.S_IFMT(mode), 'a device')}, and only a file is read here", name)


def bytes_of(name: str, most: int = MOST_BYTES) -> bytes:
    """What a file holds, cut one byte after so many, as the program cuts it. Raises where it can't be read; a pipe that
    nobody writes to is not waited for."""
    check_file(name)
    with open(os.open(name, os.O_RDONLY | os.O_NONBLOCK), "rb") as opened:
        return opened.read(most + 1)


def read(name: str) -> Optional[Source]:
    """The file of this name, or none where it can't be read a second time as it was."""
    try:
        return Source(name, bytes_of(name))
    except (OSError, ValueError):
        return None


def why_unreadable(name: str) -> Optional[str]:
    """Why a file of this name can't be read; none where it can, and where it is a pipe or a device."""
    try:
        mode = os.stat(name).st_mode
        if stat.S_ISREG(mode):
            with open(name, "rb"):
                return None
        return "it is a folder" if stat.S_ISDIR(mode) else None
    except OSError as error:
        return reason(name, error)


def complaint(error: "OSError | ValueError") -> str:
    """What is wrong with a file that can't be read, in one line."""
    if isinstance(error, OSError):
        return f"{os.fsdecode(error.filename or '')}: {(error.strerror or 'an error').lower()}"
    return str(error)


def reason(name: str, error: OSError) -> str:
    """What the system says against a file, in words."""
    folder = os.path.dirname(name)
    if isinstance(error, PermissionError):
        return "there is no permission"
    if folder and not os.path.isdir(folder):
        return f"there is no folder {folder}"
    return MISSING if isinstance(error, FileNotFoundError) else (error.strerror or "an error").lower()


def beside(name: str) -> List[str]:
    """The names in the folder in which a file of this name would stand, if they are not very many."""
    try:
        with os.scandir(os.path.dirname(name) or ".") as entries:
            names = sorted(entry.name for entry in itertools.islice(entries, MOST_BESIDE + 1))
    except OSError:
        return []
    return names if len(names) <= MOST_BESIDE else []
