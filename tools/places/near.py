"""Names that are near a name, for one that was misspelled. What is compared is bounded, so that no file makes it long."""

from typing import Iterable, List

# a longer name is compared by its beginning alone, and at most so many of its letters may be others
MOST_LETTERS, MOST_FAR = 80, 8

# how many pairs of letters are compared for one message or for all warnings of a call; names that come later are near none
MOST_COMPARED = 300_000

# a name counts as so many pairs before its letters are looked at
EACH = 5


class Effort:
    """How many pairs of letters may still be compared."""

    left = MOST_COMPARED

    @classmethod
    def begin(cls) -> None:
        """Begins anew, for the next message or the warnings of the next call."""
        cls.left = MOST_COMPARED

    @classmethod
    def takes(cls, count: int) -> bool:
        """Whether so much may be compared; then it counts."""
        if count > cls.left:
            return False
        cls.left -= count
        return True


def distance(one: str, other: str, most: int) -> int:
    """How many letters must change, come, go or swap to make one of the other; above `most` it does not count on. Only
    letters whose places differ by no more than that are compared."""
    beyond = most + 1
    if abs(len(one) - len(other)) > most:
        return beyond
    before: List[int] = []
    row = list(range(len(other) + 1))
    for i, letter in enumerate(one, 1):
        earlier, before, row = before, row, [i] + [beyond] * len(other)
        for j in range(max(1, i - most), min(len(other), i + most) + 1):
            cost = min(before[j] + 1, row[j - 1] + 1, before[j - 1] + (letter != other[j - 1]))
            if i > 1 and j > 1 and letter == other[j - 2] and one[i - 2] == other[j - 1]:
                cost = min(cost, earlier[j - 2] + 1)
            row[j] = cost
        if min(row) > most or not Effort.takes(most + beyond):
            return beyond
    return row[-1]


def plain(name: str) -> str:
    """The letters of a name, all small, without what is easily left out."""
    return name.lower().replace("_", "").replace("-", "").replace(" ", "")


def near(name: str, names: Iterable[str], count: int = 3) -> List[str]:
    """The names that are near this one, the nearest first."""
    wanted = plain(name[:2 * MOST_LETTERS])
    most = min(max(len(wanted) > 1, len(wanted) // 3), MOST_FAR)
    found = []
    for other in dict.fromkeys(names):
        if not Effort.takes(EACH):
            break
        letters = plain(other[:2 * MOST_LETTERS])
        is_short = len(wanted) <= MOST_LETTERS and len(letters) <= MOST_LETTERS
        far = distance(wanted, letters, most) if is_short else most + 1
        begins = len(wanted) > 2 and (letters.startswith(wanted) or wanted.startswith(letters) and len(letters) > 2)
        if other != name and (far <= most or begins):
            found.append((far, other))
    return [other for _, other in sorted(found)[:count]]


def said(names: Iterable[str]) -> str:
    """Names as a list of words: `a`, `b` or `c`."""
    names = list(names)
    if len(names) < 2:
        return "".join(names)
    return ", ".join(names[:-1]) + " or " + names[-1]


def meant(name: str, names: Iterable[str]) -> List[str]:
    """A line that asks whether one of the near names was meant, or none."""
    found = near(name, names)
    return [f"did you mean {said(found)}?"] if found else []


def listed(names: Iterable[str], most: int = 12) -> str:
    """Names one after another, cut where they are many."""
    names = list(names)
    more = f" and {len(names) - most} more" if len(names) > most else ""
    return ", ".join(names[:most]) + more
