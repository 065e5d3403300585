"""Files of expectations that are refused, and expectations that are not met."""

from typing import Tuple

from places_cases import Case, pair

TREE = pair('<Sequence><A name="first"/><SubTree ID="N"/></Sequence>', "<B/>")
WORLD = "bt-world 1\nfact x 1\naction A timed 0\nsets x = 2\naction B timed 10\ntick 1\nat 10\ntick 1\n"


def of(name: str, words: str, place: str, said: Tuple[str, ...], text: str, status: int = 12) -> Case:
    """A file of expectations, which begins with its header, that is refused by these words."""
    return Case(name, status, f"refused expect {words}\n", place, said, TREE, WORLD, "expect T W E", expect="bt-expect 1\n" + text + "\n")


CASES = [
    Case("no header of expectations", 12, "refused expect Header 1\n", "E:1:1:", ("`bt-expect 1`",), TREE, WORLD, "expect T W E", expect="bt-expect 2\n"),
    of("an unknown expectation", "BadLine 2", "E:2:1:", ("no line begins with allways", "did you mean always"), "allways x"),
    of("an expectation without its expression", "BadLine 3", "E:3:7:", ("an expression is missing", "`always EXPR`"), "# x\nalways"),
    of("a status that no call has", "BadLine 2", "E:2:8:", ("RUNNING is none of SUCCESS, FAILURE",), "ends A RUNNING by 5"),
    of("a word that is another", "BadLine 2", "E:2:9:", ("here stands with, and not wiht", "did you mean with"), "never A wiht B"),
    of("an ID that is none", "BadLine 2", "E:2:8:", ("N/B is no ID", "'N/B'"), "starts N/B == 1"),
    of("a name that does not end", "BadLine 2", "E:2:8:", ("does not end",), "starts 'first == 1"),
    of("a name that is not apart", "BadLine 2", "E:2:15:", ("white space stands behind",), "starts 'first'== 1"),
    of("no such fact", "NoName 2", "E:2:8:", ("no fact y", "the facts are x"), "always y == 1"),
    of("no such ID", "NoLeaf 2", "E:2:8:", ("no leaf of the ID C", "A, B"), "starts C == 1"),
    of("a name without quotes", "NoLeaf 2", "E:2:8:", ("no leaf of the ID first", "'first'"), "starts first == 1"),
    of("no such name", "NoLeaf 2", "E:2:16:", ("no leaf of the name 'frist'", "did you mean first"), "order B before 'frist'"),
    of("no such path", "NoLeaf 2", "E:2:8:", ("no path of a leaf matches 'M/*'", "N/B"), "starts 'M/*' == 1"),
    of("no such runner", "NoRunner 2", "E:2:6:", ("no runner 2", "one runner, 1"), "root 2 never SUCCESS"),
    of("a moment out of range", "Range 2", "E:2:4:", ("out of the range of moments",), "at 1000000000001 x"),
    of("a count out of range", "Range 2", "E:2:13:", ("out of the range of counts",), "starts A == -1"),
    of("the first fault by place", "NoLeaf 2", "E:2:7:", ("no leaf of the ID C",), "start C only y"),
    of("too many expectations", "TooMany 1002", "E:1002:1:", ("expectation 1001", "at most 1000"), "always 1\n" * 1000 + "always 1"),
    of("a file of expectations that is too long", "TooLong 0", "E: error:", ("at most 1048576",), "#" * 1048576),
    Case("an expectation that is not met", 13, "pass 2\nfail 4 0\nexpected 1 passed, 1 failed\n", "E:4:1:", ("not met, as was decided at 0 ms",), TREE, WORLD,
         "expect T W E", expect="bt-expect 1\nat 0 x == 2\n\nstarts A == 0\n"),
    Case("no file of expectations", 7, "refused read expect\n", "Z: error:", ("the file of expectations can't be read",), TREE, WORLD, "expect T W Z"),
]
