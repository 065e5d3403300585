"""Scripts and expressions, with the place of each token and of what is wrong."""

import re
from dataclasses import dataclass
from typing import Iterator, List, Optional, Tuple

MOST_BYTES = 4096

MOST_HEIGHT = 64

LARGEST = 9223372036854775807

TOKEN = re.compile(
    rb"(?P<white>[ \t\r\n]+)|(?P<name>[A-Za-z_][A-Za-z0-9_]*)|(?P<number>0[xX][0-9A-Fa-f]+|[0-9]+)"
    rb"|(?P<text>'[^']*')|(?P<sign>:=|==|!=|<=|>=|&&|\|\||[-+*/]=|[-=+*/!&|^~<>?:();])")

ASSIGNS = (":=", "=", "+=", "-=", "*=", "/=")

UNARY = ("-", "!", "~")

LEVELS = {"||": 1, "&&": 2, "|": 3, "^": 4, "&": 5, "==": 6, "!=": 6, "<": 7, "<=": 7, ">": 7, ">=": 7,
          "+": 8, "-": 8, "*": 9, "/": 9}

SPOKEN = {"and": "&&", "or": "||", "not": "!", "mod": None, "AND": "&&", "OR": "||", "NOT": "!"}


@dataclass(frozen=True)
class Token:
    """A token, and the bytes of the text between which it stands."""

    kind: str
    text: str
    start: int
    end: int

    def is_sign(self, *signs: str) -> bool:
        """Whether it is one of these signs."""
        return self.kind == "sign" and self.text in signs

    def is_look(self) -> bool:
        """Whether it is a name that has a value."""
        return self.kind == "name" and self.text not in ("true", "false")


class ScriptFault(Exception):
    """What is wrong with a text: the kind, the part where it is seen best, and words for a reader. The place
    that the program prints is the part's front, but for what is missing at the text's end."""

    def __init__(self, kind: str, start: int, end: int, message: str, help_: str = "", place: Optional[int] = None):
        super().__init__(kind)
        self.kind, self.start, self.end, self.message, self.help = kind, start, end, message, help_
        self.place = start if place is None else place

    def words(self) -> str:
        """As the program prints it."""
        return self.kind if self.kind == "TooLong" else f"{self.kind} {self.place}"


@dataclass(frozen=True)
class Statement:
    """A statement: the name that it writes and the sign after it, if it writes one, and its expression."""

    target: Optional[Token]
    sign: str
    tokens: Tuple[Token, ...]

    def start(self) -> int:
        """The place of its first token."""
        return (self.target or self.tokens[0]).start

    def looks(self) -> Iterator[Token]:
        """The names whose values it needs."""
        if self.target is not None and self.sign != ":=":
            yield self.target
        yield from (token for token in self.tokens if token.is_look())


def tokens(text: bytes) -> Iterator[Token]:
    """The tokens of a text, up to the first one that is faulty."""
    at = 0
    while at < len(text):
        found = TOKEN.match(text, at)
        if found is None:
            raise no_token(text, at)
        if found.lastgroup != "white":
            token = Token(found.lastgroup or "", found.group().decode(), at, found.end())
            if token.kind == "number":
                check_number(token, text[token.end:])
            yield token
        at = found.end()


def no_token(text: bytes, at: int) -> ScriptFault:
    """Why no token begins here."""
    sign = text[at:].decode("utf-8", "replace")[0]
    if sign == "'":
        return ScriptFault("Syntax", at, len(text), "this text has no closing quote", "write ' after it")
    end = at + len(sign.encode())
    hints = {'"': "a text stands between single quotes: '..'", "%": "there is no remainder in scripts",
             "@": "there is no board above that of the main tree", ".": "a number is a whole number",
             "{": "in a script a key stands without braces", "}": "in a script a key stands without braces",
             ",": "statements are separated by ;", "[": "use ( and )", "]": "use ( and )"}
    return ScriptFault("Syntax", at, end, f"a script has no sign {sign}", hints.get(sign, ""))


def check_number(token: Token, rest: bytes) -> None:
    """Raises what is wrong with a number, by what stands directly after it."""
    decimal = not token.text.lower().startswith("0x")
    after = rest[:1]
    if decimal and after and after in b".eE":
        end = token.end + len(rest) - len(rest.lstrip(b".eE0123456789"))
        raise ScriptFault("RealNumber", token.start, end, "a script has whole numbers only",
                          "count in smaller units: millimetres in place of metres, 15 in place of 1.5")
    if after.isalpha() or after == b"_":
        raise ScriptFault("Syntax", token.start, token.end + 1, "a letter stands directly after a number",
                          "a name begins with a letter or _, and between a number and a name stands an operator")
    if int(token.text, 10 if decimal else 16) > LARGEST:
        raise ScriptFault("NumberTooWide", token.start, token.end, f"the number is above {LARGEST}",
                          "a number has 64 bits with a sign")


class Order:
    """Goes through tokens in order, and keeps what is open and what the statements are."""

    def __init__(self, length: int, single: bool):
        self.length = length
        self.single = single
        self.open: List[Token] = []
        self.part: List[Token] = []
        self.target: Optional[Token] = None
        self.sign = ""
        self.wants_operand = True
        self.statements: List[Statement] = []

    def take(self, token: Token) -> None:
        """Takes the next token."""
        if self.wants_operand:
            self.take_operand(token)
        else:
            self.take_operator(token)

    def take_operand(self, token: Token) -> None:
        """Takes a token where an operand may begin."""
        if token.is_sign(";") and not self.part and self.target is None and not self.single:
            return
        if token.kind != "sign":
            self.wants_operand = False
        elif token.is_sign("("):
            self.open.append(token)
        elif not token.is_sign(*UNARY):
            raise self.no_operand(token)
        self.part.append(token)

    def take_operator(self, token: Token) -> None:
        """Takes a token after an operand."""
        if token.is_sign(*ASSIGNS) and self.may_assign():
            self.target, self.sign, self.part = self.part[0], token.text, []
            self.wants_operand = True
            return
        if token.is_sign(";") and not self.open and not self.single:
            self.end_statement()
            return
        if token.is_sign(")") and self.open and self.open[-1].text == "(":
            self.open.pop()
        elif token.is_sign(":") and self.open and self.open[-1].text == "?":
            self.open.pop()
            self.wants_operand = True
        elif token.kind == "sign" and (token.text in LEVELS or token.text == "?"):
            self.open += [token] if token.text == "?" else []
            self.wants_operand = True
        else:
            raise self.no_operator(token)
        self.part.append(token)

    def may_assign(self) -> bool:
        """Whether the statement so far is one name."""
        return not self.single and self.target is None and len(self.part) == 1 and self.part[0].is_look()

    def end_statement(self) -> None:
        """Ends the statement after its expression."""
        self.statements.append(Statement(self.target, self.sign, tuple(self.part)))
        self.target, self.sign, self.part, self.wants_operand = None, "", [], True

    def finish(self) -> None:
        """Ends the text."""
        if self.wants_operand and (self.part or self.target is not None):
            raise self.at_end("the text ends where a number, a text, a name or ( is missing")
        if self.open:
            begun = self.open[-1]
            raise self.at_end(f"this {begun.text} has no {')' if begun.text == '(' else ':'}", begun)
        if self.part:
            self.end_statement()
        if not self.statements:
            raise self.at_end("an expression is missing" if self.single else "there is no statement")

    def at_end(self, message: str, begun: Optional[Token] = None) -> ScriptFault:
        """A fault at the text's end; what was begun and not ended is seen where it began."""
        start, end = (self.length, self.length) if begun is None else (begun.start, begun.end)
        return ScriptFault("Syntax", start, end, message, place=self.length)

    def no_operand(self, token: Token) -> ScriptFault:
        """Why no operand begins with this token."""
        help_ = "to compare write ==, and to write an entry := at the statement's front" if token.text in ASSIGNS else ""
        return ScriptFault("Syntax", token.start, token.end,
                           f"before {token.text} a number, a text, a name or ( is missing", help_)

    def no_operator(self, token: Token) -> ScriptFault:
        """Why nothing goes on with this token."""
        if token.text in SPOKEN:
            sign = SPOKEN[token.text]
            help_ = f"write {sign}" if sign else "there is no remainder in scripts"
        elif token.is_sign("="):
            help_ = "to compare write =="
        elif token.is_sign(*ASSIGNS):
            help_ = "an entry is written at the beginning of a statement, after its name alone"
        elif token.is_sign(";"):
            help_ = "an expression stands alone here" if self.single else "something is open before the ;"
        else:
            help_ = "between two values stands an operator, and between two statements ;"
        return ScriptFault("Syntax", token.start, token.end, f"the text does not go on with {token.text} here", help_)


class Heights:
    """The heights of the operands so far, and the signs whose operands are not complete."""

    def __init__(self) -> None:
        self.values: List[int] = []
        self.signs: List[str] = []

    def apply(self) -> None:
        """Gives the last sign its operands."""
        count = {"unary": 1, ":": 3}.get(self.signs.pop(), 2)
        parts = self.values[-count:]
        self.values[-count:] = [1 + max(parts)]

    def apply_down_to(self, level: int) -> None:
        """Gives the signs of this level or a tighter one their operands, back to what is open."""
        levels = {"unary": 10, ":": 0, **LEVELS}
        while self.signs and self.signs[-1] not in ("(", "?") and levels[self.signs[-1]] >= level:
            self.apply()

    def take_operator(self, sign: str) -> None:
        """Takes a sign after an operand."""
        self.apply_down_to({"?": 1, ":": 0, ")": 0}.get(sign, LEVELS.get(sign, 0)))
        if sign in (":", ")"):
            self.signs.pop()
        if sign == ")":
            self.values[-1] += 1
        else:
            self.signs.append(sign)


def height(part: Tuple[Token, ...]) -> int:
    """The height of an expression: 1 for a value, one more for each operator and pair of parentheses round it."""
    heights = Heights()
    wants_operand = True
    for token in part:
        if token.kind != "sign":
            heights.values.append(1)
            wants_operand = False
        elif wants_operand:
            heights.signs.append("(" if token.text == "(" else "unary")
        else:
            heights.take_operator(token.text)
            wants_operand = token.text != ")"
    heights.apply_down_to(0)
    return heights.values[-1]


def statements(text: bytes, single: bool = False) -> List[Statement]:
    """The statements of a script, or the one expression of a text. Raises its fault."""
    if len(text) > MOST_BYTES:
        raise ScriptFault("TooLong", 0, len(text), f"the script has {len(text)} bytes",
                          f"at most {MOST_BYTES}: part it over several nodes")
    order = Order(len(text), single)
    for token in tokens(text):
        order.take(token)
    order.finish()
    for statement in order.statements:
        tall = height(statement.tokens)
        if tall > MOST_HEIGHT:
            raise ScriptFault("TooNested", statement.start(), statement.tokens[-1].end,
                              f"the expression of this statement has height {tall}",
                              f"at most {MOST_HEIGHT}: part it into several statements")
    return order.statements


def expression(text: bytes) -> Statement:
    """The expression that a text is. Raises its fault."""
    return statements(text, single=True)[0]


def fault_of(text: bytes) -> Optional[ScriptFault]:
    """The fault of a script, if it has one."""
    try:
        statements(text)
    except ScriptFault as fault:
        return fault
    return None
