"""Signals made of a log's columns, as `fast = speed > 30.5`: read by a parser of their own, and evaluated with decimal numbers."""
import operator
import re
from decimal import Context, Decimal
from typing import Any, Callable, Dict, List, NamedTuple, Optional, Tuple

from cells import Cell, Row, number_of, text_of, truth_of
from language import MOST_TEXT, read_text
from lines import LogFault
from spots import utf8

TOKEN = re.compile(r'\s*(?:(?P<number>\d+(?:\.\d+)?(?:[eE][+-]?\d{1,3})?)|(?P<name>[^\W\d]\w*(?:\.[^\W\d]\w*)*)|"(?P<quoted>[^"]*)"'
                   r"|(?P<mark>&&|\|\||[<>=!]=|\.\.|[-+*()!<>,=])|(?P<end>$))")
LINE = re.compile(r"\s*(?:([^\W\d]\w*)\s*(?:=(?!=)(.*))?)?", re.A | re.S)
COMPARED: Dict[str, Callable[[Any, Any], bool]] = {
    "<": operator.lt, "<=": operator.le, ">": operator.gt, ">=": operator.ge, "==": operator.eq, "!=": operator.ne}
COUNTED: Dict[str, Callable[..., Decimal]] = {"abs": abs, "min": min, "max": max}
EXACT = Context(prec=60, traps=[])
ADDED = {"+": EXACT.add, "-": EXACT.subtract}
MOST_DEPTH = 60  # of parentheses and signs within each other


class Signal(NamedTuple):
    """A line of a file of signals: its expression, or nothing where it is a column, and what it means."""

    name: str
    expression: str
    meaning: str
    where: str

    @property
    def spoken(self) -> str:
        return " ".join([self.name] + ["= " + self.expression] * bool(self.expression) + ["// " + self.meaning] * bool(self.meaning))

    def has(self, column: str) -> bool:
        """Whether the expression names this column."""
        return any(column in match.group("name", "quoted") for match in TOKEN.finditer(self.expression))


class Part(NamedTuple):
    """A part of an expression: whether it is a number, a truth, a text, or a column, which is what it is used as, and its value in a row."""

    kind: str
    value: Callable[[Row], Any]
    column: str = ""


class Expression:
    """The parser of one expression. `column(name, is_number)` gives the place of a column."""

    def __init__(self, signal: Signal, column: Callable[[str, bool], int], holds: bool) -> None:
        self.signal, self.column, self.holds = signal, column, holds
        self.tokens: List[Tuple[str, str]] = []
        self.at = self.depth = 0
        place = 0
        while not self.tokens or self.tokens[-1][0] != "end":
            match = TOKEN.match(signal.expression, place)
            if match is None:
                raise self.fault(f"nothing begins with {signal.expression[place:].strip()[:20]}")
            self.tokens.append((str(match.lastgroup), match.group(str(match.lastgroup))))
            place = match.end()

    def fault(self, message: str) -> LogFault:
        return LogFault(f"{self.signal.where}: {self.signal.name}: {message}")

    def whole(self) -> Callable[[Row], bool]:
        """What the expression is in a row: true or false."""
        found = self.truth(self.either())
        if self.tokens[self.at][0] != "end":
            raise self.fault(f"{self.tokens[self.at][1]} is not expected there")
        return found

    def word(self, *words: str) -> str:
        """The next token where it is one of these, which is read; else nothing."""
        kind, text = self.tokens[self.at]
        if text in words and kind in ("mark", "name"):
            self.at += 1
            return text
        return ""

    def need(self, word: str) -> None:
        if not self.word(word):
            raise self.fault(f"{word} is expected " + (f"in front of {self.tokens[self.at][1]}" if self.tokens[self.at][1] else "at the end"))

    # ---- what a part is used as

    def cell(self, part: Part, read: Callable[[str], Any]) -> Callable[[Row], Any]:
        return Cell(part.column, self.column(part.column, read is number_of), read, self.holds)

    def truth(self, part: Part) -> Callable[[Row], bool]:
        if part.kind == "column":
            return self.cell(part, truth_of)
        if part.kind != "truth":
            raise self.fault(f"a {part.kind} is no truth; a comparison is")
        return part.value

    def number(self, part: Part) -> Callable[[Row], Decimal]:
        if part.kind == "column":
            return self.cell(part, number_of)
        if part.kind != "number":
            raise self.fault(f"a {part.kind} is no number")
        return part.value

    # ---- the grammar

    def either(self) -> Part:
        parts = [self.both()]
        while self.word("||"):
            parts.append(self.both())
        if len(parts) == 1:
            return parts[0]
        truths = [self.truth(part) for part in parts]
        return Part("truth", lambda row: any([it(row) for it in truths]))

    def both(self) -> Part:
        parts = [self.compared()]
        while self.word("&&"):
            parts.append(self.compared())
        if len(parts) == 1:
            return parts[0]
        truths = [self.truth(part) for part in parts]
        return Part("truth", lambda row: all([it(row) for it in truths]))

    def compared(self) -> Part:
        left = self.sum()
        if self.word("in"):
            value, least, most = self.number(left), self.constant(), self.constant("..")
            return Part("truth", lambda row: least <= value(row) <= most)
        mark = self.word(*COMPARED)
        if not mark:
            if self.word("="):
                raise self.fault("= is written ==")
            return left
        relation, kind = COMPARED[mark], self.tokens[self.at][0]
        if kind == "quoted" and left.kind == "column" and mark in ("==", "!="):
            self.at += 1
            text, cell = self.tokens[self.at - 1][1], self.cell(left, text_of)
            return Part("truth", lambda row: relation(cell(row), text))
        one, other = self.number(left), self.number(self.sum())
        return Part("truth", lambda row: relation(one(row), other(row)))

    def constant(self, mark: str = "") -> Decimal:
        if mark:
            self.need(mark)
        sign, (kind, text) = self.word("-"), self.tokens[self.at]
        if kind != "number":
            raise self.fault("a number is expected on both sides of ..")
        self.at += 1
        return Decimal(sign + text)

    def sum(self) -> Part:
        left = self.product()
        mark = self.word("+", "-")
        while mark:
            left = self.joined(ADDED[mark], left, self.product())
            mark = self.word("+", "-")
        return left

    def product(self) -> Part:
        left = self.single()
        while self.word("*"):
            left = self.joined(EXACT.multiply, left, self.single())
        return left

    def joined(self, made: Callable[[Decimal, Decimal], Decimal], left: Part, right: Part) -> Part:
        one, other = self.number(left), self.number(right)
        return Part("number", lambda row: made(one(row), other(row)))

    def single(self) -> Part:
        self.depth += 1
        if self.depth > MOST_DEPTH:
            raise self.fault(f"more than {MOST_DEPTH} parentheses and signs are within each other")
        found = self.inner()
        self.depth -= 1
        return found

    def inner(self) -> Part:
        if self.word("!"):
            truth = self.truth(self.single())
            return Part("truth", lambda row: not truth(row))
        if self.word("-"):
            number = self.number(self.single())
            return Part("number", lambda row: EXACT.minus(number(row)))
        if self.word("("):
            found = self.either()
            self.need(")")
            return found
        kind, text = self.tokens[self.at]
        if kind not in ("number", "name", "quoted"):
            raise self.fault(f"a number or a column is expected, and not {text or 'the end'}")
        self.at += 1
        if kind == "number":
            constant = Decimal(text)
            return Part("number", lambda row: constant)
        if kind == "name" and text in COUNTED and self.word("("):
            return self.called(text)
        return Part("column", lambda row: None, text)

    def called(self, name: str) -> Part:
        arguments = [self.number(self.sum())]
        while self.word(","):
            arguments.append(self.number(self.sum()))
        self.need(")")
        if name == "abs" and len(arguments) != 1 or name != "abs" and len(arguments) < 2:
            raise self.fault(f"{name} has {'one argument' if name == 'abs' else 'two arguments or more'}")
        made = COUNTED[name]
        return Part("number", lambda row: made(*[it(row) for it in arguments]))


def read_line(line: str, where: str) -> Optional[Signal]:
    """The signal of a line, or None where it is empty."""
    bare = re.match(r'(?:[^"/#]|"[^"]*"|/(?!/))*', line)
    text = bare.group() if bare else ""
    match = LINE.fullmatch(text.rstrip().rstrip(";"))
    if match is None or match.group(2) is not None and not match.group(2).strip():
        raise LogFault(f"{where}: '{line.strip()[:80]}' is not NAME = EXPRESSION")
    name, expression = match.groups()
    if name is None:
        return None
    return Signal(name, (expression or "").strip(), re.sub(r"^(//|#)+", "", line[len(text):]).strip(), where)


def read_signals(text: str, shown: str) -> List[Signal]:
    """The signals of a file."""
    found = [read_line(line, f"{shown}:{number}") for number, line in enumerate(text.split("\n"), 1)]
    return [it for it in found if it is not None]


def listed(path: Optional[str]) -> List[Signal]:
    """The signals of the file that is named, if one is."""
    return read_signals(utf8(read_text(path, MOST_TEXT)), path) if path else []
