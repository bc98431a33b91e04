"""The language of formula files for scripts: texts read as trees with their places, and trees written back.

It reads texts without faults. Which fault another text has is for the program to say; `parse` only ends on it.
A place is an offset in bytes: texts are read with a character for each byte.
"""
import re
import sys
from dataclasses import dataclass, field
from typing import Any, Callable, Dict, Iterator, List, NamedTuple, Sequence, Tuple, TypeVar, Union

import limits
from words import BRACKETS, CONSTANTS, COUNTS, LISTS, MEASURES, MOMENTS, PREFIXES, RELATIONS, RESERVED

sys.setrecursionlimit(100_000)

MOST_BYTES, MOST_TEXT = limits.FILE_BYTES, limits.TEXT_BYTES
Part = TypeVar("Part")

TOKEN = re.compile(
    r"(?P<blank>[ \t\r\n]+|//[^\n]*)|[A-Za-z][A-Za-z0-9_]*|[0-9]+"
    r"|<=>|=>|\|\||&&|\[\[|\]\]|\{\{|\}\}|<=|>=|<>|\[\]|[()\[\],;.!^*=<>+-]")

PROPOSITIONS = {"name", "p_true", "p_false", "p_not", "prior", "next", "p_and", "p_or", "p_implies", "p_iff"}


class Fault(Exception):
    """The text is no formula file; `place` is where this reader stopped."""

    def __init__(self, place: int, message: str) -> None:
        super().__init__(f"{message} at {place}")
        self.place = place


class Token(NamedTuple):
    text: str
    start: int
    end: int


@dataclass(frozen=True)
class Tree:
    """A proposition or a formula. Trees are equal whatever their places are.

    Propositions: `name` (with arguments where it is a macro), `p_true p_false p_not prior next p_and p_or p_implies p_iff`.
    Formulas: `call` (of a macro), `point <P>`, `run [P]`, `every [[P]]`, `unit {{P}}`, `pt ext true false`, `slen scount sdur`
    (the value is relation and number), `not diamond box star and or implies iff chop`, `ex all` (the value is the name).
    """

    kind: str
    parts: Tuple["Tree", ...] = ()
    value: Any = None
    start: int = field(default=0, compare=False)
    end: int = field(default=0, compare=False)

    @property
    def is_proposition(self) -> bool:
        return self.kind in PROPOSITIONS

    def walk(self) -> Iterator["Tree"]:
        """This tree and all below it, each before its parts."""
        todo = [self]
        while todo:
            tree = todo.pop()
            yield tree
            todo.extend(reversed(tree.parts))


@dataclass(frozen=True)
class Macro:
    kind: str  # define or prop
    name: str
    parameters: Tuple[str, ...]
    body: Tree
    start: int = field(default=0, compare=False)
    end: int = field(default=0, compare=False)


@dataclass(frozen=True)
class File:
    variables: Tuple[str, ...]
    macros: Dict[str, Macro]  # in the order of the text
    goal: Tree
    listed: Tuple[Macro, ...] = field(default=(), compare=False)  # the macros, also those whose name stands there again


def read_text(path: str, most: int = MOST_BYTES) -> str:
    """The text of a formula file, a character for each byte: a line ends with a line feed alone, and a comment may have any bytes.
    Of a longer file it has one byte more than there may be, so that it is refused."""
    try:
        with open(path, "rb") as file:
            return file.read(most + 1).decode("latin-1")
    except OSError as error:
        raise OSError(error.errno, error.strerror, path) from None


def natural(digits: str) -> int:
    """The number that digits are, however many zeros are in front; one that is too large for any use has nine digits."""
    return int(digits.lstrip("0")[:9] or "0")


# ---- reading


def tokens_before(text: str, place: int) -> Tuple[List[Token], int]:
    """The tokens that begin before a place, up to the first byte that begins none; and where the reading stopped."""
    found, at = [], 0
    while at < place:
        match = TOKEN.match(text, at)
        if match is None:
            break
        if match.group("blank") is None:
            found.append(Token(match.group(), at, match.end()))
        at = match.end()
    return found, at


def tokens(text: str) -> List[Token]:
    """All tokens of a text."""
    found, at = tokens_before(text, len(text))
    if at < len(text):
        raise Fault(at, "no token")
    return found


def parse(text: str) -> File:
    """The file that a text holds. Names are looked up nowhere: a text with a fault of names is read too."""
    return _Parser(text).whole(_Parser.file)


def parse_proposition(text: str) -> Tree:
    """The proposition that a text is, as an argument of a macro would be."""
    return _Parser(text).whole(_Parser.proposition)


class _Parser:
    def __init__(self, text: str) -> None:
        self.tokens, self.at = tokens(text) + [Token("", len(text), len(text))], 0

    def whole(self, rule: Callable[["_Parser"], Part]) -> Part:
        found = rule(self)
        self.take("")
        return found

    def peek(self) -> str:
        return self.tokens[self.at].text

    def take(self, *wanted: str) -> str:
        token = self.peek()
        if token not in wanted:
            raise Fault(self.tokens[self.at].start, f"{token or 'the end'} in place of {wanted[0] or 'the end'}")
        self.at += 1
        return token

    def has(self, *wanted: str) -> str:
        return self.take(*wanted) if self.peek() in wanted else ""

    def word(self, what: str, is_right: Callable[[str], bool]) -> str:
        """A token of a kind."""
        return self.take(self.peek() if is_right(self.peek()) else what)

    def name(self) -> str:
        return self.word("a name", lambda word: word[:1].isalpha() and word not in RESERVED)

    def tree(self, first: int, kind: str, parts: Sequence[Tree] = (), value: Any = None) -> Tree:
        """A tree whose text begins at the token with number `first` and ends before this one."""
        return Tree(kind, tuple(parts), value, self.tokens[first].start, self.tokens[self.at - 1].end)

    def separated(self, part: Callable[[], Part], separator: str = ",") -> List[Part]:
        found = [part()]
        while self.has(separator):
            found.append(part())
        return found

    def before(self, part: Callable[[], Part], closing: str) -> Part:
        """A part and the token after it."""
        found = part()
        self.take(closing)
        return found

    def in_parentheses(self, part: Callable[[], Part]) -> List[Part]:
        return self.before(lambda: self.separated(part), ")") if self.has("(") else []

    def joined(self, kinds: Sequence[str], operand: Callable[[], Tree]) -> Tree:
        """Operands between which stand operators of these kinds."""
        if not kinds:
            return operand()
        first, kind = self.at, kinds[0]
        parts = self.separated(lambda: self.joined(kinds[1:], operand), LISTS.get(kind, "no operator"))
        if kind not in LISTS and self.has("=>"):
            parts.append(self.joined(kinds, operand))
        return self.tree(first, kind, parts) if len(parts) > 1 else parts[0]

    def prefixed(self, kinds: Sequence[str], operand: Callable[[], Tree]) -> Tree:
        """An operand, before which signs of these kinds may stand."""
        first = self.at
        kind = next((kind for kind in kinds if self.has(PREFIXES[kind])), None)
        return self.tree(first, kind, (self.prefixed(kinds, operand),)) if kind else operand()

    # ---- files

    def file(self) -> File:
        variables = self.before(lambda: self.separated(self.name), ";") if self.has("var") else []
        macros = [self.macro() for _ in iter(lambda: self.peek() in ("define", "prop"), False)]
        self.take("infer")
        return File(tuple(variables), {macro.name: macro for macro in macros}, self.before(self.formula, ";"), tuple(macros))

    def macro(self) -> Macro:
        start, kind = self.tokens[self.at].start, self.take("define", "prop")
        name, parameters, _ = self.name(), self.in_parentheses(self.name), self.take("as")
        body = self.before(self.formula if kind == "define" else self.proposition, ";")
        return Macro(kind, name, tuple(parameters), body, start, self.tokens[self.at - 1].end)

    def named(self, kind: str) -> Tree:
        first, name = self.at, self.name()
        return self.tree(first, kind, self.in_parentheses(self.proposition), name)

    # ---- propositions and formulas

    def proposition(self) -> Tree:
        return self.joined(("p_iff", "p_implies", "p_or", "p_and"), self.p_prefix)

    def p_prefix(self) -> Tree:
        return self.prefixed(("p_not", "prior", "next"), self.p_atom)

    def p_atom(self) -> Tree:
        first, word = self.at, self.has("(", "true", "false")
        if word == "(":
            return self.before(self.proposition, ")")
        return self.tree(first, "p_" + word) if word else self.named("name")

    def formula(self) -> Tree:
        first, word = self.at, self.has("ex", "all")
        if not word:
            return self.joined(("iff", "implies", "or", "and", "chop"), self.f_prefix)
        name = self.before(self.name, ".")
        return self.tree(first, word, (self.formula(),), name)

    def f_prefix(self) -> Tree:
        return self.prefixed(("not", "diamond", "box"), self.starred)

    def starred(self) -> Tree:
        first, inner = self.at, self.atom()
        while self.has("*"):
            inner = self.tree(first, "star", (inner,))
        return inner

    def atom(self) -> Tree:
        first, word = self.at, self.has("(", *MOMENTS, *CONSTANTS, *MEASURES)
        if word == "(":
            return self.before(self.formula, ")")
        if word in MEASURES:
            parts: Sequence[Tree] = (self.p_prefix(),) if word in COUNTS else ()
            value = self.take(*RELATIONS), natural(self.word("a number", lambda word: word.isascii() and word.isdigit()))
            return self.tree(first, word, parts, value)
        kind = next((kind for kind, (opening, _) in BRACKETS.items() if self.has(opening)), None)
        if kind:
            return self.tree(first, kind, (self.before(self.proposition, BRACKETS[kind][1]),))
        return self.tree(first, word) if word else self.named("call")


# ---- writing

# How tightly each kind holds its operands; what is not here stands without parentheses anywhere.
LEVELS = {"ex": 0, "all": 0, "iff": 1, "p_iff": 1, "implies": 2, "p_implies": 2, "or": 3, "p_or": 3, "and": 4, "p_and": 4,
          "chop": 5, **dict.fromkeys(PREFIXES, 6), "star": 7}


def to_text(tree: Tree) -> str:
    """A tree as text with few parentheses: what is read back is the same tree."""
    def operand(part: Tree, least: int) -> str:
        text = to_text(part)
        return text if LEVELS.get(part.kind, 9) >= least else f"({text})"

    kind, parts, value, level = tree.kind, tree.parts, tree.value, LEVELS.get(tree.kind, 9)
    if kind in LISTS:
        return f" {LISTS[kind]} ".join(operand(part, level + 1) for part in parts)
    if kind in ("implies", "p_implies"):
        return f"{operand(parts[0], level + 1)} => {operand(parts[1], level)}"
    if kind in PREFIXES:
        return PREFIXES[kind] + operand(parts[0], level)
    if kind in BRACKETS:
        return to_text(parts[0]).join(BRACKETS[kind])
    if kind == "star":
        return operand(parts[0], level) + "*"
    if kind in ("ex", "all"):
        return f"{kind} {value}. {to_text(parts[0])}"
    if kind in ("name", "call"):
        return f"{value}({', '.join(map(to_text, parts))})" if parts else str(value)
    if kind in MEASURES:
        return " ".join([kind, *(operand(part, 6) for part in parts), value[0], str(value[1])])
    return kind.replace("p_", "")


def goal_text(variables: Sequence[str], goal: Union[Tree, str]) -> str:
    """The text of a file without macros; the goal is a tree or a text."""
    return (f"var {', '.join(variables)};\n" if variables else "") + f"infer {goal if isinstance(goal, str) else to_text(goal)};\n"
