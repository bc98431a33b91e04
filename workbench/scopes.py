"""Where names are declared and used, by the tokens alone: so of texts with faults, and of sources of `expand`, too.

A quantifier reaches to the closing parenthesis around it or to the end of its statement, so tokens are enough for the language's scopes.
"""
import re
from dataclasses import dataclass, field
from typing import Dict, Iterator, List, Optional, Tuple, Union

from language import Token
from shapes import Tokens, is_name

STARTS = ("var", "define", "prop", "infer")  # a statement ends before these, too, where its ; is missing


@dataclass(eq=False)
class Symbol:
    """What a name stands for. `span` is the name where it is declared, `whole` its statement, and `scope` where it may be used."""

    kind: str  # variable, define, prop, parameter, quantified, constant
    name: str
    span: Tuple[int, int]
    whole: Tuple[int, int]
    scope: Tuple[int, int]
    parameters: List["Symbol"] = field(default_factory=list)
    uses: List[Tuple[int, int]] = field(default_factory=list)


@dataclass
class Statement:
    words: List[Token]

    @property
    def head(self) -> str:
        return self.words[0].text

    @property
    def span(self) -> Tuple[int, int]:
        return self.words[0].start, self.words[-1].end


class Names:
    """All names of a text: `symbols` in the order of their declarations, and by `bound` for each use of a name its symbol."""

    def __init__(self, text: str) -> None:
        self.text, self.tokens = text, Tokens("", "", text).tokens
        self.statements = list(self.split())
        self.symbols: List[Symbol] = []
        self.bound: Dict[int, Symbol] = {}  # by where a token starts
        self.files: List[Token] = []  # of use
        self.globals: Dict[str, Symbol] = {}
        for statement in self.statements:
            self.read(statement)

    def split(self) -> Iterator[Statement]:
        words: List[Token] = []
        for token in self.tokens:
            if words and (token.text in STARTS or token.text in ("const", "use") and words[-1].text == ";"):
                yield Statement(words)
                words = []
            words.append(token)
            if token.text == ";":
                yield Statement(words)
                words = []
        if words:
            yield Statement(words)

    # ---- statements

    def read(self, it: Statement) -> None:
        words, whole, rest = it.words, it.span, (it.span[1], len(self.text))
        if it.head == "use":
            self.files += [token for token in words if token.text[0] == '"']
        elif it.head == "var":
            for token in filter(lambda token: is_name(token.text), words[1:]):
                self.globals[token.text] = self.declare("variable", token, whole, (0, len(self.text)))
        elif it.head in ("const", "define", "prop") and len(words) > 1 and is_name(words[1].text):
            symbol = self.declare("constant" if it.head == "const" else it.head, words[1], whole, rest)
            begin = next((place for place, token in enumerate(words) if token.text in ("as", "=")), len(words) - 1) + 1
            symbol.parameters = [self.declare("parameter", token, whole, whole) for token in words[2:begin] if is_name(token.text)]
            self.body(words[begin:], {parameter.name: parameter for parameter in symbol.parameters}, whole)
            self.globals[symbol.name] = symbol
        elif it.head != "const":
            self.body(words[1:], {}, whole)

    def declare(self, kind: str, token: Token, whole: Tuple[int, int], scope: Tuple[int, int]) -> Symbol:
        symbol = Symbol(kind, token.text, (token.start, token.end), whole, scope)
        self.symbols.append(symbol)
        self.use(token, symbol)
        return symbol

    def use(self, token: Token, symbol: Symbol) -> None:
        self.bound[token.start] = symbol
        symbol.uses.append((token.start, token.end))

    def body(self, words: List[Token], local: Dict[str, Symbol], whole: Tuple[int, int]) -> None:
        """Binds the names of a body; `stack` has the quantifiers in force with their depths."""
        depth, stack, before = 0, [], ""  # type: int, List[Tuple[int, Symbol]], str
        for token in words:
            depth += {"(": 1, ")": -1}.get(token.text, 0)
            if token.text == ")":
                stack = ended(stack, depth, token.start)
            if before in ("ex", "all") and is_name(token.text):
                stack.append((depth, self.declare("quantified", token, whole, (token.start, whole[1]))))
            elif is_name(token.text):
                bound = next((it for _, it in reversed(stack) if it.name == token.text), local.get(token.text) or self.globals.get(token.text))
                if bound is not None:
                    self.use(token, bound)
            before = token.text

    # ---- questions

    def token_at(self, place: int) -> Optional[Token]:
        """The name or word that a place is in, or that ends there."""
        return next((token for token in self.tokens if token.start <= place <= token.end and token.text[0].isalpha() and token.text.isascii()), None)

    def at(self, place: int) -> Optional[Symbol]:
        token = self.token_at(place)
        return self.bound.get(token.start) if token else None

    def in_sight(self, place: int) -> Dict[str, Symbol]:
        """The symbols that may be used at a place, the innermost of each name."""
        return {it.name: it for it in self.symbols if it.scope[0] <= place <= it.scope[1] and (it.kind != "quantified" or it.span[1] < place)}

    def shape(self) -> List[Union[int, str]]:
        """Which declaration each name stands for, by their order: the same before and after a renaming that changes no meaning."""
        order = {id(symbol): number for number, symbol in enumerate(self.symbols)}
        return [order[id(self.bound[token.start])] if token.start in self.bound else token.text for token in self.tokens]


def ended(stack: List[Tuple[int, Symbol]], depth: int, place: int) -> List[Tuple[int, Symbol]]:
    """The quantifiers that are in force after a closing parenthesis; the others reach to its place."""
    for inner, symbol in stack:
        if inner > depth:
            symbol.scope = symbol.scope[0], place
    return [it for it in stack if it[0] <= depth]


# ---- comments


def comments(text: str) -> Iterator[Tuple[int, int, bool]]:
    """The comments as start, end, and whether nothing else is in the line."""
    for match in re.finditer(r'"[^"\n]*"|//[^\n]*', text):
        if match.group().startswith("//"):
            yield match.start(), match.end(), not text[text.rfind("\n", 0, match.start()) + 1:match.start()].strip()


def block_above(text: str, place: int) -> str:
    """The comment lines directly above the line of a place, without their //."""
    lines = text[:text.rfind("\n", 0, place) + 1].split("\n")[:-1]
    found: List[str] = []
    while lines and re.match(r"\s*//", lines[-1]):
        found.append(re.sub(r"^\s*// ?", "", lines.pop()).rstrip())
    return "\n".join(reversed(found))
