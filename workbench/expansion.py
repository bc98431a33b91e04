"""A source with constants, sums, numbers as arguments and `use`, written anew as a file of the language.

Each macro that has numbers is written once for each choice of them. Each piece of the new text remembers where it comes from.
"""
import re
from bisect import bisect_right
from collections import Counter
from itertools import chain, count
from typing import Dict, Iterable, Iterator, List, NamedTuple, Optional, Sequence, Tuple, Union

import limits
from language import Token
from words import RESERVED
from shapes import Tokens, is_name, is_number
from sources import Definition, Source

MOST_COPIES = 1_000  # of macros, more than the program takes


class Piece(NamedTuple):
    """A part of the new text: text or a copy (for its name), and where it comes from. What is `exact` stands there letter by letter."""

    thing: Union[str, "Copy"]
    source: Tokens
    place: int
    exact: bool
    copy: Optional["Copy"]

    @property
    def text(self) -> str:
        return self.thing.name if isinstance(self.thing, Copy) else self.thing


class Copy:
    """A macro for one choice of its numbers."""

    def __init__(self, definition: Definition, numbers: Tuple[int, ...]) -> None:
        self.definition, self.numbers = definition, numbers
        self.pieces: List[Piece] = []
        self.name = ""  # until all copies get theirs

    def told(self) -> str:
        values = ", ".join(f"{name} = {value}" for name, value in zip(numeric_of(self.definition), self.numbers))
        return f"{self.definition.name} with {values}" if values else self.definition.name


def numeric_of(definition: Definition) -> List[str]:
    return [name for name in definition.parameters if name in definition.numeric]


class Rewriting:
    """Tokens of a source written anew: what stays as it stands, and what is put in the place of the rest."""

    def __init__(self, expansion: "Expansion", source: Source, order: int, first: int, last: int, copy: Optional[Copy] = None) -> None:
        self.expansion, self.source, self.order, self.copy = expansion, source, order, copy
        parameters = copy.definition.parameters if copy else []
        self.values = {name: value for name, value in source.all_constants().items() if name not in parameters}
        if copy:
            self.values.update(zip(numeric_of(copy.definition), copy.numbers))
        self.hidden = set(parameters) | source.quantified(first, last)
        self.renamed = expansion.renamed(source, self.hidden)
        self.pieces: List[Piece] = []
        self.done, self.last = source.tokens[first].start, last
        self.write(first, last)
        self.up_to(source.tokens[last].start)

    def piece(self, thing: Union[str, Copy], place: int, exact: bool = False) -> None:
        self.pieces.append(Piece(thing, self.source, place, exact, self.copy))

    def up_to(self, place: int) -> None:
        if place > self.done:
            self.piece(self.source.text[self.done:place], self.done, exact=True)
            self.done = place

    def put(self, thing: Union[str, Copy], token: Token) -> None:
        self.up_to(token.start)
        self.piece(thing, token.start)
        self.done = token.end

    def write(self, first: int, last: int) -> None:
        numbers, at = self.source.number_places(first, last), first
        while at < last:
            if at in numbers:
                value, end = self.source.number(at, numbers[at], self.values)
                if end > at + 1 or not is_number(self.source.word(at)):
                    self.put(str(value), self.source.tokens[at])
                    self.done = self.source.tokens[end - 1].end
                at = end
            else:
                at = self.name(at)

    def name(self, at: int) -> int:
        """Writes what begins at a token that is no number; where it goes on."""
        word, token = self.source.word(at), self.source.tokens[at]
        if word in self.renamed:
            self.put(self.renamed[word], token)
            return at + 1
        called = self.source.meaning(word, self.order, self.hidden)
        if called is None:
            self.not_below(at)
            return at + 1
        if self.source.is_ambiguous(called):
            raise self.source.fault(at, f"several of the used files define {word}")
        if called.numeric:
            return self.call(at, called)
        self.put(self.expansion.copy(called, ()), token)
        return at + 1

    def not_below(self, at: int) -> None:
        word = self.source.word(at)
        if word not in self.hidden and any(it.name == word and it.numeric for it in self.source.definitions):
            raise self.source.fault(at, f"{word} is defined below")

    def call(self, at: int, called: Definition) -> int:
        """A call with numbers: they go, and the other arguments stay."""
        source, arguments = self.source, self.source.arguments(at + 1, self.last)
        if len(arguments) != len(called.parameters):
            raise source.fault(at, f"{called.name} has {len(called.parameters)} parameters ({', '.join(called.parameters)}), "
                                   f"and {len(arguments)} arguments stand here")
        numbers: List[int] = []
        kept: List[Tuple[int, int]] = []
        for parameter, (first, last) in zip(called.parameters, arguments):
            if parameter not in called.numeric:
                kept.append((first, last))
                continue
            value, end = source.number(first, last, self.values)
            if end != last:
                raise source.fault(end, f"the argument {parameter} of {called.name} is a number")
            numbers.append(value)
        self.put(self.expansion.copy(called, tuple(numbers)), source.tokens[at])
        for place, (first, last) in enumerate(kept):
            self.piece(", " if place else "(", source.tokens[first].start)
            self.done = source.tokens[first].start
            self.write(first, last)
            self.up_to(source.tokens[last - 1].end)
        end = source.closing(at + 1, self.last) or at + 1  # the arguments were found, so there is one
        if kept:
            self.piece(")", source.tokens[end].start)
        self.done = source.tokens[end].end
        return end + 1


class Expansion:
    """The new text of a source, and where each part of it comes from."""

    def __init__(self, main: Source) -> None:
        self.main = main
        self.copies: Dict[Tuple[Definition, Tuple[int, ...]], Copy] = {}
        self.contents: Dict[object, Copy] = {}
        self.pieces: List[Piece] = []
        self.depth = 0  # of the macros that are being written
        self.own = {it.name for it in main.definitions if not it.numeric}
        self.own_at = {it.first: it for it in main.definitions}
        words = {token.text for token in main.tokens if is_name(token.text)}
        local = main.quantified(0, len(main.tokens)).union(*(it.parameters for it in main.definitions))
        self.taken = {*RESERVED, *main.variables, *self.own, *local, *(words - set(main.visible()))}
        self.check_constants()
        bodies = {first: self.statement(order, first, last) for order, (first, last) in enumerate(main.statements)}
        self.write(bodies)
        self.name_copies()
        self.text = "".join(piece.text for piece in self.pieces)

    def check_constants(self) -> None:
        for at, token in enumerate(self.main.tokens):
            name = self.main.word(at + 1)
            if token.text == "const" and name in self.main.constants and (name in self.main.variables or name in self.own):
                raise self.main.fault(at + 1, f"{name} is a constant, and a variable or a macro too")

    def renamed(self, source: Source, names: Iterable[str]) -> Dict[str, str]:
        """Parameters and quantified names of a used file that the file itself has as macros get other names."""
        return {} if source is self.main else {name: f"{name[:limits.NAME - 2]}_0" for name in names if name in self.own}

    # ---- macros

    def copy(self, definition: Definition, numbers: Tuple[int, ...]) -> Copy:
        """The macro for these numbers; of used macros that say the same there is one."""
        key = (definition, numbers)
        if key not in self.copies:
            copy = Copy(definition, numbers)
            self.depth += 1
            if max(self.depth, len(self.copies)) > MOST_COPIES:
                raise definition.source.fault(definition.first + 1, f"{definition.name} is one of more than {MOST_COPIES} macros; {limits.MACROS} may be written")
            copy.pieces = Rewriting(self, definition.source, definition.order, definition.body, definition.last, copy).pieces
            self.depth -= 1
            parameters = tuple(name for name in definition.parameters if name not in definition.numeric)
            if definition.source is not self.main:
                self.taken.update(parameters)
                self.taken.update(definition.source.quantified(definition.body, definition.last))
                content = (definition.kind, definition.name, parameters, *content_of(copy.pieces))
                copy = self.contents.setdefault(content, copy)
            elif not definition.numeric:
                copy.name = definition.name
            self.copies[key] = copy
        return self.copies[key]

    def statement(self, order: int, first: int, last: int) -> Optional[List[Piece]]:
        """The pieces of a statement of the file itself; None where nothing is left of it, or its copies are written for it."""
        source, word = self.main, self.main.word(first)
        definition = self.own_at.get(first)
        if word in ("use", "const") or definition and definition.numeric:
            return None
        copy = self.copy(definition, ()) if definition else None
        begin = definition.body if definition else first
        head = source.text[source.tokens[first].start:source.tokens[begin].start]
        pieces = copy.pieces if copy else Rewriting(self, source, order, first, last).pieces
        return ([Piece(head, source, source.tokens[first].start, True, None)] if head else []) + pieces

    def head(self, copy: Copy) -> List[Piece]:
        """The beginning of a copy's definition."""
        definition = copy.definition
        place = definition.source.tokens[definition.first + 1].start
        renamed = self.renamed(definition.source, definition.parameters)
        parameters = [renamed.get(name, name) for name in definition.parameters if name not in definition.numeric]
        rest = (f"({', '.join(parameters)})" if parameters else "") + " as "
        things: Sequence[Union[str, Copy]] = (definition.kind + " ", copy, rest)
        return [Piece(thing, definition.source, place, False, copy) for thing in things]

    def written(self, copies: Iterable[Copy]) -> List[Piece]:
        found: List[Piece] = []
        for copy in copies:
            source, last = copy.definition.source, copy.definition.last
            found += self.head(copy) + copy.pieces + [Piece(source.word(last) + "\n", source, source.tokens[last].start, False, copy)]
        return found

    # ---- the whole

    def write(self, bodies: Dict[int, Optional[List[Piece]]]) -> None:
        """All pieces in order: used macros before the first macro or the goal, comments and blanks as they stand."""
        source, end, gone = self.main, 0, False
        used: List[Copy] = []
        own: Dict[int, List[Copy]] = {}
        for copy in dict.fromkeys(self.copies.values()):
            if copy.definition.source is not source:
                used.append(copy)
            elif copy.definition.numeric:
                own.setdefault(copy.definition.first, []).append(copy)
        for first, last in source.statements:
            self.blank(end, source.tokens[first].start, gone)
            if used and source.word(first) in ("define", "prop", "infer"):
                self.pieces += self.written(used)
                used = []
            copies, body = self.written(own.get(first, ())), bodies[first]
            if copies:
                self.pieces += copies[:-1] + [copies[-1]._replace(thing=source.word(last))]
            end = source.tokens[last].end
            if body is not None:
                self.pieces += body + [Piece(source.word(last), source, source.tokens[last].start, True, None)]
            gone = not copies and body is None
        self.blank(end, len(source.text), gone)

    def blank(self, start: int, end: int, gone: bool) -> None:
        """What stands between two statements. Of a line whose statement is gone nothing is left but a comment."""
        text = self.main.text[start:end]
        last = self.pieces[-1].thing if self.pieces else "\n"
        if gone and isinstance(last, str) and last.endswith("\n"):
            text = text.lstrip(" \t\r")
            text = text[1:] if text.startswith("\n") else text
        if text:
            self.pieces.append(Piece(text, self.main, end - len(text), True, None))

    def name_copies(self) -> None:
        """A copy has its macro's name where no other has it, else one with its numbers or with a number more."""
        copies = [it for it in dict.fromkeys(self.copies.values()) if not it.name]
        bases = Counter(it.definition.name for it in copies)
        for copy in copies:
            base, numbers = copy.definition.name, "".join(f"_{value}" for value in copy.numbers)
            wished = [base] if bases[base] == 1 or not numbers else []
            wished += [base[:max(1, limits.NAME - len(numbers))] + numbers] if numbers else [base]
            more = (f"{numbers}_{number}" for number in count(2))
            further = (base[:max(1, limits.NAME - len(end))] + end[-limits.NAME + 1:] for end in more)
            copy.name = next(name for name in chain(wished, further) if len(name) <= limits.NAME and name not in self.taken)
            self.taken.add(copy.name)

    def origin(self, place: int) -> Tuple[Piece, int]:
        """The piece that holds a place of the new text, and the place in its source."""
        pieces = self.pieces or [Piece("", self.main, 0, True, None)]  # of an empty file
        starts, at = [], 0
        for piece in pieces:
            starts.append(at)
            at += len(piece.text)
        number = max(0, bisect_right(starts, place) - 1)
        piece = pieces[number]
        return piece, piece.place + (place - starts[number] if piece.exact else 0)


def content_of(pieces: Iterable[Piece]) -> Iterator[Union[str, Copy]]:
    """What pieces say, without blanks and comments."""
    for piece in pieces:
        if isinstance(piece.thing, Copy):
            yield piece.thing
        else:
            yield from re.findall(r"\w+|\S", re.sub(r"//[^\n]*", "", piece.thing))
