"""Files with constants, sums, numbers as arguments and `use`, read: their statements, and what each name means where it stands.

A statement goes to its `;` and begins with `use`, `const`, `var`, `define`, `prop` or `infer`. What is no part of this notation is
left for the program to judge.
"""
import os
from dataclasses import dataclass, field
from typing import Container, Dict, List, Mapping, Optional, Set, Tuple

import language
from language import MOST_BYTES
from shapes import SourceFault, Tokens, is_name

MOST_LEVELS = 100  # of files that use each other
FIRST_WORDS = ("use", "const", "var", "define", "prop", "infer")
ROOT = os.path.dirname(os.path.dirname(os.path.abspath(__file__)))


@dataclass(eq=False)
class Definition:
    """A macro: its tokens go from `first` to its `;` at `last`, its body begins at `body`; `numeric` are the parameters that stand for numbers."""

    source: "Source"
    order: int
    kind: str
    name: str
    parameters: List[str]
    first: int
    body: int
    last: int
    numeric: Set[str] = field(default_factory=set)


class Reading:
    """What the sources of one file share: each file that is used is read once, and equal macros have one number."""

    def __init__(self) -> None:
        self.files: Dict[Tuple[int, int], Optional["Source"]] = {}  # None while it is being read
        self.numbers: Dict[object, int] = {}

    def number(self, content: object) -> int:
        return self.numbers.setdefault(content, len(self.numbers))


class Source(Tokens):
    """A file, its statements and names."""

    def __init__(self, path: str, shown: str, text: str, reading: Optional[Reading] = None) -> None:
        super().__init__(path, shown, text)
        self.reading = reading or Reading()
        if len(text) > MOST_BYTES:
            raise SourceFault(self, MOST_BYTES, f"a file has {MOST_BYTES} bytes at most")
        self.statements: List[Tuple[int, int]] = self.split()
        self.variables: List[str] = []
        self.constants: Dict[str, int] = {}
        self.used: List[Source] = []
        self.definitions: List[Definition] = []
        self.by_name: Dict[str, Definition] = {}  # the first of each name
        self.seen: Optional[Dict[str, List[Definition]]] = None
        self.values: Optional[Dict[str, int]] = None
        self.contents: Dict[int, int] = {}
        for order, (first, last) in enumerate(self.statements):
            self.read_statement(order, first, last)

    def split(self) -> List[Tuple[int, int]]:
        """The statements as the numbers of their first token and of their `;`. Where it is missing an empty token stands for it,
        and the program tells the fault; but const and use, which it does not know, have to end."""
        found, first, at = [], 0, 0
        while at < len(self.tokens):
            if at > first and self.begins(at) and self.word(first) in FIRST_WORDS:
                if "const" in (self.word(first), self.word(at)) or "use" in (self.word(first), self.word(at)):
                    raise self.fault(at, f"a ; is missing before {self.word(at)}")
                self.tokens.insert(at, self.nothing(at))
            if self.word(at) in (";", ""):
                found.append((first, at))
                first = at + 1
            at += 1
        if self.word(first) in ("const", "use"):
            raise self.fault(at, "a ; is missing at the end")
        if self.word(first) in FIRST_WORDS:
            self.tokens.append(self.nothing(at))
            found.append((first, at))
        return found

    # ---- statements

    def read_statement(self, order: int, first: int, last: int) -> None:
        word = self.word(first)
        if word == "use":
            self.read_use(first, last)
        elif word == "const":
            self.read_constant(first, last)
        elif word == "var":
            self.variables = [it for it in self.words(first + 1, last) if it != ","]
        elif word in ("define", "prop"):
            self.read_definition(order, first, last)

    def read_use(self, first: int, last: int) -> None:
        name = self.word(first + 1)
        if last != first + 2 or name[0] != '"':
            raise self.fault(first + 1, 'use takes the name of a file in quotes: use "limits.dc";')
        for folder in (os.path.dirname(self.path), ROOT):
            path = os.path.join(folder, os.fsdecode(name[1:-1].encode("latin-1")))
            if os.path.isfile(path):
                break
        else:
            raise self.fault(first + 1, f"there is no file {name}, neither beside this file nor in {ROOT}")
        files, place = self.reading.files, identity(path)
        if place not in files:
            if list(files.values()).count(None) > MOST_LEVELS:
                raise self.fault(first + 1, f"this is used by more than {MOST_LEVELS} files, each of which uses the next")
            files[place] = None
            files[place] = Source(path, path if name.startswith('"/') else os.path.relpath(path), language.read_text(path), self.reading)
        used = files[place]
        if used is None:
            raise self.fault(first + 1, f"{name} uses itself by this")
        self.used.append(used)
        self.values = self.seen = None

    def read_constant(self, first: int, last: int) -> None:
        name = self.word(first + 1)
        if last < first + 4 or not is_name(name) or self.word(first + 2) != "=":
            raise self.fault(first + 1, "a constant is written const NAME = 20;")
        if name in self.constants:
            raise self.fault(first + 1, f"the constant {name} is there already")
        value, end = self.number(first + 3, last, self.all_constants())
        if end != last:
            raise self.fault(end, "a number is expected here: numbers and constants, joined by + and -")
        self.constants[name] = value

    def read_definition(self, order: int, first: int, last: int) -> None:
        if not is_name(self.word(first + 1) or "?"):
            return
        body, parameters = first + 2, []
        if self.word(body) == "(":
            close = self.closing(body, last)
            if close is None:
                return
            parameters, body = [it for it in self.words(body + 1, close) if it != ","], close + 1
        if self.word(body) != "as":
            return
        definition = Definition(self, order, self.word(first), self.word(first + 1), parameters, first, body + 1, last)
        self.find_numeric(definition)
        self.definitions.append(definition)
        self.by_name.setdefault(definition.name, definition)

    def find_numeric(self, definition: Definition) -> None:
        """A parameter stands for a number where it is in the place of one, or is passed on for one."""
        for first, last in self.number_places(definition.body, definition.last).items():
            definition.numeric.update(set(self.words(first, last)) & set(definition.parameters))
        for at in range(definition.body, definition.last):
            called = self.meaning(self.word(at), definition.order, definition.parameters)
            if called is None or not called.numeric:
                continue
            for parameter, (first, last) in zip(called.parameters, self.arguments(at + 1, definition.last)):
                if parameter in called.numeric:
                    definition.numeric.update(set(self.words(first, last)) & set(definition.parameters))

    # ---- names

    def all_constants(self) -> Dict[str, int]:
        """The constants of the used files and of this one. They are asked for while this one is read, and are kept once it is."""
        if self.values is None:
            self.values = {}
            for used in self.used:
                self.values.update(used.all_constants())
        return {**self.values, **self.constants}

    def visible(self) -> Mapping[str, List["Definition"]]:
        """The macros that a file gives to those that use it, by their names."""
        return {**self.from_used(), **{definition.name: [definition] for definition in self.definitions}}

    def from_used(self) -> Dict[str, List["Definition"]]:
        """The macros that the used files give, each once."""
        if self.seen is None:
            self.seen = {}
            for used in dict.fromkeys(self.used):
                for name, those in used.visible().items():
                    known = self.seen.setdefault(name, [])
                    known += [it for it in those if it not in known]
        return self.seen

    def meaning(self, word: str, order: int, hidden: Container[str]) -> Optional["Definition"]:
        """The macro that a name means in the statement with this number, or None."""
        if not word or not is_name(word) or word in hidden or word in self.variables:
            return None
        own = self.by_name.get(word)
        if own is not None:
            return own if own.order < order else None
        found = self.from_used().get(word)
        return found[0] if found else None

    def is_ambiguous(self, definition: "Definition") -> bool:
        """Whether several used files define this name by different texts."""
        return definition.source is not self and len({it.source.said(it) for it in self.from_used().get(definition.name, ())}) > 1

    def said(self, definition: "Definition") -> int:
        """A number for the words of a macro and of all that it calls: those that say the same have the same."""
        for own in self.definitions if definition.order not in self.contents else ():  # in their order, so that what each calls is known
            if own.order not in self.contents:
                words = self.words(own.first, own.last)
                called = [self.meaning(word, own.order, own.parameters) for word in words[2:]]
                calls = tuple(it.source.said(it) for it in called if it is not None)
                self.contents[own.order] = self.reading.number((tuple(words), calls))
        return self.contents[definition.order]

def identity(path: str) -> Tuple[int, int]:
    """What is the same for two paths of one file."""
    found = os.stat(path)
    return found.st_dev, found.st_ino


def load(path: str, shown: str, text: Optional[str] = None) -> Source:
    """The source in a file, or another text in its place. The file itself counts as being read: what uses it uses itself."""
    reading = Reading()
    text = language.read_text(path) if text is None else text
    reading.files[identity(path)] = None
    return Source(path, shown, text, reading)
