"""Several requirements in one file: joined by the names of their variables, with their macros renamed apart."""
import os
import re
from dataclasses import dataclass, field, replace
from typing import Callable, Dict, FrozenSet, Iterable, Iterator, List, Optional, Sequence, Tuple

from glossary import glossary, sentence_of
from language import File, Tree, parse, read_text, to_text


@dataclass(eq=False)
class Requirement:
    """A file of the set: its name in the table, and its text in the language (None where it has a fault, which `fault` tells in lines)."""

    name: str
    path: str
    text: str = ""
    fault: Optional[List[str]] = None
    file: Optional[File] = None
    id: str = ""  # of its leading comment, as REQ-4711: in front of the sentence
    sentence: str = ""
    meanings: Dict[str, str] = field(default_factory=dict)  # of its names, as its comments say
    lines: Dict[Tuple[str, int], List[str]] = field(default_factory=dict)  # its macros, as they stand with others
    words: FrozenSet[str] = frozenset()  # all names that occur in it, but those of macros

    @property
    def variables(self) -> Tuple[str, ...]:
        return self.file.variables if self.file else ()

    @property
    def whole(self) -> File:
        """The file of one without a fault."""
        assert self.file is not None
        return self.file


def named(paths: Sequence[str]) -> List[Tuple[str, str]]:
    """Each path with a name for the table: the file's own where no other has it."""
    short = [os.path.basename(path)[:-3] if path.endswith(".dc") else os.path.basename(path) for path in paths]
    return [(name if short.count(name) == 1 else path, path) for name, path in zip(short, paths)]


def names_of(requirements: Iterable[Requirement], first: Sequence[str] = ()) -> List[str]:
    """The variables of all, each once; those of `first` that occur stand in front."""
    found = dict.fromkeys(name for it in requirements for name in it.variables)
    return [name for name in first if name in found] + [name for name in found if name not in first]


def words_of(file: File) -> FrozenSet[str]:
    """All names that occur in a requirement, but those of macros."""
    found = set(file.variables)
    for tree in [file.goal] + [macro.body for macro in file.macros.values()]:
        found.update(part.value for part in tree.walk() if part.kind in ("name", "ex", "all"))
    for macro in file.macros.values():
        found.update(macro.parameters)
    return frozenset(found)


def fresh_prefix(requirements: Sequence[Requirement], letter: str) -> str:
    """A prefix that no name of the requirements begins with."""
    words, prefix = {word for it in requirements for word in it.words if word.startswith(letter)}, letter
    while any(word.startswith(prefix) for word in words):
        prefix += letter
    return prefix


def renamed(tree: Tree, names: Dict[str, str]) -> Tree:
    """A tree whose calls of macros have their new names."""
    value = names.get(tree.value, tree.value) if tree.kind in ("name", "call") else tree.value
    return replace(tree, value=value, parts=tuple(renamed(part, names) for part in tree.parts))


def macro_lines(requirement: Requirement, prefix: str, number: int) -> Iterator[str]:
    """The macros of a requirement with names of their own, and its goal as the macro PREFIX + number."""
    names = {name: f"{prefix}{number}_{place}" for place, name in enumerate(requirement.whole.macros)}
    for macro in requirement.whole.macros.values():
        parameters = f"({', '.join(macro.parameters)})" if macro.parameters else ""
        yield f"{macro.kind} {names[macro.name]}{parameters} as {to_text(renamed(macro.body, names))};"
    yield f"define {prefix}{number} as {to_text(renamed(requirement.whole.goal, names))};"


def joined(requirements: Sequence[Requirement], first: Sequence[str] = ()) -> str:
    """A file whose formula is that of all the requirements together; the variables of `first` stand in front."""
    prefix = fresh_prefix(requirements, "r")
    declared = names_of(requirements, first)
    lines = [f"var {', '.join(declared)};"] if declared else []
    for number, it in enumerate(requirements):
        if (prefix, number) not in it.lines:
            it.lines[prefix, number] = list(macro_lines(it, prefix, number))
        lines += it.lines[prefix, number]
    together = " && ".join(f"{prefix}{number}" for number in range(len(requirements)))
    return "\n".join(lines + [f"infer {together};", ""])


def heading_of(text: str) -> Tuple[str, str]:
    """The id and the sentence in the leading comment of a file, as in `// REQ-4711: The door stays locked.`"""
    said = sentence_of(text)
    match = re.match(r"([A-Za-z][\w.]*[-_.]\d[\w.-]*|[A-Z]+\d[\w.-]*):\s*", said, re.A)
    return (match.group(1), said[match.end():]) if match else ("", said)


def read_requirement(name: str, path: str, expanded: Callable[[str], Tuple[Optional[str], Optional[List[str]]]]) -> Requirement:
    """A requirement of the set; `expanded(path)` gives the text in the language and the lines of a fault, one of both None."""
    try:
        text, fault = expanded(path)
        own = read_text(path) if path else ""
    except OSError as error:
        text, fault, own = None, [f"{path}: {error.strerror}"], ""
    head = heading_of(own.encode("latin-1").decode("utf-8", "replace"))
    if text is None:
        return Requirement(name, path, fault=fault, id=head[0], sentence=head[1])
    file = parse(text)
    return Requirement(name, path, text, fault, file, *head, glossary(own), words=words_of(file))
