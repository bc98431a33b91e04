"""The meanings of names: `// name: meaning` at the head of a formula file, a comment after a name in its line, or a file of signals."""
import re
from itertools import takewhile
from os import PathLike
from typing import Dict, Iterator, List, Optional, Tuple, Union

from shapes import TOKEN, is_name
from signals import listed
from spots import printable, shown

ENTRY = re.compile(r"//\s*([A-Za-z]\w*)\s*:\s*(\S.*)", re.A)


def glossary(text: str, signals: Optional[Union[str, "PathLike[str]"]] = None) -> Dict[str, str]:
    """The meanings of the names that a text declares; its own comments precede those of a file of signals.

    The text has a character for each byte, as `read_text` returns it, and may have faults.
    """
    names = {name for name, _ in declared(text)}
    found = {it.name: printable(it.meaning) for it in listed(str(signals) if signals else None) if it.meaning}
    own = [*beside(text), *(entry for line in head(text) for entry in entries(line))]
    found.update((name, shown(meaning)) for name, meaning in own)
    return {name: meaning for name, meaning in found.items() if name in names}


def head(text: str) -> List[str]:
    """The comment lines that a text begins with."""
    return list(takewhile(lambda line: line.startswith("//"), text.split("\n")))


def sentence_of(text: str) -> str:
    """The comment at the head of a text without the lines that give the meaning of a declared name."""
    lines = head(text)
    names = {name for name, _ in declared(text)} if any(map(entries, lines)) else set()
    return " ".join(line[2:].strip() for line in lines if not any(name in names for name, _ in entries(line))).strip()


def entries(line: str) -> List[Tuple[str, str]]:
    match = ENTRY.fullmatch(line.rstrip())
    return [(match.group(1), match.group(2))] if match else []


def declared(text: str) -> Iterator[Tuple[str, int]]:
    """The variables, constants and macros of a text, each with the number of its line."""
    first, before, line = "", ";", 0
    for match in TOKEN.finditer(text):
        word = match.group()
        if match.group("blank") is not None:
            line += word.count("\n")
            continue
        if before == ";" or word in ("var", "define", "prop", "infer"):
            first = word
        elif (first == "var" or before == first and first in ("const", "define", "prop")) and is_name(word):
            yield word, line
        before = word


def beside(text: str) -> Iterator[Tuple[str, str]]:
    """Each name that is the only one declared in its line, with the comment at the end of that line."""
    lines = text.split("\n")
    by_line: Dict[int, List[str]] = {}
    for name, line in declared(text):
        by_line.setdefault(line, []).append(name)
    for line, names in by_line.items():
        comment = lines[line].partition("//")[2].strip()
        if comment and len(names) == 1:
            yield names[0], comment
