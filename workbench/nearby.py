"""Names of a set that are near each other: one that a single file has and that differs in a letter, `_` or case from another file's."""
import difflib
import re
from collections import defaultdict
from typing import Dict, Iterator, List, Sequence, Set

from joined import Requirement

LEAST = 4  # letters: shorter names are near each other all the time


def bare(name: str) -> str:
    """A name without what is easily mistaken."""
    return name.replace("_", "").lower()


def shapes_of(name: str) -> Set[str]:
    """What two names have in common that differ in one letter: the name, and the name with one letter left out or blotted out."""
    word = bare(name)
    found = {word}
    for place, letter in enumerate(word):
        if letter.isalpha():
            found |= {word[:place] + word[place + 1:], f"{word[:place]}?{word[place + 1:]}"}
    return found


def near_names(requirements: Sequence[Requirement]) -> Iterator[str]:
    """A line for each name that one file alone has and that is near names of others."""
    files: Dict[str, List[str]] = defaultdict(list)
    for it in requirements:
        for name in it.variables:
            files[name].append(it.name)
    by_shape: Dict[str, List[str]] = defaultdict(list)
    for name in files:
        for shape in shapes_of(name):
            by_shape[shape].append(name)
    for name, those in files.items():
        if len(those) == 1 and len(bare(name)) >= LEAST:
            found = {other for shape in shapes_of(name) for other in by_shape[shape] if other != name and is_near(name, other)}
            near = sorted(other for other in found if (len(files[other]), other) > (1, name) and files[other] != those)
            if near:
                yield f"{name} is in {those[0]} alone, and {', '.join(f'{other} in {spoken(files[other])}' for other in near[:3])}"


def is_near(one: str, other: str) -> bool:
    """Whether two names differ in a letter, `_` or case, and not in a digit."""
    first, second = bare(one), bare(other)
    return re.sub(r"\D", "", first) == re.sub(r"\D", "", second) and abs(len(first) - len(second)) <= 1


def spoken(files: Sequence[str]) -> str:
    return files[0] if len(files) == 1 else f"{files[0]} and {len(files) - 1} more"


def strange_names(requirements: Sequence[Requirement], signals: Sequence[str]) -> Iterator[str]:
    """A line for each name that is no signal."""
    known = set(signals)
    for it in requirements:
        for name in it.variables:
            if name not in known:
                near = [signal for signal in signals if bare(signal) == bare(name)] or difflib.get_close_matches(name, signals, 1, 0.8)
                yield f"{name} of {it.name} is no signal" + (f"; {near[0]} is one" if near else "")
