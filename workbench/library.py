"""The patterns of `patterns/`, read: what each file says of itself in its comments, and its parameters.

Comments of the form `// field: text` go on in lines that begin with `//   `. Fields: sentence (which instants count), end (what
happens at the end of a behaviour), numbers (their least values), good and bad (behaviours, for the numbers of the file's goal),
short (a plain form that says the same), reach (states, and how far the numbers go), synthesis, note, source, group.
"""
import os
import re
from dataclasses import dataclass
from typing import Dict, List, Optional, Tuple

from language import read_text
from sources import ROOT, Source

FOLDER = os.path.join(ROOT, "patterns")
GROUPS = ("occurrence", "order", "real time", "counting", "practice")


@dataclass
class Pattern:
    name: str
    path: str
    fields: Dict[str, str]
    variables: Tuple[str, ...]
    parameters: List[str]  # of its macro, in order
    numbers: Dict[str, int]  # the parameters that are numbers, as the file's goal has them

    @property
    def propositions(self) -> List[str]:
        """The other parameters, in the order of the variables of its behaviours."""
        found = [name for name in self.variables if name in self.parameters]
        return found + [name for name in self.parameters if name not in self.numbers and name not in found]

    @property
    def least(self) -> Dict[str, int]:
        """The least value of each number."""
        return {name: int(value) for name, value in re.findall(r"(\w+) from (\d+)", self.fields.get("numbers", ""))}

    def words(self, field: str) -> List[List[str]]:
        """The behaviours of a field."""
        return [word.split() for word in self.fields[field].split(", where")[0].split(";")]

    def text(self, numbers: Dict[str, int], goal: Optional[str] = None) -> str:
        """A source of this pattern with these numbers; the goal may be another form of the file's language."""
        values = {**self.numbers, **numbers}
        arguments = ", ".join(str(values.get(name, name)) for name in self.parameters)
        return f'use "{self.path}";\nvar {", ".join(self.variables)};\ninfer {goal or f"{self.name}({arguments})"};\n'


def fields_of(text: str) -> Dict[str, str]:
    found: Dict[str, str] = {}
    field = None
    for line in text.splitlines():
        match = re.match(r"// (\w+): (.*)$", line)
        if match:
            field = match.group(1)
            found[field] = match.group(2)
        elif line.startswith("//   ") and field:
            found[field] += " " + line[5:]
        else:
            field = None
    return found


def read_pattern(path: str) -> Pattern:
    name, text = os.path.basename(path)[:-3], read_text(path)
    source = Source(path, path, text)
    definition = source.definitions[-1]
    goal, _ = source.statements[-1]
    arguments = [" ".join(source.words(*span)) for span in source.arguments(goal + 2, len(source.tokens))]
    numbers = {parameter: int(argument) for parameter, argument in zip(definition.parameters, arguments) if parameter in definition.numeric}
    return Pattern(name, path, fields_of(text), tuple(source.variables), definition.parameters, numbers)


def pattern(name: str) -> Optional[Pattern]:
    """The pattern of this name, or None."""
    path = os.path.join(FOLDER, name + ".dc")
    return read_pattern(path) if re.fullmatch(r"\w+", name) and os.path.isfile(path) else None


def patterns() -> List[Pattern]:
    """All patterns, by their groups."""
    found = [read_pattern(os.path.join(FOLDER, name)) for name in sorted(os.listdir(FOLDER)) if name.endswith(".dc")]
    return sorted(found, key=lambda it: (GROUPS.index(it.fields["group"]), it.name))
