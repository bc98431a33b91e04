"""Behaviours as text: waves in which long runs of equal instants are folded, tables of digits, and a word in one line."""
import shutil
from dataclasses import dataclass
from typing import Any, Iterable, List, NamedTuple, Optional, Sequence

LEVELS = {"1": "#", "0": "_"}
ROOM = 4  # a run of at most so many instants is drawn whole


class Run(NamedTuple):
    """Equal things in a row: from where to where, and what they are."""

    first: int
    last: int
    value: Any

    @property
    def length(self) -> int:
        return self.last - self.first + 1


@dataclass(frozen=True)
class Column:
    """What a picture shows in one place: `count` instants from `first` on, all with the same letter."""

    first: int
    count: int


class HiddenChange(ValueError):
    """A fold that does not say what the word does."""


def runs(things: Iterable[Any]) -> List[Run]:
    found: List[Run] = []
    for place, value in enumerate(things):
        if found and found[-1].value == value:
            found[-1] = Run(found[-1].first, place, value)
        else:
            found.append(Run(place, place, value))
    return found


def columns(word: Sequence[str]) -> List[Column]:
    """The columns of a picture: of a long run its first and last instant, and between them how many there are."""
    found: List[Column] = []
    for run in runs(word):
        if run.length <= ROOM:
            found += [Column(place, 1) for place in range(run.first, run.last + 1)]
        else:
            found += [Column(run.first, 1), Column(run.first + 1, run.length - 2), Column(run.last, 1)]
    return found


def check_columns(word: Sequence[str], shown: Sequence[Column]) -> None:
    """Raises HiddenChange where columns leave an instant out, or fold instants that differ."""
    place = 0
    for column in shown:
        if column.first != place or column.count < 1:
            raise HiddenChange(f"instant {place} is not shown")
        for instant in range(place, place + column.count):
            if instant >= len(word) or word[instant] != word[place]:
                raise HiddenChange(f"the fold of {column.count} instants from {place} on hides a change at {instant}")
        place += column.count
    if place != len(word):
        raise HiddenChange(f"instant {place} is not shown")


def terminal_width() -> int:
    return max(40, shutil.get_terminal_size((100, 24)).columns)


def waves(variables: Sequence[str], word: Sequence[str], width: Optional[int] = None, shown: Optional[Sequence[Column]] = None) -> List[str]:
    """A line for each variable: # where it is true, _ where it is false. `x7` stands for 7 instants that are all like those beside it.

    Where a line would be wider than `width` (the terminal's where it is not given), the picture goes on below.
    """
    shown = columns(word) if shown is None else shown
    check_columns(word, shown)
    margin = max([7] + [len(name) for name in variables]) + 1
    lines: List[str] = []
    block: List[Column] = []
    used = margin
    for column in shown:
        cell = _cell(column)
        if block and used + cell > (width or terminal_width()):
            lines += _block(variables, word, block, margin) + [""]
            block, used = [], margin
        block.append(column)
        used += cell
    return lines + _block(variables, word, block, margin)


def _cell(column: Column) -> int:
    """How wide a column is."""
    return max(3, len(str(column.first)) + 1) if column.count == 1 else len(str(column.count)) + 5


def _block(variables: Sequence[str], word: Sequence[str], block: Sequence[Column], margin: int) -> List[str]:
    head = "instant".ljust(margin)
    for column in block:
        head += (str(column.first) if column.count == 1 else ".. ").rjust(_cell(column))
    lines = [head.rstrip()]
    for place, name in enumerate(variables):
        line = name.ljust(margin)
        for column in block:
            level = LEVELS.get(word[column.first][place], "?")
            line += level * _cell(column) if column.count == 1 else f" x{column.count} ".center(_cell(column), level)
        lines.append(line)
    return lines


def table(variables: Sequence[str], word: Sequence[str]) -> List[str]:
    """A line for each instant, with a digit below each name."""
    lines = ["  ".join(["instant", *variables])]
    for instant, letter in enumerate(word):
        digits = [letter[place].rjust(len(name)) for place, name in enumerate(variables)]
        lines.append("  ".join([str(instant).rjust(7), *digits]))
    return lines


def in_line(word: Sequence[str]) -> str:
    """A word in one line, as `10 00 x3 01`: a letter three or more times in a row is written once."""
    parts: List[str] = []
    for run in runs(word):
        parts += [run.value] * run.length if run.length < 3 else [f"{run.value} x{run.length}"]
    return " ".join(parts)


def spoken_runs(answers: Sequence[Any]) -> str:
    """Answers as runs, as `1 at 0 .. 4024, 0 from 4025`."""
    found = runs(answers)
    parts = []
    for number, run in enumerate(found):
        if number == len(found) - 1:
            parts.append(f"{run.value} from {run.first}" if run.length > 1 else f"{run.value} at {run.first}")
        else:
            parts.append(f"{run.value} at {run.first}" + (f" .. {run.last}" if run.length > 1 else ""))
    return ", ".join(parts)


def instants(number: int) -> str:
    return f"{number} instant" + "s" * (number != 1)


def heading(what: str, word: Sequence[str]) -> str:
    """What stands above a behaviour: what it does, and how long it is."""
    return f"{what}, {instants(len(word))}:"
