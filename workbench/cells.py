"""The cells of a log as numbers, truths and texts: what is none of these is refused by its column, or the last value is held."""
import re
from decimal import Decimal
from typing import Callable, Dict, Optional, Sequence, Union

from monitors import TRUTHS

Row = Sequence[str]
Value = Union[Decimal, bool, str]
NUMBER = re.compile(r"[+-]?(?:\d+\.?\d*|\.\d+)(?:[eE][+-]?\d{1,3})?", re.A)
MOST_KNOWN = 1 << 16  # cells whose values are kept


class BadCell(Exception):
    """A cell is not what is wanted; the message says which and why."""


def number_of(text: str) -> Optional[Decimal]:
    return Decimal(text) if len(text) < 400 and NUMBER.fullmatch(text) else None


def truth_of(text: str) -> Optional[bool]:
    digit = TRUTHS.get(text.lower())
    return None if digit is None else digit == "1"


def text_of(text: str) -> Optional[str]:
    return text


WANTED: Dict[Callable[[str], Optional[Value]], str] = {number_of: "number", truth_of: "truth; 0 and 1, false and true, off and on, no and yes are", text_of: "text"}


class Cell:
    """A column that is read as a number, a truth or a text. Where a value is held, a cell that is none has the one of the last row."""

    def __init__(self, name: str, place: int, read: Callable[[str], Optional[Value]], holds: bool) -> None:
        self.name, self.place, self.read, self.holds = name, place, read, holds
        self.known: Dict[str, Value] = {}
        self.last: Optional[Value] = None

    def __call__(self, row: Row) -> Value:
        text = row[self.place] if self.place < len(row) else None
        value = self.known.get(text) if text is not None else None
        if value is None:
            value = self.new(text)
        self.last = value
        return value

    def new(self, text: Optional[str]) -> Value:
        """The value of a text that was not met before, or of a cell that is not there."""
        value = self.read(text.strip()) if text is not None else None
        if value is not None and text is not None:
            if len(self.known) >= MOST_KNOWN:
                self.known.clear()
            self.known[text] = value
            return value
        if self.holds and self.last is not None:
            return self.last
        if text is None:
            return self.refuse(f"the row ends before the column of {self.name}")
        return self.refuse(f"{self.name} is '{text.strip()[:80]}', which is no {WANTED[self.read]}" + ("; there is no value to hold" if self.holds else ""))

    @staticmethod
    def refuse(message: str) -> Value:
        raise BadCell(message)
