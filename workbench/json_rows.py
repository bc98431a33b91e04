"""Logs in JSON lines: an object a line; a member of a member is named with a dot between."""
import json
from typing import Any, Dict, Iterator, List, Optional, Sequence, Tuple

from lines import Chunk, LogFault, chunks, name_of
from tabular import Block, column_of


def members(value: Dict[str, Any], before: str = "") -> Iterator[Tuple[str, str]]:
    """The members of an object as texts: numbers as they are written, and null as nothing."""
    for name, inner in value.items():
        if isinstance(inner, dict):
            yield from members(inner, f"{before}{name}.")
        elif not isinstance(inner, list):
            yield before + name, "" if inner is None else {True: "1", False: "0"}[inner] if isinstance(inner, bool) else str(inner)


class JsonLines:
    """A log that is being read: its columns are the members of the first object."""

    def __init__(self, path: str, follow: bool) -> None:
        self.path, self.shown = path, name_of(path)
        self.chunks = chunks(path, follow)
        self.begin = next(self.chunks, None)
        self.names: List[str] = list(self.members_of(self.begin.text.split("\n")[0], self.begin.first)) if self.begin else []
        self.label: Optional[int] = None
        self.wanted: Sequence[int] = ()
        self.reads_label, self.shift = False, 0

    def column(self, name: str, variable: str, _: bool = False) -> int:
        return column_of(self.shown, self.names, name, variable)

    def members_of(self, line: str, number: int) -> Dict[str, str]:
        try:
            value = json.loads(line, parse_float=str, parse_int=str)
        except (ValueError, RecursionError) as error:
            raise LogFault(f"{self.shown}:{number}: this is no JSON: {error}") from None
        if not isinstance(value, dict):
            raise LogFault(f"{self.shown}:{number}: this is no object of JSON")
        return dict(members(value))

    def row(self, line: str, number: int) -> List[str]:
        """The cells that are wanted; the others are empty."""
        found, cells = self.members_of(line, number), [""] * len(self.names)
        for place in self.wanted:
            if self.names[place] not in found:
                raise LogFault(f"{self.shown}:{number}: the object has no member {self.names[place]}")
            cells[place] = found[self.names[place]]
        return cells

    def blocks(self) -> Iterator[Block]:
        if self.begin is not None:
            yield from self.block(self.begin)
        for chunk in self.chunks:
            yield from self.block(chunk)

    def block(self, chunk: Chunk) -> Iterator[Block]:
        made = Block([], [], [], [])
        lines: List[int] = []
        fault = None
        for number, line in enumerate(chunk.text.split("\n"), chunk.first):
            try:
                row = self.row(line, number) if line.strip() else None
            except LogFault as found:
                fault = found
                break
            if row is not None:
                made.rows.append(row)
                made.counts.append(1)
                made.labels.append(str(number) if self.label is None else row[self.label])
                lines.append(number)
        if lines:
            yield made._replace(lines=lines)
        if fault:
            raise fault
