"""Logs as rows of cells, in blocks: CSV. A row that repeats the one before but for its label is kept once, with a count."""
import csv
import re
from difflib import get_close_matches
from typing import Any, Iterator, List, NamedTuple, Optional, Sequence, Tuple

from lines import MOST_LINE, Chunk, LogFault, Unnamed, chunks, name_of

MARKS = (",", ";", "\t", "|")
MOST_QUOTED = 1 << 20  # characters of a row that goes over several lines


class Block(NamedTuple):
    """Some rows. Of each run of rows that differ in the label alone the cells are there once, and how many rows it has."""

    rows: List[List[str]]
    counts: List[int]
    labels: List[str]  # of each row
    lines: Sequence[int]  # of each row
    anew: bool = False  # whether what was before is forgotten


def cut(block: Block, first: int, last: int) -> Block:
    """Some rows of a block, by their places."""
    if len(block.rows) == len(block.labels):
        return block._replace(rows=block.rows[first:last], counts=block.counts[first:last], labels=block.labels[first:last], lines=block.lines[first:last])
    rows: List[List[str]] = []
    counts: List[int] = []
    at = 0
    for row, count in zip(block.rows, block.counts):
        within = min(last, at + count) - max(first, at)
        if within > 0:
            rows.append(row)
            counts.append(within)
        at += count
    return block._replace(rows=rows, counts=counts, labels=block.labels[first:last], lines=block.lines[first:last])


class Table:
    """A log in CSV that is being read: the names of its columns are there when it is made."""

    def __init__(self, path: str, separator: Optional[str] = None, follow: bool = False) -> None:
        self.path = path
        self.shown = name_of(path)
        self.chunks = chunks(path, follow)
        first = next(self.chunks, Chunk("", 1, False, False))
        self.head, _, rest = first.text.partition("\n")
        if self.head.count('"') % 2:
            raise LogFault(f"{self.shown}:1: a quote is not closed in the header")
        self.separator = separator or separator_of(self.head, rest)
        self.names = [name.strip() for name in next(csv.reader([self.head], delimiter=self.separator, skipinitialspace=True), [])]
        self.rest: Optional[Chunk] = Chunk(rest, 2, first.ends, False) if "\n" in first.text else None
        self.label: Optional[int] = None  # the column of the labels; where there is none they are lines
        self.wanted: Sequence[int] = ()  # the columns that are read
        self.reads_label = False  # whether that of the labels is one of a variable or a signal too
        self.left: List[str] = []  # lines of a row that goes on, from this line on
        self.left_line = self.empty = 0  # and an empty line of a log with one column

    @property
    def shift(self) -> int:
        """How many columns are left out of the cells: that of the labels where it is the first."""
        return int(self.label == 0 and len(self.names) > 1 and not self.reads_label)

    def column(self, name: str, variable: str, _: bool = False) -> int:
        return column_of(self.shown, self.names, name, variable)

    def blocks(self) -> Iterator[Block]:
        if self.rest is not None:
            yield from self.block(self.rest)
        for chunk in self.chunks:
            if chunk.new:
                text = chunk.text[len(self.head):].lstrip("\n") if chunk.text.startswith(self.head) else chunk.text
                chunk = chunk._replace(text=text, first=1 + (text is not chunk.text))
            yield from self.block(chunk)
        if self.left:
            raise self.unclosed("where the log ends")

    def fault(self, line: int, message: str) -> LogFault:
        return LogFault(f"{self.shown}:{line}: {message}")

    def block(self, chunk: Chunk) -> Iterator[Block]:
        text = chunk.text
        careful = self.left or not text or '"' in text or "\n\n" in text or "\n" in (text[0], text[-1]) or not chunk.ends or not self.names[1:]
        found, fault = self.carefully(chunk) if careful else self.quickly(text.split("\n"), chunk.first)
        if found.labels:
            yield found
        if fault:
            raise fault

    def quickly(self, lines: List[str], first: int) -> Tuple[Block, Optional[LogFault]]:
        """The rows of lines without quotes, none of them empty, and what is wrong after them."""
        rows: List[List[str]] = []
        counts: List[int] = []
        labels: List[str] = []
        mark, shift = self.separator, self.shift
        width, most = len(self.names) - 1 - shift, max(self.wanted, default=0) + 1 - shift
        last = None
        for number, line in enumerate(lines):
            label, tail = "", line
            if shift:
                label, _, tail = line.partition(mark)
            if tail != last:
                if tail.count(mark) > width:
                    return Block(rows, counts, labels, range(first, first + number)), self.too_long(first + number, tail.count(mark) + 1 + shift)
                row = tail.split(mark, most)
                if not shift and self.label is not None:
                    if self.label >= len(row):
                        return Block(rows, counts, labels, range(first, first + number)), self.no_label(first + number)
                    label = row[self.label]
                rows.append(row)
                counts.append(1)
                last = tail
            else:
                counts[-1] += 1
                label = label if shift or self.label is None else row[self.label]
            labels.append(label)
        numbers = range(first, first + len(lines))
        return Block(rows, counts, labels if self.label is not None else list(map(str, numbers)), numbers), None

    def too_long(self, line: int, cells: int) -> LogFault:
        return self.fault(line, f"the row has {cells} cells, and the header {len(self.names)}")

    def unclosed(self, where: str) -> LogFault:
        return self.fault(self.left_line, f"the quote that begins in column {column_of_quote(self.left, self.separator)} is not closed {where}")

    def no_label(self, line: int) -> LogFault:
        return self.fault(line, "the row ends before the column of its label")

    def carefully(self, chunk: Chunk) -> Tuple[Block, Optional[LogFault]]:
        """The rows of any lines, and what is wrong after them. An empty line is none; but of a log with one column it is an empty cell
        where others follow it."""
        lines = self.left + chunk.text.split("\n")
        first = self.left_line if self.left else chunk.first
        self.left = []
        rows: List[List[str]] = []
        labels: List[str] = []
        places: List[int] = []
        fault: Optional[LogFault] = None
        try:
            for begin, end, cells in self.records(lines):
                if cells:
                    fault = self.fault_of(first + end, cells, chunk.ends or end < len(lines) - 1)
                if fault:
                    break
                if cells:
                    rows.append(cells[self.shift:])
                    labels.append(str(first + end) if self.label is None else cells[self.label])
                    places.append(first + end)
                elif len(self.names) == 1:
                    self.empty = self.empty or first + begin
        except csv.Error as error:
            fault = self.fault(first + len(rows), str(error))
        if self.left:
            self.left_line = first + len(lines) - len(self.left)
            fault = self.unclosed(f"in {MOST_QUOTED} characters") if sum(map(len, self.left)) > MOST_QUOTED else fault
        return Block(rows, [1] * len(rows), labels, places), fault

    def fault_of(self, line: int, cells: List[str], ends: bool) -> Optional[LogFault]:
        if self.empty:
            return self.fault(self.empty, "the row is empty")
        if len(cells) > len(self.names):
            return self.too_long(line, len(cells))
        if len(cells) < len(self.names) and not ends:
            return self.fault(line, f"the log ends within the row, after {len(cells)} of {len(self.names)} cells")
        return self.no_label(line) if self.label is not None and self.label >= len(cells) else None

    def records(self, lines: List[str]) -> Iterator[Tuple[int, int, List[str]]]:
        """The rows, each with its first and its last line; one that goes on after these lines is left for the next ones."""
        ended = []

        def fed() -> Iterator[str]:
            for line in lines:
                yield line + "\n"
            ended.append(True)

        csv.field_size_limit(MOST_LINE)
        reader: Any = csv.reader(fed(), delimiter=self.separator, skipinitialspace=True)
        done = 0
        for cells in reader:
            if ended:
                self.left = lines[done:]
                return
            yield done, reader.line_num - 1, cells
            done = reader.line_num


def column_of_quote(lines: Sequence[str], separator: str) -> int:
    """The number of the cell whose quote is not closed: the last one of the row as far as it is there."""
    return len(next(csv.reader([line + "\n" for line in lines], delimiter=separator, skipinitialspace=True), []))


def separator_of(head: str, rest: str) -> str:
    """What the cells are separated by: the one mark that the header has, and of several what csv.Sniffer finds."""
    bare = re.sub(r'"[^"]*"', "", head)
    found = [mark for mark in MARKS if mark in bare]
    if len(found) < 2:
        return found[0] if found else ","
    try:
        return csv.Sniffer().sniff("\n".join([head, *rest.split("\n")[:20]]), "".join(found)).delimiter
    except csv.Error:
        return found[0]


def column_of(shown: str, names: Sequence[str], wanted: str, variable: str) -> int:
    """Where the column stands that a variable is read from."""
    if names.count(wanted) == 1:
        return names.index(wanted)
    if wanted in names:
        raise LogFault(f"{shown}: {names.count(wanted)} columns are named {wanted}")
    near = get_close_matches(wanted, names, 1, 0.8)
    hint = (f"; {near[0]} is near" if near else "") + ("" if wanted != variable else f"; --column {variable}=NAME names another one, and --let makes one")
    raise Unnamed(f"{shown}: no column is named {wanted}; there are: {', '.join(names) or 'none'}{hint}", wanted)
