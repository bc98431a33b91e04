"""Logs of all formats as rows of the cells that variables have, with signals, held values, even times and gaps."""
import os
from dataclasses import dataclass, field
from itertools import repeat
from typing import Any, Callable, Dict, Iterator, List, Mapping, Optional, Protocol, Sequence, Tuple, Union

from cells import WANTED, BadCell, Cell, truth_of
from dumps import Dump
from json_rows import JsonLines
from lines import LogFault
from monitors import MOST_KNOWN, Codes, NoTruth, cells_at
from signals import Expression, Signal
from tabular import Block, Table, cut
from times import UNITS, Clock, Sampler, Steps, duration, is_time

Row = Tuple[str, str]  # a label and a letter
KINDS = {".vcd": "vcd", ".jsonl": "jsonl", ".ndjson": "jsonl", ".json": "jsonl"}


class Log(Protocol):
    """A log that is being read: it finds columns, and then gives its rows."""

    shown: str
    names: List[str]
    label: Optional[int]  # the column of the labels
    wanted: Sequence[int]  # the columns that are read
    reads_label: bool  # whether the column of the labels is one of a variable or a signal too

    @property
    def shift(self) -> int:
        """How many of the columns are left out in front of the cells of a row."""

    def column(self, name: str, variable: str, number: bool = False) -> int:
        """The place of a column, which a variable is read from, and which may have numbers."""

    def blocks(self) -> Iterator[Block]:
        """The rows."""


@dataclass
class Settings:
    """How a log is read."""

    path: str
    kind: Optional[str] = None  # csv, jsonl or vcd
    columns: Mapping[str, str] = field(default_factory=dict)  # of variables that have another name in the log
    signals: Sequence[Signal] = ()
    holds: bool = False
    separator: Optional[str] = None
    follow: bool = False
    clock: Optional[str] = None
    period: Optional[str] = None
    time: Optional[str] = None  # the column of times
    unit: str = "s"
    gap: Optional[int] = None
    anew: bool = False
    pulses: bool = False


def kind_of(path: str) -> str:
    """`csv`, `jsonl` or `vcd`, by the ending of the name."""
    stem = path[:-3] if path.lower().endswith(".gz") else path
    return KINDS.get(os.path.splitext(stem)[1].lower(), "csv")


def open_log(settings: Settings) -> Log:
    kind = settings.kind or kind_of(settings.path)
    if kind == "vcd":
        if settings.time or settings.gap or settings.follow or settings.pulses or settings.unit != "s":
            raise LogFault("--time, --unit, --gap, --any and --follow are not for VCD files")
        if settings.period is not None and not (settings.period.isdigit() and 0 < int(settings.period[:40])):
            raise LogFault(f"--period {settings.period}: of a VCD file it is a number of units of time")
        return Dump(settings.path, settings.clock, int(settings.period[:40]) if settings.period else None)
    if settings.clock or settings.period and not duration(settings.period):
        raise LogFault("--clock and a --period without a unit are for VCD files; of other files --period is a time, as 10ms")
    if kind == "jsonl":
        return JsonLines(settings.path, settings.follow)
    return Table(settings.path, settings.separator, settings.follow)


class Known(Dict[str, bool]):
    """A signal that is made of one column: its values by the cells."""

    def __init__(self, value: Callable[[Sequence[str]], bool], place: int) -> None:
        super().__init__()
        self.value, self.place = value, place

    def __missing__(self, text: str) -> bool:
        if len(self) >= MOST_KNOWN:
            self.clear()
        self[text] = self.value((text,))
        return self[text]

    def __call__(self, row: Sequence[str]) -> bool:
        return self[row[self.place]]


class Source:
    """A log and where the variables are in its rows."""

    def __init__(self, settings: Settings, variables: Sequence[str]) -> None:
        self.settings, self.log = settings, open_log(settings)
        self.shown = self.log.shown
        self.steps: Optional[Steps] = None
        self.made: List[Callable[[Sequence[str]], Any]] = []  # the variables that are evaluated
        signals = {it.name: it for it in settings.signals if it.expression}
        everything = settings.holds or settings.pulses
        self.raw = [name for name in variables if name not in signals and not everything]
        raw = [self.log.column(settings.columns.get(name, name), name) for name in self.raw]
        self.used: List[int] = list(raw)
        evaluated = [name for name in variables if name in signals or everything]
        readers = [self.reader(name, signals.get(name)) for name in evaluated]
        self.find_label()
        self.log.reads_label = self.log.label in self.used
        shift = self.log.shift
        self.log.wanted = self.used + ([self.log.label] if self.log.label is not None else [])
        self.made = [reader() for reader in readers]
        self.places = {name: place - shift for name, place in zip(self.raw, raw)}
        self.kept = [place - shift for place in raw]
        if self.made:
            self.places = {name: place for place, name in enumerate([*self.raw, *evaluated])}

    def reader(self, name: str, signal: Optional[Signal]) -> Callable[[], Callable[[Sequence[str]], Any]]:
        """Finds the columns of a variable that is evaluated; what is returned makes it, when it is known which column is the label."""
        if signal is None:
            place = self.use(self.settings.columns.get(name, name), name, False)
            return lambda: Cell(name, place - self.log.shift, truth_of, self.settings.holds)
        given, holds, begin = signal, self.settings.holds, len(self.used)
        Expression(given, lambda column, number: self.use(column, "", number), False).whole()
        places = set(self.used[begin:])
        if len(places) == 1 and not holds:
            return lambda: Known(Expression(given, lambda *_: 0, False).whole(), min(places) - self.log.shift)
        return lambda: Expression(given, lambda column, _: self.log.column(column, "") - self.log.shift, holds).whole()

    def use(self, name: str, variable: str, number: bool) -> int:
        place = self.log.column(name, variable, number)
        self.used.append(place)
        return place

    def find_label(self) -> None:
        """The column of the labels: the one of times, or the first that no variable is read from."""
        if self.settings.time is not None:
            self.log.label = self.log.column(self.settings.time, "")
        elif not isinstance(self.log, Dump):
            self.log.label = next((place for place in range(len(self.log.names)) if place not in self.used), None)

    def blocks(self) -> Iterator[Block]:
        """The instants, with the cells of the variables at their places."""
        settings, log, unit = self.settings, self.log, UNITS[self.settings.unit]
        blocks = log.blocks()
        if self.made:
            blocks = self.evaluated(blocks)
        period = None if isinstance(log, Dump) or settings.period is None else duration(settings.period)
        if period or settings.gap:
            if log.label is None:
                raise LogFault(f"{self.shown}: no column has times; --time names it")
            return Sampler(Clock(self.shown, unit, settings.gap, settings.anew), period, settings.pulses).blocks(blocks)
        return blocks if isinstance(log, Dump) or log.label is None else self.looked_at(blocks, unit)

    def looked_at(self, blocks: Iterator[Block], unit: int) -> Iterator[Block]:
        """The same blocks; whether the steps of time are even is looked at."""
        for number, block in enumerate(blocks):
            if number == 0 and self.log.label is not None:
                if self.settings.time or is_time(self.log.names[self.log.label], block.labels[0]):
                    self.steps = Steps(unit)
            bad = self.steps.block(block) if self.steps else None
            if bad is None or not self.settings.time:
                yield block
            else:
                yield cut(block, 0, bad)
                raise LogFault(f"{self.shown}:{block.lines[bad]}: '{block.labels[bad].strip()[:80]}' is no time")

    def evaluated(self, blocks: Iterator[Block]) -> Iterator[Block]:
        """The blocks with the values of all variables, of which some are signals."""
        for block in blocks:
            rows: List[List[str]] = []
            counts: List[int] = []
            fault = None
            for row, count in zip(block.rows, block.counts):
                try:
                    values = [row[place] for place in self.kept] + ["1" if made(row) else "0" for made in self.made]
                except (BadCell, IndexError) as bad:
                    place = sum(counts)
                    fault = LogFault(f"{self.shown}:{block.lines[place]}: " + (str(bad) if isinstance(bad, BadCell) else self.missing(row)))
                    block = block._replace(labels=block.labels[:place], lines=block.lines[:place])
                    break
                if rows and values == rows[-1]:
                    counts[-1] += count
                else:
                    rows.append(values)
                    counts.append(count)
            if rows:
                yield block._replace(rows=rows, counts=counts)
            if fault:
                raise fault

    def missing(self, row: Sequence[str]) -> str:
        names = {place - self.log.shift: self.log.names[place] for place in self.used}
        return f"the row ends before the column of {names[min(place for place in names if place >= len(row))]}"


def bad_cells(row: Sequence[str], variables: Sequence[str], places: Sequence[int]) -> Optional[str]:
    """What is wrong with the cells of the variables in a row, or None."""
    for variable, place in zip(variables, places):
        if place >= len(row):
            return f"the row ends before the column of {variable}"
        if truth_of(row[place].strip()) is None:
            return f"{variable} is '{row[place].strip()[:80]}', which is no {WANTED[truth_of]}"
    return None


def letters_of(source: Source, variables: Sequence[str]) -> Iterator[Row]:
    """The rows of a log, as pairs of a label and a letter."""
    places = [source.places[name] for name in variables]
    codes, cells = Codes(), cells_at(places)
    for block in source.blocks():
        at = 0
        for row, count in zip(block.rows, block.counts):
            try:
                letter = codes.letters[ord(codes[cells(row)])]
            except (NoTruth, IndexError):
                raise LogFault(f"{source.shown}:{block.lines[at]}: {bad_cells(row, variables, places)}") from None
            yield from zip((label.strip() for label in block.labels[at:at + count]), repeat(letter))
            at += count


def rows_of(path: str, variables: Sequence[str], columns: Mapping[str, str], kind: Optional[str] = None, clock: Optional[str] = None,
            period: Union[int, None] = None) -> Iterator[Row]:
    """The rows of a log, where nothing but its columns is told."""
    settings = Settings(path, kind, columns, clock=clock, period=None if period is None else str(period))
    return letters_of(Source(settings, variables), variables)
