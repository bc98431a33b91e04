"""The times of a log's rows: whether its steps are even, gaps between rows, and instants at even times, at which the last row holds."""
import re
from datetime import datetime, timedelta, timezone
from decimal import Decimal
from operator import sub
from typing import Iterable, Iterator, List, Optional, Sequence, Tuple

from lines import LogFault
from tabular import Block

UNITS = {"ns": 1, "us": 1_000, "ms": 1_000_000, "s": 1_000_000_000, "min": 60_000_000_000, "h": 3_600_000_000_000}
NUMBER = re.compile(r"-?\d{1,20}(\.\d{1,20})?", re.A)
CLOCK = re.compile(r"(\d{1,3}):(\d\d)(?::(\d\d(?:\.\d{1,9})?))?", re.A)
DATE = re.compile(r"(\d{4}-\d\d-\d\d)[T ](\d\d:\d\d)(?::(\d\d)(?:[.,](\d{1,9}))?)?(Z|[+-]\d\d:?\d\d)?", re.A)
NAMED = re.compile(r"(t|ts|time.*|date.*|clock|(.*[ _.(\[])?(s|ms|us|ns|sec|secs|seconds|millis)[)\]]?|.*time(stamp)?)", re.I)
EPOCH = datetime(1970, 1, 1, tzinfo=timezone.utc)
MOST_INSTANTS = 100_000_000  # that a row is repeated
BLOCK = 1 << 14  # instants
Item = Tuple[List[str], int, str, int, bool]  # a row, how many instants it is, its label and line, and whether it begins anew


def duration(text: str) -> Optional[int]:
    """A length of time as `10ms`, in nanoseconds; None where it is none."""
    match = re.fullmatch(r"(\d{1,12}(?:\.\d{1,9})?)(ns|us|ms|s|min|h)", text, re.A)
    length = Decimal(match.group(1)) * UNITS[match.group(2)] if match else Decimal(0)
    return int(length) if length >= 1 and length == int(length) else None


def nanoseconds(text: str, unit: int) -> Optional[int]:
    """A time: a number of units, a time of day, or a date and a time as ISO 8601 has them. None where it is none."""
    if NUMBER.fullmatch(text):
        return int(Decimal(text) * unit)
    day = CLOCK.fullmatch(text)
    if day:
        return (int(day.group(1)) * 60 + int(day.group(2))) * UNITS["min"] + int(Decimal(day.group(3) or 0) * UNITS["s"])
    match = DATE.fullmatch(text)
    if match is None:
        return None
    date, minute, second, fraction, zone = match.groups()
    zone = "+00:00" if zone in (None, "Z") else zone if ":" in zone else f"{zone[:3]}:{zone[3:]}"
    try:
        moment = datetime.fromisoformat(f"{date}T{minute}:{second or '00'}{zone}")
    except ValueError:
        return None
    return (moment - EPOCH) // timedelta(microseconds=1) * 1_000 + int((fraction or "0").ljust(9, "0"))


def is_time(name: str, label: str) -> bool:
    """Whether a column is one of times: by its first cell, or where that is a number by its name."""
    return nanoseconds(label.strip(), 1) is not None and (not NUMBER.fullmatch(label.strip()) or bool(NAMED.fullmatch(name.strip())))


def fast_times(labels: Sequence[str], unit: int) -> Optional[List[float]]:
    """Times that are numbers, in units."""
    try:
        return list(map(float, labels))
    except ValueError:
        times = [nanoseconds(label.strip(), unit) for label in labels]
        return [time / unit for time in times if time is not None] if None not in times else None


class Steps:
    """Whether the times of the rows are as far from each other as the first two are."""

    def __init__(self, unit: int) -> None:
        self.unit = unit
        self.last: Optional[float] = None
        self.step: Optional[float] = None
        self.rows = self.odd = 0
        self.first = ""  # what is told of the first odd step

    def block(self, block: Block) -> Optional[int]:
        """Looks at some rows; the place of one whose label is no time, or None."""
        times = fast_times(block.labels, self.unit)
        if times is None:
            return next(place for place, label in enumerate(block.labels) if nanoseconds(label.strip(), self.unit) is None)
        begin = [] if self.last is None else [self.last]
        before = begin + times[:-1]
        after = times if begin else times[1:]
        steps = list(map(sub, after, before))
        self.rows += len(times)
        self.last = times[-1]
        if not steps:
            return None
        if self.step is None:
            self.step = steps[0]
        slack = max(abs(self.step) * 1e-6, abs(times[-1]) * 1e-12)
        if max(steps) - self.step > slack or self.step - min(steps) > slack:
            self.uneven(block, steps, slack)
        return None

    def uneven(self, block: Block, steps: List[float], slack: float) -> None:
        assert self.step is not None
        odd = [place for place, step in enumerate(steps) if abs(step - self.step) > slack]
        if not self.odd:
            place = odd[0] + len(block.labels) - len(steps)
            self.first = (f"the first two rows are {self.step:.6g} apart, and the row {block.labels[place].strip()} in line {block.lines[place]} "
                          f"comes {steps[odd[0]]:.6g} after the one before")
        self.odd += len(odd)

    def told(self) -> str:
        """What is told of uneven steps, or nothing."""
        return f"the steps of time are uneven: {self.first}; {self.odd} of {self.rows - 1} steps differ from the first; --period samples at even times" if self.odd else ""


class Clock:
    """The times of rows in nanoseconds, none before the one in front of it; a gap that is too long is refused, or begins anew."""

    def __init__(self, shown: str, unit: int, gap: Optional[int], anew: bool) -> None:
        self.shown, self.unit, self.gap, self.anew = shown, unit, gap, anew
        self.last: Optional[int] = None

    def time(self, label: str, line: int) -> Tuple[int, bool]:
        """The time of a row, and whether what was before is forgotten."""
        time, last = nanoseconds(label.strip(), self.unit), self.last
        if time is None:
            raise LogFault(f"{self.shown}:{line}: '{label.strip()[:80]}' is no time")
        if last is not None and time < last:
            raise LogFault(f"{self.shown}:{line}: the time {label.strip()} is before the one of the row before")
        is_gap = self.gap is not None and last is not None and time - last > self.gap
        if is_gap and not self.anew and last is not None:
            raise LogFault(f"{self.shown}:{line}: a gap of {(time - last) / UNITS['s']:g} s before {label.strip()}")
        self.last = time
        return time, is_gap


class Sampler:
    """Rows as instants: each row, or each tick of a period with the last row at or before it. `pulses`: a value that was true in any row
    since the last tick is true."""

    def __init__(self, clock: Clock, period: Optional[int], pulses: bool) -> None:
        self.clock, self.period, self.pulses = clock, period, pulses
        self.start = self.next = 0  # of the ticks: the time of the first one, and the number of the next one
        self.row: Optional[Tuple[List[str], str, int]] = None  # the last row, with its label and line
        self.time = 0  # of the last row
        self.seen: List[str] = []  # what was true since the last tick
        self.anew = False  # whether the next instant begins anew

    def blocks(self, blocks: Iterable[Block]) -> Iterator[Block]:
        for block in blocks:
            places = (row for row, count in zip(block.rows, block.counts) for _ in range(count))
            yield from made_of(item for row, label, line in zip(places, block.labels, block.lines) for item in self.items(row, label, line))
        if self.row is not None:
            yield from made_of(self.ticks(self.time + 1))

    def items(self, row: List[str], label: str, line: int) -> Iterator[Item]:
        """The instants that are certain with one more row."""
        time, is_gap = self.clock.time(label, line)
        if self.period is None:
            yield row, 1, label, line, is_gap
            return
        if self.row is not None:
            yield from self.ticks(self.time + 1 if is_gap else time)
        if self.row is None or is_gap:
            self.start, self.next, self.seen, self.anew = time, 0, [], is_gap
        self.seen = [max(pair) for pair in zip(self.seen, row)] if self.pulses and self.seen else row
        self.row, self.time = (row, label, line), time

    def ticks(self, time: int) -> Iterator[Item]:
        """The ticks before a time."""
        assert self.row is not None and self.period is not None
        row, label, line = self.row
        count = -(-(time - self.start) // self.period) - self.next
        if count > MOST_INSTANTS:
            raise LogFault(f"{self.clock.shown}:{line}: the row {label.strip()} would be {count} instants, and {MOST_INSTANTS} are the most")
        if count > 0:
            yield self.seen or row, 1, label, line, self.anew
            self.next, self.seen, self.anew = self.next + count, [], False
        for left in range(count - 1, 0, -BLOCK):
            yield row, min(left, BLOCK), label, line, False


def made_of(items: Iterator[Item]) -> Iterator[Block]:
    """Instants as blocks; those before a fault are there."""
    made = Made()
    try:
        for row, count, label, line, anew in items:
            if anew or len(made.labels) >= BLOCK:
                yield made.block()
                made = Made(anew)
            made.add(row, count, label, line)
    except LogFault as fault:
        yield made.block()
        raise fault from None
    yield made.block()


class Made:
    """A block that is being made."""

    def __init__(self, anew: bool = False) -> None:
        self.anew = anew
        self.rows: List[List[str]] = []
        self.counts: List[int] = []
        self.labels: List[str] = []
        self.lines: List[int] = []

    def add(self, row: List[str], count: int, label: str, line: int) -> None:
        if self.rows and (self.rows[-1] is row or self.rows[-1] == row):
            self.counts[-1] += count
        else:
            self.rows.append(row)
            self.counts.append(count)
        self.labels += [label] * count
        self.lines += [line] * count

    def block(self) -> Block:
        return Block(self.rows, self.counts, self.labels, self.lines, self.anew)
