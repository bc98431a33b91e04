"""Many requirements over the rows of one log, in one pass: each breach is reported as soon as its row is there."""
from typing import Iterator, List, Protocol, Sequence, Tuple

import limits
from confirmed import Confirmation
from lines import LogFault
from logs import bad_cells
from monitors import Monitor, NoTruth, Run
from tabular import Block, cut


class Report(Protocol):
    """What is told while the log is read."""

    def wants(self, monitor: Monitor) -> bool:
        """Whether its next breach is told."""

    def breach(self, monitor: Monitor, instant: int, label: str, letter: str, runs: Sequence[Run]) -> None:
        """Tells a breach; the runs are those up to the first one."""


class EndOfWatch(Exception):
    """The first breach was reported, and no more is wanted."""


class Judge:
    """The requirements, and how far the log is read."""

    def __init__(self, monitors: Sequence[Monitor], report: Report, confirmation: Confirmation, until_broken: bool) -> None:
        self.monitors, self.report, self.confirmation, self.until_broken = monitors, report, confirmation, until_broken
        self.count = 0  # instants

    @property
    def active(self) -> List[Monitor]:
        return [it for it in self.monitors if not it.is_done]

    def run(self, shown: str, blocks: Iterator[Block]) -> None:
        """Judges the rows of a log; LogFault where they are at fault."""
        try:
            for block in blocks:
                if block.anew:
                    self.begin_anew()
                for part in self.parts(block):
                    self.part(shown, part)
                if not self.active:
                    return
        except EndOfWatch:
            return
        self.end()

    def parts(self, block: Block) -> Iterator[Block]:
        """A block, cut so that each part fits into a trace after a word to any state."""
        size = min(self.confirmation.most, limits.TRACE_LINES - limits.STATES)
        while len(block.labels) > size:
            yield cut(block, 0, size)
            block = cut(block, size, len(block.labels))
        yield block

    def part(self, shown: str, part: Block) -> None:
        active, fault = self.active, None
        try:
            coded = [it.coded(part.rows, part.counts) for it in active]
        except (NoTruth, IndexError):
            part, fault = bad_row(shown, part, active)
            coded = [it.coded(part.rows, part.counts) for it in active]
        for it in active:
            self.confirmation.make_room(it, len(part.labels), self.count - 1)
        found = [it.take(short, codes, part.counts) for it, (short, codes) in zip(active, coded)]
        self.tell(active, [codes for _, codes in coded], found, part.labels)
        self.count += len(part.labels)
        if fault:
            raise fault

    def tell(self, active: Sequence[Monitor], codes: Sequence[str], found: Sequence[Sequence[int]], labels: Sequence[str]) -> None:
        """Reports the breaches among some rows, in their order."""
        places = sorted((place, number) for number, broken in enumerate(found) for place in broken)
        begin = [0] * len(active)  # where each requirement began anew
        for place, number in places:
            if self.until_broken and place > places[0][0]:
                break
            self.breach(active[number], codes[number], begin[number], place, labels)
            begin[number] = place + 1
        if self.until_broken and places:
            self.count += places[0][0] + 1
            raise EndOfWatch
        for it, letters, first in zip(active, codes, begin):
            self.confirmation.trace(it).add(letters[first:])
            if it.first_breach is None:
                it.earlier = it.runs(letters, self.count, labels)

    def breach(self, it: Monitor, codes: str, begin: int, place: int, labels: Sequence[str]) -> None:
        """Reports a breach, which is confirmed before."""
        instant, label = self.count + place, labels[place].strip()
        self.confirmation.breach(it, codes[begin:place + 1], instant, self.report.wants(it))
        runs = it.runs(codes[:place + 1], self.count, labels) if it.first_breach is None else []
        it.first_breach = it.first_breach or (instant, label)
        it.breaches += 1
        self.report.breach(it, instant, label, it.codes.letters[ord(codes[place])], runs)

    def end(self) -> None:
        """The log ends, or what was before is forgotten."""
        for it in self.active:
            self.confirmation.holds(it, self.count - 1)

    def begin_anew(self) -> None:
        self.end()
        for it in self.active:
            it.begin_anew()
            self.confirmation.trace(it).restart()


def bad_row(shown: str, block: Block, monitors: Sequence[Monitor]) -> Tuple[Block, LogFault]:
    """The rows before the first one that is at fault, and its fault."""
    for number, row in enumerate(block.rows):
        for it in monitors:
            message = bad_cells(row, it.heading.variables, it.places)
            if message:
                place = sum(block.counts[:number])
                return cut(block, 0, place), LogFault(f"{shown}:{block.lines[place]}: {message}")
    raise AssertionError("no row is at fault")
