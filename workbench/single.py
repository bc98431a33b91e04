"""One requirement over a log: replayed whole by the program's tables."""
import itertools
from collections import deque
from typing import Deque, Dict, Iterator, List, MutableSequence, Sequence, Tuple

from confirmed import Confirmation
from lines import LogFault
from logs import Row, Source, letters_of
from monitors import BEFORE, Monitor, Run
from signals import Signal
from traces import Unconfirmed
from watch_report import MOST, explained, shown_rows
from waves import instants, runs

BEHIND = 2  # runs of equal rows that are shown after the first violation
PIECE = 200_000  # rows that are kept in memory


class Watch:
    """A log that is being watched: its state, how many rows there were, and what is shown of them."""

    def __init__(self, monitor: Monitor, confirmation: Confirmation) -> None:
        self.monitor, self.confirmation, self.trace = monitor, confirmation, confirmation.trace(monitor)
        self.state = self.count = self.broken = 0
        self.last = 0  # the last instant at which it is broken
        self.before: Deque[Run] = deque(maxlen=BEFORE)  # runs of rows up to the first violation, each with its first label
        self.after: List[Run] = []  # those that follow it: one more than is shown
        self.violations: List[Tuple[int, str, str]] = []  # instant, label and letter of the first ones

    def piece(self, rows: Sequence[Row]) -> None:
        """Takes some more rows."""
        codes = self.trace.coded([letter for _, letter in rows])
        self.note(rows, self.again(codes) if self.monitor.rearm else self.once(codes))
        self.count += len(rows)

    def again(self, codes: str) -> List[int]:
        """The places at which it is broken where it begins anew after each of them."""
        self.confirmation.make_room(self.monitor, len(codes), self.count - 1)
        broken, first = self.monitor.take(codes, codes, [1] * len(codes)), 0
        for place in broken:
            self.confirmation.breach(self.monitor, codes[first:place + 1], self.count + place, True)
            first = place + 1
        self.trace.add(codes[first:])
        return broken

    def once(self, codes: str) -> List[int]:
        """The places at which it is broken, by the program alone."""
        if not self.trace.has_room(len(codes)) and not self.trace.shorten(self.state, True):
            raise Unconfirmed(f"the program does not confirm that the observer is in state {self.state} after instant {self.count - 1}")
        self.trace.add(codes)
        answers = self.trace.answers()[-len(codes):]
        self.go_on(codes)
        return [place for place, answer in enumerate(answers) if answer == "0"]

    def note(self, rows: Sequence[Row], broken: Sequence[int]) -> None:
        """Keeps what is told of these rows."""
        begun = 0 if self.violations else broken[0] + 1 if broken else len(rows)
        self.broken += len(broken)
        for place in broken[:max(0, MOST - len(self.violations))]:
            self.violations.append((self.count + place, *rows[place]))
        if broken:
            self.last = self.count + broken[-1]
        keep(self.before, self.count, rows[:begun])
        if len(self.after) <= BEHIND:
            keep(self.after, self.count + begun, rows[begun:])
            del self.after[BEHIND + 1:]

    def go_on(self, codes: str) -> None:
        """The state after more letters, by the automaton's text."""
        known: Dict[Tuple[int, str], int] = {}
        for code in codes:
            step = (self.state, code)
            if step not in known:
                known[step] = self.monitor.automaton.step(self.state, self.monitor.codes.letters[ord(code)])
            self.state = known[step]


def keep(kept: MutableSequence[Run], first: int, rows: Sequence[Row]) -> None:
    """Adds the runs of some rows, of which this is the first instant; one that goes on from those before stays one."""
    for run in runs(letter for _, letter in rows):
        if kept and kept[-1].letter == run.value:
            kept[-1] = kept[-1]._replace(last=first + run.last)
        else:
            kept.append(Run(first + run.first, first + run.last, run.value, rows[run.first][0]))


def pieces(rows: Iterator[Row], size: int) -> Iterator[List[Row]]:
    part = list(itertools.islice(rows, size))
    while part:
        yield part
        part = list(itertools.islice(rows, size))


def said(signals: Sequence[Signal], watch: Watch) -> Iterator[str]:
    if not watch.broken:
        yield f"holds at each of {instants(watch.count)}"
        return
    heading, rearm = watch.monitor.heading, watch.monitor.rearm
    at, label, _ = watch.violations[0]
    more = "" if rearm else f"; of {instants(watch.count)} it is broken at {watch.broken}, the last of them {watch.last}"
    yield f"broken at instant {at}, row {label}{more}"
    yield from shown_rows(heading.variables, at, label, list(watch.before), watch.after[:BEHIND])
    yield from explained(heading, signals)
    if rearm:
        yield f"{watch.broken} violation{'s' * (watch.broken > 1)} in {instants(watch.count)}; after each the requirement begins anew:"
        for at, label, letter in watch.violations:
            yield f"  instant {at}, row {label}: " + " ".join(f"{name}={digit}" for name, digit in zip(heading.variables, letter))
        if watch.broken > len(watch.violations):
            yield f"  and {watch.broken - len(watch.violations)} more"


def judge(monitor: Monitor, confirmation: Confirmation, source: Source) -> int:
    """Replays the rows of a log and prints the report; 1 where the requirement is broken."""
    watch = Watch(monitor, confirmation)
    for rows in pieces(letters_of(source, monitor.heading.variables), min(confirmation.most, PIECE)):
        watch.piece(rows)
    if watch.count == 0:
        raise LogFault(f"{source.shown}: there is no instant")
    if monitor.rearm:
        confirmation.holds(monitor, watch.count - 1)
    print("\n".join(said(source.settings.signals, watch)))
    return 1 if watch.broken else 0
