"""Value change dumps (VCD): the rows of a log at each time, at the rises of a clock, or each so many units of time."""
import os
from typing import Dict, Iterable, Iterator, List, Optional, Sequence, Set, Tuple

from lines import LogFault, Unnamed, chunks, name_of
from tabular import Block

Changes = List[Tuple[str, str]]  # codes of signals and their values
Row = Tuple[str, List[str]]  # a label, and the values

LONGEST_TIME = 40  # characters of a time in a VCD file
MOST_INSTANTS = 100_000_000  # that --period makes
BLOCK = 4_096  # rows


class Vcd:
    """A VCD file that is being read: where the signals are that are asked for, and their values by now."""

    def __init__(self, path: str, signals: Iterable[str], numbers: Set[str]) -> None:
        self.path, self.numbers = name_of(path), numbers  # and which of the signals are numbers, of any number of bits
        self.source, self.line = path, 0
        self.now: Optional[int] = None
        self.scopes: List[str] = []
        self.found: Dict[str, Dict[str, Tuple[str, str]]] = {name: {} for name in signals}  # of each its codes, each with a path and a width
        self.codes: Dict[str, List[str]] = {}
        self.values: Dict[str, str] = {}

    def fault(self, message: str) -> LogFault:
        return LogFault(f"{self.path}:{self.line}: {message}")

    def tokens(self) -> Iterator[str]:
        for chunk in chunks(self.source):
            for self.line, line in enumerate(chunk.text.split("\n"), chunk.first):
                yield from line.split()

    def block(self, tokens: Iterator[str]) -> List[str]:
        """The words up to the next $end."""
        words: List[str] = []
        for word in tokens:
            if word == "$end":
                return words
            words.append(word)
        raise self.fault("the file ends where an $end is missing")

    def declare(self, words: Sequence[str]) -> None:
        """`$var wire 1 ! name [0]`: which of the signals that are asked for it is."""
        if len(words) < 4:
            raise self.fault("a $var has fewer than four words")
        for name in (words[3], ".".join(self.scopes + [words[3]])):
            if name in self.found:
                self.found[name][words[2]] = (".".join(self.scopes + [words[3]]), words[1])

    def settle(self) -> None:
        """Behind the declarations: each signal is there, once, and one bit wide."""
        for name, found in self.found.items():
            if not found:
                raise Unnamed(f"{self.path}: no signal is named {name}", name)
            if len(found) > 1:
                paths = ", ".join(sorted(path for path, _ in found.values()))
                raise LogFault(f"{self.path}: several signals are named {name}: {paths}; --column {name}=PATH names one")
            code, (path, width) = next(iter(found.items()))
            if width != "1" and name not in self.numbers:
                raise LogFault(f"{self.path}: {path} has {width} bits, and a variable has one")
            self.codes.setdefault(code, []).append(name)

    def definitions(self, tokens: Iterator[str]) -> None:
        for word in tokens:
            if word == "$enddefinitions":
                self.block(tokens)
                return self.settle()
            if word == "$scope":
                self.scopes.append((self.block(tokens) + ["", ""])[1])
            elif word == "$upscope":
                self.block(tokens)
                del self.scopes[-1:]
            elif word == "$var":
                self.declare(self.block(tokens))
            elif word.startswith("$"):
                self.block(tokens)
            else:
                raise self.fault(f"{word} stands among the declarations")
        raise LogFault(f"{self.path}: no $enddefinitions: this is no VCD file")

    def times(self, tokens: Iterator[str]) -> Iterator[Tuple[int, Optional[Changes]]]:
        """The changes of each time: the time, and the values that signals take, in order. A time that stands twice is one time. A last
        time without a change is where the file ends, and its changes are None."""
        changes: Changes = []
        first_time = None
        for word in tokens:
            if word[0] == "#":
                time = self.time(word)
                if self.now is not None and time > self.now:
                    yield self.now, changes
                    changes = []
                self.now = time
                first_time = time if first_time is None else first_time
            elif word[0] in "01xXzZ":
                changes.append((word[1:], word[0].lower()))
            elif word[0] in "bBrR":
                changes.append((next(tokens, ""), self.bit(word)))
            elif word == "$comment":
                self.block(tokens)
            elif word[0] != "$":
                raise self.fault(f"{word[:80]} is no change of a value")
        if self.now is not None:
            yield self.now, changes if changes or self.now == first_time else None

    def time(self, word: str) -> int:
        """The time that a word says, which is none before the last one."""
        if not (word.isascii() and word[1:].isdigit()) or len(word) > LONGEST_TIME:
            raise self.fault(f"{word[:80]} is no time of {LONGEST_TIME - 1} digits at most")
        time = int(word[1:])
        if self.now is not None and time < self.now:
            raise self.fault(f"{word} is no time after #{self.now}")
        return time

    @staticmethod
    def bit(word: str) -> str:
        """The value of one bit that `b0001` gives; what has more than one bit, or is a real, stays as it is."""
        bits = word[1:].lstrip("0") or "0"
        return bits.lower() if word[0] in "bB" and word[1:] and len(bits) == 1 else word

    def change(self, changes: Changes) -> None:
        for code, value in changes:
            for name in self.codes.get(code, ()):
                self.values[name] = value

    def word(self, names: Sequence[str], time: int) -> List[str]:
        """The values of signals; one that is a number may be unknown, and whoever reads it refuses it."""
        for name in names:
            value = self.values.get(name)
            if value not in ("0", "1") and (value is None or name not in self.numbers):
                raise LogFault(f"{self.path}: at #{time} {name} " + (f"is {value[:80]}, which is no truth" if value else "has no value yet"))
        return [number_of(self.values[name]) for name in names]


def number_of(value: str) -> str:
    """A vector of bits as a number, and a real without its mark."""
    if value[:1] in "bB" and value[1:] and set(value[1:]) <= set("01"):
        return str(int(value[1:], 2))
    return value[1:] if value[:1] in "rR" else value


Times = Iterable[Tuple[int, Optional[Changes]]]


class Dump:
    """A VCD file as a log: a row at each rise of the clock, with the values before it; or one each so many units of time, from the first
    time on; or else one at each time that the file has. A row is labelled by its time."""

    def __init__(self, path: str, clock: Optional[str], period: Optional[int]) -> None:
        self.path, self.shown, self.clock, self.period = path, name_of(path), clock, period
        self.names: List[str] = []
        self.numbers: Set[str] = set()
        self.label: Optional[int] = None
        self.wanted: Sequence[int] = ()
        self.reads_label, self.shift = False, 0

    def column(self, name: str, _: str, number: bool = False) -> int:
        """The place of a signal."""
        if number:
            self.numbers.add(name)
        if name not in self.names:
            self.names.append(name)
        return self.names.index(name)

    def rows(self, vcd: Vcd) -> Iterator[Row]:
        tokens = vcd.tokens()
        vcd.definitions(tokens)
        times = vcd.times(tokens)
        if self.clock:
            return _at_rises(vcd, times, self.names, self.clock)
        return _at_periods(vcd, times, self.names, self.period) if self.period else _at_times(vcd, times, self.names)

    def blocks(self) -> Iterator[Block]:
        vcd = Vcd(self.path, dict.fromkeys(self.names + ([self.clock] if self.clock else [])), self.numbers)
        most, block, fault = BLOCK if os.path.isfile(self.path) else 1, Block([], [], [], []), None
        lines: List[int] = []
        rows = self.rows(vcd)
        while fault is None:
            try:
                label, values = next(rows)
            except (StopIteration, LogFault) as end:
                fault = end
                break
            if block.rows and block.rows[-1] == values:
                block.counts[-1] += 1
            else:
                block.rows.append(values)
                block.counts.append(1)
            block.labels.append(label)
            lines.append(vcd.line)
            if len(lines) >= most:
                yield block._replace(lines=lines)
                block, lines = Block([], [], [], []), []
        if lines:
            yield block._replace(lines=lines)
        if isinstance(fault, LogFault):
            raise fault


def _at_times(vcd: Vcd, times: Times, names: Sequence[str]) -> Iterator[Row]:
    for time, changes in times:
        if changes is not None:
            vcd.change(changes)
            yield f"#{time}", vcd.word(names, time)


def _at_rises(vcd: Vcd, times: Times, names: Sequence[str], clock: str) -> Iterator[Row]:
    for time, changes in times:
        rises = any(value == "1" and clock in vcd.codes.get(code, ()) for code, value in changes or ())
        if rises and vcd.values.get(clock) == "0":
            yield f"#{time}", vcd.word(names, time)
        vcd.change(changes or [])


def _at_periods(vcd: Vcd, times: Times, names: Sequence[str], period: int) -> Iterator[Row]:
    due = first = None
    for time, changes in times:
        if due is None or first is None:
            due = first = time
        if (time - first) // period > MOST_INSTANTS:
            raise LogFault(f"{vcd.path}: from #{first} to #{time} there are {(time - first) // period} instants, and {MOST_INSTANTS} are the most")
        while due < time:
            yield f"#{due}", vcd.word(names, due)
            due += period
        if changes is None:
            return
        vcd.change(changes)
    if due is not None and due == vcd.now:
        yield f"#{due}", vcd.word(names, due)
