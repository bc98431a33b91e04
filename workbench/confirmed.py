"""What a walk over an automaton finds in a log, replayed by the program's tables."""
import os
from typing import Dict

from monitors import Monitor
from program import Program
from traces import Trace, Unconfirmed


class Confirmation:
    """The traces of requirements, in a folder; `everything` where not only breaches are confirmed."""

    def __init__(self, program: Program, room: str, everything: bool, most: int) -> None:
        self.program, self.room, self.everything, self.most = program, room, everything, most
        self.traces: Dict[Monitor, Trace] = {}

    def trace(self, monitor: Monitor) -> Trace:
        if monitor not in self.traces:
            path = os.path.join(self.room, str(len(self.traces)))
            self.traces[monitor] = Trace(self.program, monitor.text, monitor.automaton, monitor.codes, path, self.most)
        return self.traces[monitor]

    def breach(self, monitor: Monitor, codes: str, instant: int, is_reported: bool) -> None:
        """Letters up to a breach, after which the requirement begins anew: the tables answer 0 to the last one, and 1 before."""
        trace = self.trace(monitor)
        trace.add(codes)
        if is_reported or self.everything:
            self.same(monitor, "1" * (trace.size - 1) + "0", instant)
        trace.restart()

    def holds(self, monitor: Monitor, last: int) -> None:
        """The tables answer 1 to all letters, the last of which is that of an instant; nothing is asked where breaches alone are confirmed."""
        if self.everything and self.trace(monitor).size:
            self.same(monitor, "1" * self.trace(monitor).size, last)

    def same(self, monitor: Monitor, wanted: str, last: int) -> None:
        found = self.trace(monitor).answers()
        if found != wanted:
            place = next(place for place, pair in enumerate(zip(found, wanted)) if pair[0] != pair[1])
            at = last + 1 - len(wanted) + place
            raise Unconfirmed(f"{monitor.heading.name}: at instant {at} the program's observer answers otherwise than the automaton's text")

    def make_room(self, monitor: Monitor, count: int, last: int) -> None:
        """Before more letters than a trace may have, the letters up to an instant are replaced by fewer that lead to the same state."""
        trace = self.trace(monitor)
        if not trace.has_room(count):
            self.holds(monitor, last)
            if not trace.shorten(monitor.state.number, self.everything):
                raise Unconfirmed(f"{monitor.heading.name}: the program does not confirm the state after instant {last}")
