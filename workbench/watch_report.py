"""What `watch` tells of many requirements: each breach with the rows up to it, a table at the end, lines of JSON, and JUnit's XML."""
import json
import xml.etree.ElementTree as xml
from typing import Dict, Iterator, List, Sequence, Tuple

from monitors import Heading, Monitor, Run
from signals import Signal
from streams import plain, write_text
from waves import instants

MOST = 100  # breaches of a requirement that are told in text


def place_of(first: int, last: int) -> str:
    return str(first) if first == last else f"{first} .. {last}"


def shown_rows(variables: Sequence[str], at: int, label: str, before: Sequence[Run], after: Sequence[Run]) -> Iterator[str]:
    """The rows around a breach, a line for each run of equal ones. The last run before ends with the breach, which has a line of its own."""
    lines, last = list(before[:-1]), before[-1]
    if last.first < at:
        lines.append(last._replace(last=at - 1))
    lines += [Run(at, at, last.letter, label), *after]
    places = [place_of(run.first, run.last) for run in lines]
    wide, labels = max(map(len, places + ["instant"])), max([len(run.label) for run in lines] + [3])
    yield f"      {'instant':>{wide}}  {'row':>{labels}}  " + "  ".join(variables)
    for place, run in zip(places, lines):
        digits = "  ".join(digit.rjust(len(name)) for name, digit in zip(variables, run.letter))
        yield f"{'  --> ' if run.first == at else '      '}{place:>{wide}}  {run.label:>{labels}}  {digits}".rstrip()


def result(monitor: Monitor, count: int) -> str:
    if monitor.first_breach is None:
        return f"holds at each of {instants(count)}"
    instant, label = monitor.first_breach
    more = f", {monitor.breaches} times" if monitor.breaches > 1 else ""
    return f"broken at instant {instant}, row {label}{more}"


def explained(heading: Heading, signals: Sequence[Signal]) -> Iterator[str]:
    """The glossary: a line for each name of a requirement that its file says the meaning of, or that is a signal."""
    listed = {it.name: it for it in signals}
    for name in heading.variables:
        it = listed.get(name, Signal(name, "", "", ""))
        it = it._replace(meaning=heading.meanings.get(name, it.meaning))
        if it.expression or it.meaning:
            yield f"      {it.spoken}"


class Text:
    """The report as text."""

    def __init__(self, signals: Sequence[Signal]) -> None:
        self.told: Dict[Monitor, int] = {}
        self.signals = signals

    def wants(self, monitor: Monitor) -> bool:
        return self.told.get(monitor, 0) < MOST

    def breach(self, monitor: Monitor, instant: int, label: str, letter: str, runs: Sequence[Run]) -> None:
        if not self.wants(monitor):
            return
        self.told[monitor] = self.told.get(monitor, 0) + 1
        lines = [f"{monitor.heading.spoken}: broken at instant {instant}, row {label}"]
        if runs:
            lines += shown_rows(monitor.heading.variables, instant, label, runs, ())
            lines += explained(monitor.heading, self.signals)
        if not self.wants(monitor):
            lines.append(f"{monitor.heading.spoken}: that were {MOST} breaches; more are counted and not listed")
        print("\n".join(lines), flush=True)

    def end(self, monitors: Sequence[Monitor], count: int) -> None:
        """The table."""
        rows = [("requirement", "id", "result")] + [(it.heading.name, it.heading.id or "-", result(it, count)) for it in monitors]
        wide = [max(len(row[place]) for row in rows) for place in (0, 1)]
        print("\n".join(["", *(f"{name:<{wide[0]}}  {id_:<{wide[1]}}  {said}" for name, id_, said in rows)]), flush=True)


class Lines:
    """The report as JSON, an event a line."""

    @staticmethod
    def wants(_: Monitor) -> bool:
        return True

    @staticmethod
    def named(event: str, heading: Heading) -> Dict[str, object]:
        return {"event": event, "requirement": heading.name, "file": heading.path, "id": heading.id or None}

    def breach(self, monitor: Monitor, instant: int, label: str, letter: str, runs: Sequence[Run]) -> None:
        event = self.named("broken", monitor.heading)
        event.update(instant=instant, row=label, confirmed=True,
                     values={name: digit == "1" for name, digit in zip(monitor.heading.variables, letter)})
        if runs:
            event["before"] = [{"first": run.first, "last": run.last, "row": run.label, "letter": run.letter} for run in runs]
        print(json.dumps(event), flush=True)

    def end(self, monitors: Sequence[Monitor], count: int) -> None:
        for it in monitors:
            first = it.first_breach
            event = self.named("end", it.heading)
            event.update(instants=count, holds=first is None, breaches=it.breaches,
                         first=None if first is None else {"instant": first[0], "row": first[1]})
            print(json.dumps(event), flush=True)


def cases(monitors: Sequence[Monitor], count: int) -> List[Tuple[Heading, str, bool]]:
    return [(it.heading, result(it, count), it.first_breach is None) for it in monitors]


def write_junit(monitors: Sequence[Monitor], count: int, log: str, path: str) -> None:
    """The same as a report of tests: a case for each requirement; its sentence is what the case printed."""
    found = cases(monitors, count)
    suite = xml.Element("testsuite", name=f"ask watch {plain(log)}", tests=str(len(found)), failures=str(sum(not holds for *_, holds in found)))
    for heading, said, holds in found:
        case = xml.SubElement(suite, "testcase", classname="watch", name=plain(heading.spoken))
        if not holds:
            xml.SubElement(case, "failure", message=plain(said)).text = plain(said)
        if heading.sentence:
            xml.SubElement(case, "system-out").text = plain(heading.sentence)
    write_text(path, xml.tostring(suite, encoding="utf-8", xml_declaration=True).decode())
