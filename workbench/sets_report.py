"""What `set` tells: the table of the requirements, then what is not well with several of them; and the same as JUnit's XML."""
import textwrap
import xml.etree.ElementTree as xml
from collections import Counter
from typing import TYPE_CHECKING, Dict, FrozenSet, Iterable, Iterator, List, Optional, Sequence, Set, Tuple

from asked import Finding
from joined import Requirement, names_of
from program import Program
from streams import plain, write_text
from waves import in_line, terminal_width

if TYPE_CHECKING:
    from sets import Answers


ROOM = 16  # characters of a sentence: where there are fewer it is left out of the table
FEW = 40  # questions that were not asked and are listed without --all


def spoken(requirements: Sequence[Requirement], last: str = "and") -> str:
    names = [f"{it.name} ({it.id})" if it.id and it.id != it.name else it.name for it in requirements]
    return names[0] if len(names) == 1 else f"{', '.join(names[:-1])} {last} {names[-1]}"


def spoken_one(it: Requirement) -> str:
    return spoken((it,))


def all_of(members: Sequence[Requirement]) -> str:
    return "both" if len(members) == 2 else "all"


def sentence(finding: Finding, inputs: Sequence[str]) -> str:
    """A finding about several requirements, or one, as a sentence."""
    who, every = spoken(finding.members), all_of(finding.members)
    several = len(finding.members) > 1
    if finding.kind == "impossible":
        return f"{who} contradict each other: no behaviour satisfies {every}" if several else f"{who}: no behaviour satisfies it"
    if finding.kind == "always true":
        return f"{who}: every behaviour satisfies it, so it asks nothing"
    if finding.kind == "no first instant":
        return f"{who}: no first instant keeps to {every}"
    names = " ".join(names_of(finding.members))
    if finding.kind == "stuck":
        they = f"get stuck together after {in_line(finding.word)}" if several else f"gets stuck after {in_line(finding.word)}"
        return f"{who} {they} (an instant is the digits of {names}): no next instant keeps to {every if several else 'it'}"
    own = [name for name in inputs if name in names_of(finding.members)]
    return f"{who}: no controller keeps to {every if several else 'it'}; by {', '.join(own) or 'no input'} that is broken within {finding.bound} instants"


def table(answers: "Answers") -> List[str]:
    """The lines of the table: a requirement in each, and what is so of it alone."""
    unasked = {members[0]: why for members, what, why in answers.unasked if what == "alone"}
    ids = any(it.id for it in answers.requirements)
    rows = [["requirement"] + ["id"] * ids + ["alone", "stuck after"] + ["controller"] * bool(answers.inputs) + ["names"]]
    for it in answers.requirements:
        rows.append([it.name] + [it.id] * ids + cells(answers, it, it in unasked) + [" ".join(it.variables)])
    widths = [min(40, max(len(row[place]) for row in rows)) for place in range(len(rows[0]))]
    lines = ["  ".join(f"{cell:{width}}" for cell, width in zip(row, widths)) for row in rows]
    said = [""] + [it.sentence for it in answers.requirements]
    return [with_sentence(line, text).rstrip() for line, text in zip(lines, said)]


def with_sentence(line: str, said: str) -> str:
    """A line of the table, and after it what there is room for of a sentence."""
    room = terminal_width() - len(line) - 2
    return f"{line}  {textwrap.shorten(said, room, placeholder=' ..')}" if room >= ROOM else line


def cells(answers: "Answers", it: Requirement, is_unasked: bool) -> List[str]:
    """What is so of a requirement alone, after what it gets stuck, and whether there is a controller."""
    finding = answers.alone[it]
    kind = finding.kind if finding else "ok"
    stuck = in_line(finding.word) if finding and kind == "stuck" else "judged at the end" if it in answers.late else "" if kind in ("fault", "impossible") else "-"
    controller = {"ok": "yes", "unrealisable": "no"}.get(kind, "") if it not in answers.late else ""
    alone = {"stuck": "ok", "unrealisable": "ok"}.get(kind, kind)
    if is_unasked:
        alone, stuck, controller = "not asked", "", ""
    return [alone, stuck] + [controller] * bool(answers.inputs)


def section(title: str, lines: Iterable[str]) -> List[str]:
    """A heading and its lines, where there are any."""
    if not lines:
        return []
    width = terminal_width()
    return ["", title] + [part for line in lines for part in textwrap.wrap(line, width, initial_indent="  ", subsequent_indent="    ",
                                                                        break_on_hyphens=False)]


def not_well(answers: "Answers") -> List[str]:
    alone = [finding for finding in answers.alone.values() if finding and finding.kind != "fault"]
    return [sentence(finding, answers.inputs) for finding in alone + answers.findings]


def what_follows(answers: "Answers") -> List[str]:
    """Each implication once; two requirements that imply each other say the same."""
    lines: List[str] = []
    equal: Set[FrozenSet[Requirement]] = set()
    both = {(left, right) for left, right in answers.implied}
    for left, right in answers.implied:
        if len(left) == 1 and ((right,), left[0]) in both:
            if frozenset((left[0], right)) not in equal:
                equal.add(frozenset((left[0], right)))
                lines.append(f"{spoken((left[0], right))} say the same")
        else:
            lines.append(f"{spoken(left)} {'implies' if len(left) == 1 else 'together imply'} {spoken((right,))}")
    return lines


def grouped(answers: "Answers") -> List[str]:
    big = [group for group in answers.groups if len(group) > 1]
    return [f"{', '.join(map(spoken_one, group))} ({len(names_of(group))} names)" for group in big]


def unasked_lines(answers: "Answers", every: bool) -> List[str]:
    """What could not be asked, counted by the reason where it is much. Those that could not join the same group for the same reason
    stand in one line."""
    if len(answers.unasked) > FEW and not every:
        counts = Counter(f"{what}: {why}" if what != "with others" else "groups that others could not join" for _, what, why in answers.unasked)
        return [f"{number} {what}" for what, number in counts.most_common(8)] + [f"{len(answers.unasked)} in all; --all lists them"]
    lines: List[str] = []
    groups: Dict[Tuple[Sequence[Requirement], str], List[Requirement]] = {}
    for members, what, why in answers.unasked:
        if what == "together" and len(members) > 1:
            groups.setdefault((members[:-1], why), []).append(members[-1])
        else:
            lines.append(f"{spoken(members)}, {what}: {why}")
    return [f"{spoken(group)} together with {spoken(others, 'or')}: {why}" for (group, why), others in groups.items()] + list(dict.fromkeys(lines))


def meanings_of(answers: "Answers", name: str) -> str:
    """What the files that have a name say it means, else what the list of signals says."""
    found: Dict[str, List[str]] = {}
    for it in answers.requirements:
        if name in it.variables and name in it.meanings:
            found.setdefault(it.meanings[name], []).append(it.name)
    listed = next((it.meaning for it in answers.signals if it.name == name), "")
    return "; ".join(f"{meaning} ({', '.join(files)})" for meaning, files in found.items()) if len(found) > 1 else next(iter(found), listed)


def glossary_lines(answers: "Answers", every: bool) -> List[str]:
    """The meanings of all names; where they are many only of those that are in a finding."""
    blamed = [it for finding in answers.findings for it in finding.members]
    names = names_of(answers.requirements)
    shown = names if every or len(names) <= FEW else names_of(blamed)
    return [f"{name}: {meaning}" for name in shown for meaning in [meanings_of(answers, name)] if meaning]


def print_report(answers: "Answers", program: Program, seconds: float, every: bool) -> None:
    lines = table(answers)
    for it in answers.requirements:
        lines += ["", *it.fault] if it.fault is not None else []
    lines += section("Not well:", not_well(answers))
    lines += section("Names that are no signals:", answers.strange)
    lines += section("Names that are near each other:", answers.near)
    lines += section("What follows from others:", what_follows(answers))
    lines += section("Well together:", grouped(answers))
    lines += section("Not asked:", unasked_lines(answers, every))
    lines += section("Names:", glossary_lines(answers, every))
    kept = f", {program.kept.found} answers were there" if program.kept else ""
    lines += ["", f"{len(answers.requirements)} requirements, {len(answers.pairs)} pairs that share names; {program.runs} questions in {seconds:.1f} s{kept}: "
              + ("all is well" if answers.is_well else "not all is well")]
    print("\n".join(lines))


# ---- JUnit

Case = Tuple[str, Optional[Requirement], str, Optional[str], Optional[str]]


def cases(answers: "Answers") -> Iterator[Case]:
    """What was examined: its kind, the requirement where it is one, its name, a failure, and why it was not asked."""
    whys: Dict[FrozenSet[Requirement], str] = {}
    for members, _, why in reversed(answers.unasked):
        whys[frozenset(members)] = why
    told = {frozenset(it.members): sentence(it, answers.inputs) for it in answers.findings}

    for it in answers.requirements:
        finding = answers.alone[it]
        said = "\n".join(it.fault) if it.fault is not None else sentence(finding, answers.inputs) if finding else None
        yield "alone", it, spoken((it,)), said, whys.get(frozenset((it,)))
    for pair in answers.pairs:
        yield "pair", None, spoken(pair), told.get(frozenset(pair)), whys.get(frozenset(pair))
    for finding in answers.findings:
        if len(finding.members) > 2:
            yield "group", None, spoken(finding.members), sentence(finding, answers.inputs), None
    for group in answers.groups:
        if len(group) > 2:
            yield "group", None, spoken(group), None, None
    for members, what, why in answers.unasked:
        if len(members) > 2:
            yield "group", None, f"{spoken(members)}, {what}", None, why


def write_junit(answers: "Answers", path: str) -> None:
    """The same as a report of tests; a requirement's sentence and its names are what its case printed."""
    found = list(cases(answers))
    suite = xml.Element("testsuite", name="ask set", tests=str(len(found)), failures=str(sum(failure is not None for *_, failure, _ in found)),
                        skipped=str(sum(failure is None and why is not None for *_, failure, why in found)))
    for kind, it, name, failure, why in found:
        case = xml.SubElement(suite, "testcase", classname=kind, name=plain(name))
        if failure is not None:
            xml.SubElement(case, "failure", message=plain(failure.split("\n")[0])).text = plain(failure)
        elif why is not None:
            xml.SubElement(case, "skipped", message=plain(why))
        said = [it.sentence, *(f"{name}: {meaning}" for name in it.variables for meaning in [meanings_of(answers, name)] if meaning)] if it else []
        if any(said):
            xml.SubElement(case, "system-out").text = plain("\n".join(filter(None, said)))
    write_text(path, xml.tostring(suite, encoding="utf-8", xml_declaration=True).decode())
