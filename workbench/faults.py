"""Refusals of the program in the words of a person: the line with a mark below the place, and what the fault means."""
import re
from typing import List, Optional, Tuple

import budget
import expand
import hints
import repairs
from language import MOST_BYTES
from program import NO_PROGRAM, Fault, Program, Refusal, fault_of, place_of_file
from shapes import SourceFault
from spots import Spot


def named_file(text: str) -> Optional[str]:
    """What kind of file a text is, where that is seen at its beginning; else nothing."""
    kinds = (
        (r"automaton [12]\n", "the text of an automaton"), (r"node \w+\s*\(", "an observer in Lustre"),
        (r"static int |void \w+_reset", "an observer in C"), (r"enum \{ states = ", "an observer in tables"),
        (r"(not )?valid\n", "a report of check"), (r"--- verdict\n", "a report of all"),
        (r"(un)?realisable\n", "a report of synth"), (r"implies\n|does not imply\n", "a report of implies"),
        (r"([01]+\n|-\n)+([01]*|-)$", "a trace"), (r"\$(date|timescale|version|scope|comment)\b", "a VCD file"),
        (r"#!", "a script"), (r"\x7fELF|MZ", "a program"), (r"\w+(,\s*\w+)+\r?\n", "a CSV file"),
        (r"(//[^\n]*\n|\s)*(var|define|prop|infer)\s", "a formula file"),
    )
    for pattern, kind in kinds:
        if re.match(pattern, text[:100_000]):
            return kind
    return None


def wrong_kind(text: str, *right: str) -> List[str]:
    """A line that says what kind of file it is, where it is not the right one."""
    kind = named_file(text)
    return [f"  This is {kind}."] if kind and kind not in right else []


def described(path: str, text: str, message: str, program: Optional[Program] = None) -> List[str]:
    """The lines for a fault or a step over the budget that the program named in a text; with a program, what may stand there too."""
    fault = fault_of(message)
    if fault is not None:
        spot = Spot(text, fault.place)
        head = f"{path}:{spot.row}:{spot.column}: fault {fault.kind}" + (", at the end of the text" if spot.at_end else "")
        said = hints.of_fault(fault.kind, spot)
        if fault.kind == "syntax" and not spot.text.strip():
            said = ["The file is empty."]
        kind = wrong_kind(text, "a formula file")
        more = repaired(program, text, fault) if program and not kind else []
        return [head, *spot.pointed(), *said, *kind, *more]
    match = re.match(r"budget (\w+) (\d+) at (\d+) step (\d+)", message)
    if match is not None:
        what, limit, place, step = match.group(1), *map(int, match.groups()[1:])
        spot = Spot(text, place)
        more = budget.lines(program, text, place) if program else []
        return [f"{path}:{spot.row}:{spot.column}: over the budget", *spot.pointed(), *hints.of_budget(what, limit, step), *more]
    return [message, *hints.of_message(message)]


def refused(whole: expand.Text, message: str, program: Program) -> Optional[List[str]]:
    """The lines for what the program says of a source, at its place there; None where it is no source, or the message names no place."""
    lines, step = whole.refused(message), re.match(r"budget \w+ \d+ at (\d+)", message)
    return lines + budget.lines(program, whole.text, int(step.group(1))) if lines and step else lines


def repaired(program: Program, text: str, fault: Fault) -> List[str]:
    """What may stand at a fault, and the one change after which no fault is left."""
    lines: List[str] = []
    tokens: List[str] = []
    if fault.kind in ("syntax", "byte") and fault.place + repairs.ROOM <= MOST_BYTES:
        tokens = repairs.may_stand(program, text, fault.place)
        lines.append(f"  May stand here: {repairs.spoken(text, fault.place, tokens)}")
    if fault.kind in ("syntax", "byte", "unknown", "kind"):
        told = repairs.phrases(repairs.repairs(program, text, fault, tokens))
        if told:
            lines.append(f"  No fault is left if you {', or '.join(told)}.")
    return lines


def explained(refusal: Refusal, path: Optional[str], name: str, program: Program) -> Tuple[List[str], int]:
    """The lines to print for a refusal of one of ./ask's questions, and the status; `path` is where FILE's text is, or None, and `name`
    how it was given. A fault in a question that the command itself made is the workbench's own."""
    said = [line for line in (refusal.message, *hints.of_message(refusal.message)) if line]
    if refusal.status not in (3, 4) or not path or not refusal.texts:
        return said, refusal.status
    text = refusal.texts[place_of_file(refusal.message)]
    try:
        whole = expand.Text(path, name)
    except (OSError, SourceFault):
        return said, refusal.status
    if whole.text == text:
        return refused(whole, refusal.message, program) or described(name, text, refusal.message, program), refusal.status
    if refusal.over_limits:
        return said + ["  That was said of a text that this command made; --show writes it."], refusal.status
    return said + ["  That was said of a text that this command made: a fault of the workbench. --show writes the text."], NO_PROGRAM
