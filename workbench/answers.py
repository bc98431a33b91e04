"""The answers of the program, read whole: an answer that is cut off, or of another form, is none."""
import re
from typing import Dict, List

Word = List[str]  # a behaviour: a letter for each instant


class Malformed(Exception):
    """A text is cut off, or is of another form than it has to be; the message says which text and why."""


LETTERS = r"(?:(?:[01]+|-)\n)+"
COUNTEREXAMPLE, EXAMPLE = rf"counterexample [1-9]\d*\n{LETTERS}", rf"example [1-9]\d*\n{LETTERS}"
VERDICTS = {0: rf"valid\nsatisfiable\n{EXAMPLE}", 1: rf"not valid\n(?:satisfiable\n{COUNTEREXAMPLE}{EXAMPLE}|not satisfiable\n{COUNTEREXAMPLE})"}
AUTOMATON, LUSTRE, C, TABLES = r"automaton 2\nvariables .*\nend\n", r"node observer\(.*\ntel\n", r"static int st;\n.*\n\}\n", r"enum \{ states = .*\n\}\n"
ALL = rf"--- automaton\n{AUTOMATON}--- lustre\n{LUSTRE}--- c\n{C}"

NAMES = r"variables (?:-|\w+(?: \w+)*)\n"
STUCK = rf"stuck (?:0\n|[1-9]\d*\n{LETTERS})"
REPLAYED = r"(?!.*[01][01])(?!.*\n\n)[01][01\n]*(?<=\n)"  # lines of one digit, without a group that is repeated, which takes 60 bytes a line

# What each command's answer is, by its status.
WRITTEN: Dict[str, Dict[int, str]] = {
    "check": VERDICTS,
    "automaton": dict.fromkeys((0, 1), AUTOMATON),
    "lustre": dict.fromkeys((0, 1), LUSTRE),
    "c": dict.fromkeys((0, 1), C),
    "tables": dict.fromkeys((0, 1), TABLES),
    "all": {status: rf"--- verdict\n{verdict}{ALL}" for status, verdict in VERDICTS.items()},
    "implies": {0: r"implies\n", 1: rf"does not imply\n{COUNTEREXAMPLE}"},
    "stuck": {0: r"never stuck\n", 1: STUCK},
    "synth": {0: r"realisable\nstatic int st;\n.*\n\}\n", 1: r"unrealisable\nbound \d+\n(?:state \d+ rank \d+ input (?:[01]+|-)\n)+end\n"},
    "certify": {0: r"certified \d+\n", 1: r"refused (?:access \d+|pair \d+ \d+)\n"},
    "convert": {0: r"automaton [12]\nvariables .*\nend\n"},
    "replay-lustre": {0: REPLAYED},
    "replay-c": {0: REPLAYED},
    "replay-tables": {0: REPLAYED},
    "together": {0: rf"{NAMES}possible [1-9]\d*\n{LETTERS}never stuck\n", 1: rf"{NAMES}(?:possible [1-9]\d*\n{LETTERS}|impossible\n){STUCK}"},
    "follows": {0: rf"{NAMES}follows\n", 1: rf"{NAMES}does not follow [1-9]\d*\n{LETTERS}"},
    "sweep": {0: r"formulas \d+\nvalid \d+\nsatisfiable \d+\nover \d+\nstates \d+\n"},
}
SHAPES = {command: {status: re.compile(shape, re.S) for status, shape in shapes.items()} for command, shapes in WRITTEN.items()}


def check_shape(command: str, status: int, output: str) -> None:
    """Raises Malformed where this is no answer of the command with this status."""
    shape = SHAPES[command].get(status)
    if shape is None:
        raise Malformed(f"{command} has no answer with status {status}")
    if not shape.fullmatch(output):
        raise Malformed(f"the answer to {command} is cut off, or is of another form")
    if command in ("check", "implies", "stuck", "together", "follows"):
        words_of(output)


def words_of(report: str) -> Dict[str, Word]:
    """The behaviours in a report by their headings, as `counterexample`, `example`, `stuck`, `possible` and `does not follow`: each as long as its heading says."""
    found: Dict[str, Word] = {}
    lines, at = report.splitlines(), 0
    while at < len(lines):
        heading = re.match(r"(counterexample|example|stuck|possible|does not follow) (\d{1,9})$", lines[at])
        at += 1
        if heading:
            word = lines[at:at + int(heading.group(2))]
            if len(word) < int(heading.group(2)) or not all(re.match(r"([01]+|-)$", letter) and len(letter) == len(word[0]) for letter in word):
                raise Malformed(f"the report is cut off in its {heading.group(1)}, or has another line there")
            found[heading.group(1)] = word
            at += len(word)
    return found
