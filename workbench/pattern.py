"""`pattern`: a requirement made from a pattern: a file of the language with the list of its variables."""
import argparse
import sys
import textwrap
from typing import Dict, List, Set

import expand
import library
from catalogue import call_of, unknown
from language import Fault, natural, parse_proposition
from library import Pattern
from program import Program, Refusal
from shapes import MOST, is_number
from sources import Source


class Wrong(Exception):
    """The words of the command make no requirement."""


def add_arguments(parser: argparse.ArgumentParser) -> None:
    parser.epilog = ("Each parameter of the pattern is an option: a proposition (without it, a variable of its own name) or a number. "
                     "./ask pattern bounded_response --p 'ask && !off' --q served --n 100")
    parser.add_argument("name", metavar="NAME")
    numbers: Set[str] = set()
    found = library.patterns()
    for it in found:
        numbers.update(it.numbers)
    for name in sorted({parameter for it in found for parameter in it.parameters}):
        parser.add_argument("--" + name, metavar="N" if name in numbers else "P", help="a number" if name in numbers else "a proposition")


def given(options: argparse.Namespace, pattern: Pattern) -> Dict[str, str]:
    """What stands for each parameter."""
    values = {}
    for name in sorted({parameter for it in library.patterns() for parameter in it.parameters}):
        value = getattr(options, name)
        if value is not None and name not in pattern.parameters:
            raise Wrong(f"--{name} is no parameter of {call_of(pattern)}")
        if value is not None:
            values[name] = value
    missing = [f"--{name} N" for name in pattern.numbers if name not in values]
    if missing:
        raise Wrong(f"{call_of(pattern)} needs {' and '.join(missing)}")
    for name in pattern.numbers:
        low = pattern.least.get(name, 0)
        if not is_number(values[name]) or not low <= natural(values[name]) <= MOST:
            raise Wrong(f"--{name} {values[name]}: {name} is a number from {low} to {MOST}")
        values[name] = str(natural(values[name]))
    return {name: values.get(name, name) for name in pattern.parameters}


def variables_of(pattern: Pattern, values: Dict[str, str]) -> List[str]:
    """The variables of the requirement: those of each proposition, in the order of the pattern's own."""
    found: List[str] = []
    for name in pattern.propositions:
        try:
            tree = parse_proposition(values[name])
        except Fault as fault:
            raise Wrong(f"--{name} '{values[name]}' is no proposition: it ends at its character {fault.place + 1}") from None
        for part in tree.walk():
            if part.kind == "name" and part.parts:
                raise Wrong(f"--{name} '{values[name]}' calls a macro: write the proposition itself")
            if part.kind == "name" and part.value not in found:
                found.append(part.value)
    return found


def comment(pattern: Pattern, values: Dict[str, str]) -> str:
    """The sentence, what happens at the end, and what stands for the parameters."""
    meant = [f"{name} is {value}" for name, value in values.items() if value != name]
    end = pattern.fields["end"].replace("safety", "once broken, it stays broken", 1)
    lines = [pattern.fields["sentence"], f"At the end: {end}" + ("" if end.endswith(".") else ".")]
    lines += ["Here " + ", ".join(meant) + "."] if meant else []
    return "".join(f"// {line}\n" for text in lines for line in textwrap.wrap(text, 115, break_on_hyphens=False))


def source_text(pattern: Pattern, values: Dict[str, str]) -> str:
    variables = variables_of(pattern, values)
    declared = f"var {', '.join(variables)};\n" if variables else ""
    return f'{comment(pattern, values)}use "{pattern.path}";\n{declared}infer {pattern.name}({", ".join(values.values())});\n'


def run(options: argparse.Namespace, program: Program) -> int:
    pattern = library.pattern(options.name)
    try:
        if pattern is None:
            raise Wrong(unknown(options.name))
        text = source_text(pattern, given(options, pattern))
    except Wrong as wrong:
        print(f"ask pattern: {wrong}", file=sys.stderr)
        return 2
    made, fault = expand.read(lambda: Source("", "the requirement", text), program)
    if made is None:
        print("\n".join(fault or ()), file=sys.stderr)
        return 3
    print(made, end="")
    if program.is_there():
        warn(program, made)
    return 0


def warn(program: Program, text: str) -> None:
    """Says where the requirement asks nothing, can't be kept, or is over the budget."""
    try:
        verdict = program.check(text)
        said = "every behaviour keeps to this" if verdict.valid else "no behaviour keeps to this" if not verdict.satisfiable else None
    except Refusal as refusal:
        said = f"the program refuses this: {refusal.message}"
    if said:
        print(f"ask pattern: {said}", file=sys.stderr)
