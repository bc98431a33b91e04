"""`patterns`: the patterns of requirements, each with its parameters and its sentence, or one of them with all that its file says."""
import argparse
import difflib
import sys
import textwrap
from typing import List

import library
from program import Program
from waves import terminal_width

HEADS = {"occurrence": "Occurrence", "order": "Order", "real time": "Real time", "counting": "Counting", "practice": "Practice"}


def call_of(pattern: library.Pattern) -> str:
    """A call of a pattern, its parameters in the order of its macro: what a file that uses it writes."""
    return f"{pattern.name}({', '.join(pattern.parameters)})"


def listing(found: List[library.Pattern]) -> List[str]:
    width, lines, group = terminal_width(), [], None
    for it in found:
        if it.fields["group"] != group:
            group = it.fields["group"]
            lines += ["", HEADS[group]]
        lines.append(f"  {call_of(it)}")
        lines += textwrap.wrap(it.fields["sentence"], width, initial_indent="      ", subsequent_indent="      ")
    return lines[1:] + ["", "./ask patterns NAME says more of one: its end, behaviours, how far its numbers go, synthesis.",
                    "./ask pattern NAME makes a requirement of it."]


def whole(pattern: library.Pattern) -> List[str]:
    """All fields of a pattern, and its formula."""
    lines = [call_of(pattern), f"  an instant of a behaviour: the digits of {' '.join(pattern.variables)}"]
    for name, text in pattern.fields.items():
        if name != "group":
            lines += textwrap.wrap(f"{name}: {text}", terminal_width(), initial_indent="  ", subsequent_indent="      ")
    with open(pattern.path, encoding="ascii") as file:
        lines += [""] + [line.rstrip("\n") for line in file if not line.startswith("//")]
    return lines


def add_arguments(parser: argparse.ArgumentParser) -> None:
    parser.add_argument("name", metavar="NAME", nargs="?", help="the pattern that is shown in full")
    parser.add_argument("--only", metavar="WORD", help="the patterns that have this word in their name or their sentence")


def run(options: argparse.Namespace, program: Program) -> int:
    if options.name:
        found = library.pattern(options.name)
        if found is None:
            print(f"ask patterns: {unknown(options.name)}", file=sys.stderr)
            return 2
        print("\n".join(whole(found)))
        return 0
    word = (options.only or "").lower()
    print("\n".join(listing([it for it in library.patterns() if word in it.name or word in it.fields["sentence"].lower()])))
    return 0


def unknown(name: str) -> str:
    """A line for a name that no pattern has, with those that are like it."""
    near = difflib.get_close_matches(name, [it.name for it in library.patterns()], 3, 0.5)
    return f"there is no pattern {name}" + (f"; there is {', '.join(near)}" if near else "; ./ask patterns lists them")
