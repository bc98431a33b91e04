"""The command `draw`: a report, a formula's behaviours, an automaton or a trace as text, SVG or VCD."""
import argparse
import os
import re
import sys
from typing import List, Optional, Sequence

import faults
from answers import Malformed, words_of
from arcs import MOST_STATES, automaton_svg
from automaton import Automaton, read_automaton
from conditions import automaton_lines
from expand import Text
from glossary import glossary
from language import MOST_TEXT, Fault, parse, read_text
from pictures import Behaviour, vcd, waves_svg
from program import Program
from streams import write_text
from waves import heading, table, waves


class NotDrawn(Exception):
    """What was asked for cannot be drawn; the message says why."""


def add_arguments(parser: argparse.ArgumentParser) -> None:
    parser.add_argument("file", metavar="FILE", help="a formula, a report, an automaton or a trace; - is standard input")
    parser.add_argument("--svg", metavar="OUT", help="writes an SVG file instead of text")
    parser.add_argument("--vcd", metavar="OUT", help="writes a behaviour as a VCD file, for GTKWave and the like")
    parser.add_argument("--table", action="store_true", help="behaviours as digits, a line for each instant")
    parser.add_argument("--automaton", action="store_true", help="of a formula: its automaton, not its behaviours")
    parser.add_argument("--only", choices=("counterexample", "example"), help="one of the two behaviours")
    parser.add_argument("--names", metavar="NAMES", help="the variables of a report or a trace, as request,grant, or a formula file that declares them")
    parser.add_argument("--signals", metavar="LIST", help="a file of signals, whose comments say what the variables mean")


def run(options: argparse.Namespace, program: Program) -> int:
    name = "standard input" if options.shown == "-" else os.path.basename(options.shown)
    text = read_text(options.file, MOST_TEXT)
    try:
        kind = faults.named_file(text)
        if kind == "the text of an automaton":
            return draw_automaton(read_automaton(text), name, options)
        if kind in (None, "a formula file"):
            text, kind = Text(options.file, options.shown).text, None
        if kind is None and options.automaton:
            return draw_automaton(program.automaton(text), name, options)
        found = behaviours(kind, text, name, options, program)
        if options.only:
            found = [it for it in found if (it.marked is not None) == (options.only == "counterexample")]
        return draw_behaviours(found, options)
    except NotDrawn as reason:
        print(f"ask draw: {reason}", file=sys.stderr)
        return 2
    except Malformed as reason:
        print(f"ask draw: {options.shown}: {reason}", file=sys.stderr)
        return 10


def behaviours(kind: Optional[str], text: str, name: str, options: argparse.Namespace, program: Program) -> List[Behaviour]:
    """Behaviours with their titles and variables; of a counterexample the last instant is marked."""
    variables: Optional[List[str]] = None
    comparison: Optional[str] = None
    if kind == "a trace":
        trace = text.split()
        return [Behaviour(f"{name}, {len(trace)} instants", names(options, trace), trace)]
    if kind in ("a report of check", "a report of all", "a report of implies"):
        found = words_of(text.split("--- automaton")[0])
        declared = re.search(r"^variables (.*)$", text, re.M)
        variables = declared.group(1).split() if declared and not options.names else None
        comparison = "meets the first requirement and not the second" if kind == "a report of implies" else None
    elif kind is None:
        verdict = program.check(text)
        found = {what: word for what, word in (("counterexample", verdict.counterexample), ("example", verdict.example)) if word}
        variables = list(parse(text).variables)
    else:
        raise NotDrawn(f"{name} is {kind}, of which there is no picture")
    return [Behaviour(f"{name}: " + heading("a shortest behaviour that " + (comparison or ("breaks it" if what == "counterexample" else "meets it")), word)[:-1],
                      names(options, word) if variables is None else [it for it in variables if it != "-"], word,
                      len(word) - 1 if what == "counterexample" else None)
            for what, word in found.items()]


def names(options: argparse.Namespace, word: Sequence[str]) -> List[str]:
    """The variables' names: as they are given, or as a formula file declares them, or numbers."""
    width = 0 if word[0] == "-" else len(word[0])
    given = [f"variable {place + 1}" for place in range(width)]
    if options.names and os.path.isfile(options.names):
        given = declared_in(options.names)
    elif options.names:
        given = options.names.split(",")
    if not all(letter == "-" or set(letter) <= {"0", "1"} for letter in word):
        raise NotDrawn("it is no trace: an instant is digits 0 and 1, or -")
    if len(given) != width:
        raise NotDrawn(f"there are {len(given)} names for {width} variables")
    if any(len(letter) != len(word[0]) for letter in word):
        raise NotDrawn("its instants have different numbers of digits")
    return given


def declared_in(path: str) -> List[str]:
    """The variables that a formula file declares."""
    try:
        return list(parse(Text(path, path).text).variables)
    except Fault as fault:
        raise NotDrawn(f"{path} holds no formula: {fault}") from None


def draw_behaviours(found: Sequence[Behaviour], options: argparse.Namespace) -> int:
    if not found:
        raise NotDrawn("there is no such behaviour")
    if options.svg:
        return written(options.svg, waves_svg(found))
    if options.vcd:
        return written(options.vcd, vcd(found[0].variables, found[0].word))
    said = meanings(found[0].variables, options)
    for number, (title, variables, word, _) in enumerate(found):
        print(("\n" if number else "") + title)
        for line in table(variables, word) if options.table else waves(variables, word):
            print(f"  {line}".rstrip())
    print("".join(line + "\n" for line in said), end="")
    return 0


def draw_automaton(automaton: Automaton, name: str, options: argparse.Namespace) -> int:
    states = f"{automaton.states} {'state' if automaton.states == 1 else 'states'}"
    if options.vcd:
        raise NotDrawn("a VCD file holds a behaviour, not an automaton")
    if options.svg and automaton.states > MOST_STATES:
        raise NotDrawn(f"this automaton has {states}; those of more than {MOST_STATES} are tables: leave out --svg")
    if options.svg:
        return written(options.svg, automaton_svg(automaton, f"{name}: {states}; green: the requirement holds so far"))
    said = meanings(automaton.variables, options)
    print(f"{name}: {states}")
    for line in automaton_lines(automaton):
        print(f"  {line}")
    print("".join(line + "\n" for line in said), end="")
    return 0


def meanings(variables: Sequence[str], options: argparse.Namespace) -> List[str]:
    """The glossary of the variables, by the comments of the file and of the list of signals."""
    text = read_text(options.file, MOST_TEXT)
    found = glossary(text + f"\nvar {', '.join(variables)};\n", options.signals)
    lines = [f"  {name}: {found[name]}" for name in variables if name in found]
    return ["", *lines] if lines else []


def written(path: str, text: str) -> int:
    write_text(path, text)
    print(f"written: {path}")
    return 0
