"""The commands of ./ask and of dcvalid, in one table each; completion and the man page are made of these."""
import argparse
import importlib
import importlib.util
from types import ModuleType
from typing import NamedTuple, Optional, Tuple

import limits


class Option(NamedTuple):
    name: str
    value: str  # what stands after it, or nothing
    summary: str


class Command(NamedTuple):
    name: str
    operands: str
    summary: str
    options: Tuple[Option, ...] = ()


STATES = Option("--states", "N", f"the most states of a step, 1 to {limits.STATES} ({limits.DEFAULT_STATES} where it is not given)")
NODES = Option("--nodes", "N", f"the most diagram nodes of a step, 1 to {limits.NODES} ({limits.NODES} where it is not given)")
LIMITS = (STATES, NODES)
TUPLES = Option("--tuples", "N", f"the most tuples of states before an answer, 1 to {limits.TUPLES} ({limits.DEFAULT_TUPLES} where it is not given)")
SHOW = Option("--show", "", "writes each file that the program is asked about on standard error")

ASK = (
    Command("explain", "COMMAND ..", "a command of dcvalid, and its answer in more words: waves, places, what may stand at a fault",
            (Option("--table", "", "behaviours as digits, a line for each instant"),)),
    Command("review", "FILE", "what a colleague would ask of a requirement: boundaries, near misses, a telling example, what decides nothing"),
    Command("draw", "FILE", "a report, a formula's behaviours, an automaton or a trace as text, SVG or VCD"),
    Command("tests", "FILE", "a test suite that tells the requirement from every other of as many states"),
    Command("watch", "FILE LOG", "a log, recorded or live, against one requirement or many, by the names of their variables"),
    Command("tables", "FILE", "an observer as C tables for several instances, or several requirements that share the code"),
    Command("export", "FILE", "the automaton as DOT, HOA, JSON or a monitor in Verilog; or a controller in Verilog"),
    Command("patterns", "[NAME]", "the patterns of requirements with their sentences, or one of them in full"),
    Command("pattern", "NAME ..", "a requirement made from a pattern, its propositions and its numbers"),
    Command("expand", "FILE", "a file with constants, sums, numbers as arguments and use, as a file of the language"),
    Command("serve", "", "a language server over standard input and output, for an editor"),
    Command("set", "FILE ..", "several requirements together: contradictions, where they get stuck, what follows from the others"),
    Command("report", "FILE ..", "one page in HTML about requirements, for a review meeting: text, verdict, waves, signals, automaton, tests"),
    Command("register", "TABLE", "a table of requirements (id;sentence;pattern;arguments) as a folder of files, and a folder as a table"),
    Command("verify", "FILE", "the program's answers checked step by step, by a script that trusts neither its proofs nor its compiler"),
)

PROGRAM = (
    Command("check", "FILE", "the verdict, with a shortest counterexample and a shortest example", LIMITS),
    Command("automaton", "FILE", "the minimal automaton, with words that show that it is minimal", LIMITS),
    Command("lustre", "FILE", "an observer in a subset of Lustre", LIMITS),
    Command("c", "FILE", "an observer in a subset of C", LIMITS),
    Command("tables", "FILE", "an observer in constant tables of C", LIMITS),
    Command("all", "FILE", "the verdict, the automaton and both flat observers, each after a line that names it", LIMITS),
    Command("implies", "FILE FILE", "whether the first formula implies the second, or a shortest behaviour that shows that it does not", LIMITS),
    Command("stuck", "FILE", "whether what has kept to the formula so far can always go on, or a shortest behaviour that cannot", LIMITS),
    Command("synth", "FILE", "a controller of the variables after the first N, or a strategy of these that beats each controller",
            (Option("--inputs", "N", f"how many of the variables, the first ones, are inputs (0 to {limits.VARIABLES})"),) + LIMITS),
    Command("certify", "FILE", "whether an automaton's words show that it is minimal"),
    Command("convert", "FILE", "an automaton's text in version 1 or 2", (Option("--to", "N", "the version, 1 or 2"),)),
    Command("replay-lustre", "OBSERVER TRACE", "what an observer in Lustre answers at each instant of a trace"),
    Command("replay-c", "OBSERVER TRACE", "what an observer in C answers at each instant of a trace"),
    Command("replay-tables", "OBSERVER TRACE", "what an observer in constant tables of C answers at each instant of a trace"),
    Command("sweep", "SEED COUNT", "counts over 1 to 1000 formulas that are drawn from a seed"),
    Command("together", "FILE ..", "whether requirements can be satisfied together, and whether what has kept to all so far can always go on", LIMITS + (TUPLES,)),
    Command("follows", "FILE ..", "whether the first requirement follows from the others, or a shortest behaviour that shows that it does not", LIMITS + (TUPLES,)),
)

# Commands whose module has another name.
MODULES = {"tests": "suite", "patterns": "catalogue", "set": "sets"}


def listing() -> str:
    lines = ["Questions around a requirement, asked of dcvalid. Nothing here is proved; every verdict in an answer is the program's.", "",
             "  ./ask COMMAND ..", ""]
    for command in ASK:
        lines.append(f"  {command.name + ' ' + command.operands:<20}{command.summary}")
    return "\n".join(lines + ["", "Each command has --help. --show writes the files that the program is asked about. docs/WORKBENCH.md says more."])


def parser_of(command: Command) -> argparse.ArgumentParser:
    """The parser of a command's words: --show and --help, and what its module adds by `add_arguments(parser)`."""
    parser = argparse.ArgumentParser(prog=f"ask {command.name}", description=command.summary[0].upper() + command.summary[1:] + ".")
    parser.add_argument("--show", action="store_true", help=SHOW.summary)
    module_of(command).add_arguments(parser)
    return parser


def module_of(command: Command) -> ModuleType:
    """A command's module: it has `add_arguments(parser)` and `run(options, program)`, or `main(words, program)` for its own words."""
    return importlib.import_module(MODULES.get(command.name, command.name))


def options_of(command: Command) -> Tuple[Option, ...]:
    """The options of a command of ./ask: those of its parser, or where it has none those of the table."""
    if hasattr(module_of(command), "main"):
        return command.options + (SHOW,)
    found = []
    for action in parser_of(command)._actions:
        name = next((word for word in action.option_strings if word.startswith("--")), "--help")
        if name != "--help":
            value = "" if action.nargs == 0 else str(action.metavar or " | ".join(action.choices or ()) or name[2:].upper())
            found.append(Option(name, value, action.help or ""))
    return tuple(found)


def command_of(name: str) -> Optional[Command]:
    return next((command for command in ASK if command.name == name), None)
