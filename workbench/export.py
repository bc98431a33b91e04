"""`export`: the minimal automaton of a requirement for other tools, as DOT, HOA, JSON or a monitor in Verilog; or a controller in Verilog."""
import argparse
import os
import re
import sys
from typing import Callable, Dict

import graphviz
import interchange
import omega
import verilog
import verilog_check
from automaton import Automaton
from controllers import Controller, Unrealisable, controller
from expand import Text
from program import Program
from streams import plain

FORMATS = ("dot", "hoa", "json", "verilog")


class NotExported(Exception):
    """The automaton cannot be written in a format; the message says why."""


def module_word(word: str) -> str:
    if not re.fullmatch(r"[A-Za-z_][A-Za-z0-9_]*", word):
        raise argparse.ArgumentTypeError(f"{word} is no name of a module")
    return word


def add_arguments(parser: argparse.ArgumentParser) -> None:
    parser.epilog = "Status 0: it is written, or the module is right. 1: the module is wrong, or there is no controller. 2: it cannot be written so, and why."
    parser.add_argument("file", metavar="FILE")
    parser.add_argument("--to", metavar="FORMAT", choices=FORMATS, required=True, help=" | ".join(FORMATS))
    parser.add_argument("--inputs", type=int, metavar="N", help="with verilog: the controller of the variables after the first N, not a monitor")
    parser.add_argument("--module", metavar="NAME", type=module_word, help="with verilog: the module's name (else that of the file and _monitor or _controller)")
    parser.add_argument("--form", choices=verilog.FORMS, help=f"with verilog: else cases up to {verilog.MOST_CASES} states, and tables above")
    parser.add_argument("--verify", metavar="MODULE.v", help="writes nothing, and checks this module against the program in the simulator Icarus")


def run(options: argparse.Namespace, program: Program) -> int:
    try:
        if options.to != "verilog" and (options.inputs is not None or options.module or options.form or options.verify):
            raise NotExported("--inputs, --module, --form and --verify go with --to verilog")
        text = Text(options.file, options.shown).text
        automaton = program.automaton(text)
        title = plain(os.path.basename(options.shown)).replace("\n", "?")
        if options.to != "verilog":
            sys.stdout.write(written(automaton, options.to, title))
            return 0
        return in_verilog(options, program, text, automaton, title)
    except Unrealisable as reason:
        print(f"ask export: {reason}", file=sys.stderr)
        return 1
    except NotExported as reason:
        print(f"ask export: {reason}", file=sys.stderr)
        return 2


def written(automaton: Automaton, to: str, title: str) -> str:
    """The automaton in a format that is not Verilog."""
    if to == "dot" and automaton.states > graphviz.MOST_STATES:
        raise NotExported(f"this automaton has {automaton.states} states, and Graphviz lays out no graph of more than {graphviz.MOST_STATES} in good time; "
                          "--to json has all of it")
    if to == "hoa" and omega.count(automaton) > omega.MOST_EDGES:
        raise NotExported(f"HOA would have {omega.count(automaton)} edges, and {omega.MOST_EDGES} are the most; --to json has all of it")
    writers: Dict[str, Callable[[Automaton, str], str]] = {"dot": graphviz.dot, "hoa": omega.hoa, "json": interchange.as_json}
    return writers[to](automaton, title)


def in_verilog(options: argparse.Namespace, program: Program, text: str, automaton: Automaton, title: str) -> int:
    """Writes a monitor or a controller, or checks the one that is there."""
    name = options.module or verilog.module_name(options.shown, "monitor" if options.inputs is None else "controller")
    if options.inputs is None:
        machine = monitor(automaton)
    else:
        if not 0 <= options.inputs < len(automaton.variables):
            raise NotExported(f"of {len(automaton.variables)} variables 0 to {len(automaton.variables) - 1} can be inputs of a controller")
        found = controller(program, text, automaton.variables, options.inputs)
        machine = controlling(found)
    if options.verify:
        check = (lambda it: verilog_check.verify_monitor(program, text, automaton, it)) if options.inputs is None else \
            (lambda it: verilog_check.verify_controller(found, it))
        return verilog_check.verify(options.verify, name, machine, check)
    form = options.form or ("cases" if machine.states <= verilog.MOST_CASES else "tables")
    sys.stdout.write(verilog.module(machine, name, title, form))
    return 0


def monitor(automaton: Automaton) -> verilog.Machine:
    return verilog.Machine(automaton.variables, automaton.states, dict(enumerate(automaton.rows)), automaton.accept)


def controlling(found: Controller) -> verilog.Machine:
    return verilog.Machine(found.goes.variables, found.goes.states, dict(enumerate(found.goes.rows)), outputs=found.outputs, answers=found.answers)
