"""`watch`: a log against requirements: where each is broken first, or each time; many in one pass, and live on a pipe."""
import argparse
import gc
import os
import sys
from typing import List, Sequence, Tuple, Union

import limits
import rooms
import single
from confirmed import Confirmation
from expand import Text
from glossary import glossary
from joined import heading_of, named
from judged import Judge
from language import natural, parse
from lines import LogFault, Unnamed
from logs import Settings, Source, letters_of
from monitors import Heading, Monitor
from program import Program, complain
from shapes import is_number
from signals import Signal, listed, read_line
from times import UNITS, duration
from traces import Unconfirmed
from watch_report import Lines, Text as TextReport, write_junit
from waves import instants


def column(word: str) -> Tuple[str, str]:
    variable, mark, name = word.partition("=")
    if not mark or not variable or not name:
        raise argparse.ArgumentTypeError(f"{word} is not VARIABLE=NAME")
    return variable, name


def at_least_one(word: str) -> int:
    if not is_number(word) or natural(word) < 1:
        raise argparse.ArgumentTypeError(f"{word} is no number of 1 or more")
    return natural(word)


def signal(word: str) -> Signal:
    try:
        found = read_line(word, "--let")
    except LogFault:
        found = None
    if found is None or not found.expression:
        raise argparse.ArgumentTypeError(f"{word} is not NAME = EXPRESSION")
    return found


def length(word: str) -> int:
    found = duration(word)
    if found is None:
        raise argparse.ArgumentTypeError(f"{word} is no length of time, as 10ms; its units are {', '.join(UNITS)}")
    return found


def period(word: str) -> str:
    if duration(word) is None:
        at_least_one(word)
    return word


def separator(word: str) -> str:
    mark = "\t" if word in ("tab", "\\t") else word
    if len(mark) != 1 or mark in '"\r\n' or ord(mark) > 127:
        raise argparse.ArgumentTypeError(f"{word} is not one character, or tab")
    return mark


def add_arguments(parser: argparse.ArgumentParser) -> None:
    parser.epilog = ("FILE LOG replays one requirement whole; FILE .. --log LOG watches many in one pass, and live. LOG is CSV, JSON lines or "
                     "VCD, by its name's ending, packed by gzip or not; - is standard input. Status 1 where one is broken, 8 where the log is bad.")
    setattr(parser, "parse_args", parser.parse_intermixed_args)  # requirements may stand on both sides of options
    parser.add_argument("file", metavar="FILE")
    parser.add_argument("more", metavar="LOG | FILE", nargs="*", help="the log, or with --log more requirements")
    parser.add_argument("--log", metavar="LOG", help="watches all requirements in one pass over this log")
    parser.add_argument("--rearm", action="store_true", help="all violations: after each one the requirement begins anew")
    parser.add_argument("--until-broken", action="store_true", help="with --log: ends at the first breach")
    parser.add_argument("--confirm", action="store_true", help="with --log: replays all of the log by the program's observers")
    parser.add_argument("--json", action="store_true", help="with --log: reports in JSON, a line for each breach, and for each requirement at the end")
    parser.add_argument("--junit", metavar="OUT", help="with --log: writes the results as a report of tests in JUnit's XML")
    parser.add_argument("--piece", metavar="N", type=at_least_one, help=f"the most rows of one replay, {limits.TRACE_LINES} at most (else that)")
    parser.add_argument("--trace", action="store_true", help="writes the trace that replay-tables takes, and judges nothing")
    add_reading(parser.add_argument_group("how the log is read"))


def add_reading(group: "argparse._ArgumentGroup") -> None:
    group.add_argument("--column", metavar="VARIABLE=NAME", type=column, action="append", default=[],
                       help="the column or signal of a variable, where it has another name")
    group.add_argument("--let", metavar="'NAME = EXPRESSION'", type=signal, action="append", default=[],
                       help="a variable that is made of columns, as 'fast = speed > 30.5'")
    group.add_argument("--signals", metavar="LIST", help="a file of such lines, each with a comment that says what the signal means")
    group.add_argument("--hold", action="store_true", help="a cell that is empty or not a value has the last value")
    group.add_argument("--time", metavar="NAME", help="the column of times; else the first one that is no variable")
    group.add_argument("--unit", choices=list(UNITS), default="s", help="the unit of times that are numbers (else s)")
    group.add_argument("--period", metavar="TIME | N", type=period,
                       help="an instant is each so much time, as 10ms, with the last row before it; VCD: each Nth unit of time")
    group.add_argument("--any", action="store_true", help="with --period: what was true in any row since the last instant is true")
    group.add_argument("--gap", metavar="TIME", type=length, help="refuses rows that are further apart")
    group.add_argument("--anew", action="store_true", help="with --gap: begins anew after a gap")
    group.add_argument("--clock", metavar="NAME", help="VCD: an instant is a rise of this signal, with the values before it")
    group.add_argument("--separator", metavar="MARK", type=separator, help="CSV: what is between the cells; tab is one")
    group.add_argument("--follow", action="store_true", help="waits for more of a log that grows, also where another file takes its place")
    for kind, what in (("csv", "CSV"), ("jsonl", "JSON lines"), ("vcd", "VCD")):
        group.add_argument(f"--{kind}", action="store_const", const=kind, dest="kind", help=f"the log is {what}, whatever its name")


def usage(options: argparse.Namespace) -> str:
    """What is wrong with the words, or nothing."""
    if options.log is None and len(options.more) != 1:
        return "a requirement and a log, or requirements and --log LOG, are expected"
    if options.log is None:
        alone = [word for word in ("until_broken", "confirm", "json", "junit", "anew") if getattr(options, word)]
        return f"--{alone[0].replace('_', '-')} is for --log LOG" if alone else ""
    if options.trace and (options.more or options.anew):
        return "--trace writes the trace of one requirement, without --anew"
    if options.any and not options.period or options.anew and not options.gap:
        return "--any is for --period" if options.any else "--anew is for --gap"
    if options.shown == "-" and options.log == "-":
        return "a requirement and the log cannot both be standard input"
    if options.follow and options.log == "-":
        return "--follow is for a file"
    return ""


def run(options: argparse.Namespace, program: Program) -> int:
    message = usage(options)
    if message:
        complain(f"ask watch: {message}")
        return 2
    log = options.more[0] if options.log is None else options.log
    paths = [options.shown] + (options.more if options.log is not None else [])
    found: List[Tuple[Heading, str]] = []
    try:
        found += [requirement(options, program, name, path) for name, path in named(paths)]
        return judged(options, program, log, found)
    except Unnamed as fault:
        sys.stdout.flush()
        complain(f"ask watch: {fault}{origin(fault.wanted, options, [heading for heading, _ in found])}")
        return 8
    except LogFault as fault:
        sys.stdout.flush()
        complain(f"ask watch: {fault}")
        return 8
    except Unconfirmed as fault:
        sys.stdout.flush()
        complain(f"ask watch: {fault}")
        return 125


def requirement(options: argparse.Namespace, program: Program, name: str, path: str) -> Tuple[Heading, str]:
    """A requirement, and its text in the language. What the program refuses is explained by the names that are left in the options."""
    if path != options.shown:
        options.file = options.shown = path
    source = Text(options.file, path)
    text = source.text
    if program.fault(text):
        program.ask("check", text)
    head = heading_of(source.source.text.encode("latin-1").decode("utf-8", "replace"))
    return Heading(name, path, *head, parse(text).variables, glossary(source.source.text)), text


def settings_of(options: argparse.Namespace, log: str, variables: Sequence[str]) -> Settings:
    unknown = [name for name, _ in options.column if name not in variables]
    if unknown:
        raise LogFault(f"--column: {unknown[0]} is no variable of {options.shown}; it has: {', '.join(variables) or 'none'}")
    strange = [it.name for it in options.let if it.name not in variables]
    if strange:
        raise LogFault(f"--let: {strange[0]} is no variable of a requirement; these are: {', '.join(variables) or 'none'}")
    return Settings(log, options.kind, dict(options.column), signals_of(options), options.hold, options.separator, options.follow, options.clock,
                    options.period, options.time, options.unit, options.gap, options.anew, options.any)


def signals_of(options: argparse.Namespace) -> List[Signal]:
    """The signals of the file, and those of --let."""
    return [*listed(options.signals), *options.let]


def origin(wanted: str, options: argparse.Namespace, headings: Sequence[Heading]) -> str:
    """Where a name comes from that the log has not: from a signal, or from requirements, and whether the file of signals has it."""
    name = next((variable for variable, column in options.column if column == wanted), wanted)
    signals = signals_of(options)
    users = [it for it in signals if it.has(wanted)]
    files = [it.path for it in headings if name in it.variables]
    if users and not any(it.expression and it.name == name for it in users):
        return f"; {users[0].name} is made of it ({users[0].where})"
    if not files:
        return ""
    place = next((it.where for it in signals if it.name == name), "")
    more = f" and {len(files) - 1} more" if len(files) > 1 else ""
    return f"; {name} is a variable of {files[0]}{more}" + (f"; {place} lists it as a column" if place else f"; {options.signals} does not list it" if options.signals else "")


def judged(options: argparse.Namespace, program: Program, log: str, found: List[Tuple[Heading, str]]) -> int:
    variables = list(dict.fromkeys(name for heading, _ in found for name in heading.variables))
    source = Source(settings_of(options, log, variables), variables)
    if options.trace:
        for _, letter in letters_of(source, variables):
            print(letter)
        return 0
    monitors = [Monitor(heading, text, program.automaton(text), [source.places[name] for name in heading.variables], options.rearm)
                for heading, text in found]
    with rooms.room() as room:
        confirmation = Confirmation(program, room, options.confirm or options.log is None, min(options.piece or limits.TRACE_LINES, limits.TRACE_LINES))
        if options.log is None:
            status = single.judge(monitors[0], confirmation, source)
        else:
            status = watched(options, source, monitors, confirmation)
    tell_steps(source)
    return status


def watched(options: argparse.Namespace, source: Source, monitors: List[Monitor], confirmation: Confirmation) -> int:
    """All requirements in one pass."""
    gc.set_threshold(1_000_000)  # rows are many objects, and no cycles
    report: Union[Lines, TextReport] = Lines() if options.json else TextReport(source.settings.signals)
    judge = Judge(monitors, report, confirmation, options.until_broken)
    try:
        judge.run(source.shown, source.blocks())
    except Unnamed:
        raise
    except LogFault as fault:
        before = f"; {instants(judge.count)} before it {'is' if judge.count == 1 else 'are'} judged" if judge.count else ""
        raise LogFault(f"{fault}{before}") from None
    except BaseException as end:
        if end.__class__.__name__ == "Stopped" and judge.count:  # a signal ends a log that has no end of its own
            report.end(monitors, judge.count)
        raise
    if judge.count == 0:
        raise LogFault(f"{source.shown}: there is no instant")
    report.end(monitors, judge.count)
    if options.junit:
        write_junit(monitors, judge.count, os.path.basename(source.shown), options.junit)
    return 1 if any(it.breaches for it in monitors) else 0


def tell_steps(source: Source) -> None:
    if source.steps and source.steps.told():
        complain(f"ask watch: {source.shown}: {source.steps.told()}")
