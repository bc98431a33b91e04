"""How ./ask runs a command: one handler for whatever comes, so that each run ends with a status and no traceback.

Statuses besides the commands' own: 5 a file cannot be read, 6 something cannot be written, 7 memory ran out, 125 the program gave no
answer, 128 and more a signal ended the run.
"""
import argparse
import io
import os
import signal
import sys
import tempfile
from types import FrameType
from typing import List, NoReturn, Optional, Sequence

import expand
import faults
import rooms
from answers import Malformed
from commands import Command, command_of, listing, module_of, parser_of
from language import MOST_BYTES, MOST_TEXT, Fault
from lines import LogFault
from program import NO_PROGRAM, Program, Refusal, complain
from shapes import SourceFault
from streams import PLAIN, Unwritten, copy_stream, is_stream

UNREAD, UNWRITTEN, NO_MEMORY = 5, 6, 7


class Stopped(BaseException):
    """A signal asks for the end of the run."""

    def __init__(self, number: int) -> None:
        super().__init__()
        self.number = number


class Shown(io.TextIOWrapper):
    """Standard output or error: what the encoding has not is written as an escape, and a control byte as a question mark."""

    def write(self, text: str) -> int:
        return super().write(text.translate(PLAIN))


class Errors(Shown):
    """Standard error: where nobody can read it, that is no failure of the command."""

    def write(self, text: str) -> int:
        try:
            return super().write(text)
        except OSError:
            return len(text)

    def flush(self) -> None:
        try:
            super().flush()
        except OSError:
            pass


def stop(number: int, _: Optional[FrameType]) -> NoReturn:
    """Ends the run by an exception, once: what it began is tidied up without being disturbed."""
    quieten()
    raise Stopped(number)


def quieten() -> None:
    for number in rooms.SIGNALS:
        signal.signal(number, signal.SIG_IGN)


def prepare() -> None:
    """The streams and the signals of a run."""
    for name in ("stdout", "stderr"):
        stream = getattr(sys, name)
        if stream is None:  # it is closed
            if name == "stderr":
                sys.stderr = open(os.devnull, "w", encoding="utf-8")
            continue
        if not isinstance(stream, Shown):
            stream.flush()
            kind, encoding = Errors if name == "stderr" else Shown, stream.encoding
            setattr(sys, name, kind(stream.detach(), encoding=encoding, errors="backslashreplace", line_buffering=name == "stderr"))
    tempfile.gettempdir()  # it writes a file to find out, and so leaves none
    for number in rooms.SIGNALS:
        if signal.getsignal(number) != signal.SIG_IGN:
            signal.signal(number, stop)
    signal.pthread_sigmask(signal.SIG_UNBLOCK, rooms.SIGNALS)


def main(words: Sequence[str]) -> int:
    """Runs the words of ./ask; the status."""
    program = Program()
    try:
        prepare()
        if sys.stdout is None:
            complain("ask: standard output is closed")
            return UNWRITTEN
        status = dispatched(list(words), program)
        sys.stdout.flush()
    except Stopped as stopped:
        status = 128 + stopped.number
    except SystemExit as end:  # of the parser of words
        status = end.code if isinstance(end.code, int) else 0 if end.code is None else 2
    except BaseException as error:  # pylint: disable=broad-except
        status = told(error, f"ask {words[0]}" if words and command_of(words[0]) else "ask")
    finally:
        quieten()
        program.stop()
        closed()
    return status


def told(error: BaseException, name: str) -> int:
    """Says what ended a command, in a line or some; the status."""
    if isinstance(error, Refusal):
        if error.message:
            complain(error.message)
        return error.status
    if isinstance(error, SourceFault):
        complain("\n".join(expand.fault_lines(error)))
        return 3
    if isinstance(error, Unwritten) or isinstance(error, OSError) and error.filename is None:
        reason = str(error) if isinstance(error, Unwritten) else f"the output could not be written: {error.strerror}"
        if not isinstance(error, BrokenPipeError):  # with it the reader of the output has gone
            complain(f"{name}: {reason}")
        return UNWRITTEN
    if isinstance(error, OSError):
        complain(f"{name}: {error.filename}: {error.strerror}")
        return UNREAD
    if isinstance(error, (MemoryError, RecursionError)):
        complain(f"{name}: {'memory ran out' if isinstance(error, MemoryError) else 'the text nests too deeply'}")
        return NO_MEMORY
    if isinstance(error, (Malformed, Fault, LogFault)):
        complain(f"{name}: {error}")
        return 10 if isinstance(error, Malformed) else 3 if isinstance(error, Fault) else 8
    complain(f"{name}: a fault of the workbench itself: {type(error).__name__}: {error} ({place_of(error)})")
    return NO_PROGRAM


def place_of(error: BaseException) -> str:
    """The file and the line where an error came up."""
    place = error.__traceback__
    while place is not None and place.tb_next is not None:
        place = place.tb_next
    return f"{os.path.basename(place.tb_frame.f_code.co_filename)}:{place.tb_lineno}" if place else "nowhere"


def closed() -> None:
    """Standard output is written out, or left: the end of Python says nothing about it."""
    try:
        if sys.stdout is not None:
            sys.stdout.flush()
    except (OSError, ValueError):
        os.dup2(os.open(os.devnull, os.O_WRONLY), 1)


def dispatched(words: List[str], program: Program) -> int:
    if not words or words[0] in ("-h", "--help", "help"):
        print(listing())
        return 0
    command = command_of(words[0])
    if command is None:
        complain(f"ask: there is no command {words[0]}; ./ask lists those that there are")
        return 2
    module = module_of(command)
    if hasattr(module, "main"):
        return int(module.main(words[1:], program))
    options = parser_of(command).parse_args(words[1:])
    program.show = options.show
    with rooms.room() as room:
        keep_file(options, room, command)
        try:
            return int(module.run(options, program))
        except Refusal as refusal:
            sys.stdout.flush()
            lines, status = faults.explained(refusal, options.file, options.shown, program)
            if lines:
                complain("\n".join(lines))
            return status


def keep_file(options: argparse.Namespace, room: str, command: Command) -> None:
    """A FILE that can be read once only is copied; `shown` is its name as it was given. `-` is standard input."""
    options.shown = options.file = getattr(options, "file", None)
    if options.file and (options.file == "-" or is_stream(options.file)):
        path = "/dev/stdin" if options.file == "-" else str(options.file)
        options.file = os.path.join(room, "text")
        copy_stream(path, options.file, MOST_TEXT if command.name == "draw" else MOST_BYTES)
