"""`expand`: a file with constants, sums in the place of numbers, numbers as arguments and `use`, written as a file of the language.

A fault, of this notation or one that the program tells of the new text, is shown at its place in the source.
"""
import argparse
import re
import sys
from typing import Callable, Iterator, List, Optional, Tuple

import hints
from expansion import Expansion, Piece
from language import natural
from program import Fault, Program, fault_of
from shapes import SourceFault, is_number
from sources import Source, load
from spots import Spot


def fault_lines(fault: SourceFault) -> List[str]:
    """The lines for a fault of the notation."""
    spot = Spot(fault.source.text, fault.place)
    return [f"{fault.source.shown}:{spot.row}:{spot.column}: {fault.message}", *spot.pointed()]


def program_fault_lines(expansion: Expansion, fault: Fault) -> List[str]:
    """The lines for a fault that the program tells of the new text, at its place in the source."""
    piece, place = expansion.origin(fault.place)
    spot = Spot(piece.source.text, place)
    end = ", at the end of the text" if spot.at_end else ""
    lines = [f"{piece.source.shown}:{spot.row}:{spot.column}: fault {fault.kind}{end}", *spot.pointed(), *hints.of_fault(fault.kind, spot)]
    return lines + copied(expansion, piece)


class Text:
    """The text in the language of a file: what stands in it, or where it is a source, what that becomes. SourceFault where it has a
    fault of the notation; faults that the program finds are told at their places in the source."""

    def __init__(self, path: str, shown: str) -> None:
        source = load(path, shown)
        self.shown, self.source = shown, source
        self.expansion = Expansion(source) if is_source(source) else None
        self.text = self.expansion.text if self.expansion else source.text

    def place(self, place: int) -> Optional[int]:
        """Where a place of the text is in the file; None where it comes from another file."""
        if self.expansion is None:
            return place
        piece, there = self.expansion.origin(place)
        return there if piece.source is self.source else None

    def line(self, place: int) -> str:
        """The line of a place, by its number; where it comes from another file, with its name."""
        if self.expansion is None:
            return f"line {line_of(self.text, place)}"
        piece, there = self.expansion.origin(place)
        line = f"line {line_of(piece.source.text, there)}"
        return line if piece.source is self.source else f"{line} of {piece.source.shown}"

    def where(self, place: int) -> str:
        """A place as line and column, in front of them the file where it is another one."""
        if self.expansion is None:
            return place_of(self.text, place)
        piece, there = self.expansion.origin(place)
        where = place_of(piece.source.text, there)
        return where if piece.source is self.source else f"{piece.source.shown}:{where}"

    def refused(self, message: str) -> Optional[List[str]]:
        """The lines for a fault or a step over the budget at a place of the source; None where this is no source, or the message names no place."""
        if self.expansion is None:
            return None
        fault, step = fault_of(message), re.match(r"budget (\w+) (\d+) at (\d+) step (\d+)", message)
        if fault is not None:
            return program_fault_lines(self.expansion, fault)
        if step is not None:
            piece, place = self.expansion.origin(int(step.group(3)))
            spot = Spot(piece.source.text, place)
            lines = [f"{piece.source.shown}:{spot.row}:{spot.column}: over the budget", *spot.pointed()]
            return lines + hints.of_budget(step.group(1), int(step.group(2)), int(step.group(4))) + copied(self.expansion, piece)
        return None


    def other_numbers(self) -> Iterator[Tuple[Tuple[int, int], str, str, str]]:
        """The numbers of constants, and those that macros of other files get, one lower and one higher: the place of each, how it is
        called, the number, and the text with it."""
        for at, first, last in given_numbers(self.source) if self.expansion else ():
            token, text = self.source.tokens[at], self.source.text
            start, end = self.source.tokens[first].start, self.source.tokens[last].end
            called = f"line {line_of(text, token.start)}: {' '.join(text[start:end].split())}"
            for number in (natural(token.text) - 1, natural(token.text) + 1):
                try:
                    changed = load(self.source.path, self.shown, f"{text[:token.start]}{number}{text[token.end:]}")
                    if number >= 0:
                        yield (-1 - token.start, token.end), called, f"{number} for {token.text}", Expansion(changed).text
                except SourceFault:  # the number is out of bounds
                    pass


def given_numbers(source: Source) -> Iterator[Tuple[int, int, int]]:
    """The numbers of constants and of calls of other files' macros: of each its token, and the first and the last token of what it is in."""
    for order, (first, last) in enumerate(source.statements):
        if source.word(first) == "const":
            yield from ((at, first, last - 1) for at in range(first + 3, last) if is_number(source.word(at)))
        for at in range(first, last):
            called = source.meaning(source.word(at), order, ()) if source.word(first) in ("define", "infer") else None
            if called is not None and called.source is not source and called.numeric:
                ranges = [it for name, it in zip(called.parameters, source.arguments(at + 1, last)) if name in called.numeric]
                yield from ((place, at, source.closing(at + 1, last) or at) for begin, end in ranges for place in range(begin, end)
                            if is_number(source.word(place)))


def is_source(source: Source) -> bool:
    """Whether a file has anything that the language has not: constants, used files, macros with numbers."""
    return any(source.word(first) in ("use", "const") for first, _ in source.statements) or any(it.numeric for it in source.definitions)


def line_of(text: str, place: int) -> int:
    return text.count("\n", 0, place) + 1


def place_of(text: str, place: int) -> str:
    return f"{line_of(text, place)}:{place - text.rfind(chr(10), 0, place)}"


def copied(expansion: Expansion, piece: Piece) -> List[str]:
    """Which copy of a macro a place is in, where that is not plain."""
    if piece.copy is not None and (piece.copy.numbers or piece.source is not expansion.main):
        return [f"  That is {piece.copy.told()}."]
    return []


def read(source_of: Callable[[], Source], program: Program) -> Tuple[Optional[str], Optional[List[str]]]:
    """The new text of a source (which `source_of` makes), and the lines of its fault: one of both is None. Where no program is there
    yet none is built for it, and the text is not looked at."""
    try:
        expansion = Expansion(source_of())
    except SourceFault as fault:
        return None, fault_lines(fault)
    found = program.fault(expansion.text) if program.is_there() else None
    if found is not None:
        return None, program_fault_lines(expansion, found)
    return expansion.text, None


def add_arguments(parser: argparse.ArgumentParser) -> None:
    parser.epilog = ('In FILE may stand const NAME = 20; and use "FILE"; sums and differences of numbers and constants in the place of a number, '
                     "and numbers as arguments of macros. Used files are looked for beside FILE, then in the root of the repository.")
    parser.add_argument("file", metavar="FILE")


def run(options: argparse.Namespace, program: Program) -> int:
    text, fault = read(lambda: load(options.file, options.shown), program)
    if text is None:
        print("\n".join(fault or ()), file=sys.stderr)
        return 3
    sys.stdout.flush()
    sys.stdout.buffer.write(text.encode("latin-1"))
    return 0
