"""`tables`: the automaton of a requirement as constant arrays in C, for the code in `c/observer_tables.c`."""
import argparse
import os
import re
from dataclasses import dataclass
from typing import Dict, Iterable, List, Sequence, Tuple

from automaton import Automaton, Choice, Diagram
from expand import Text
from program import Program
from streams import Unwritten, make_folder, plain, write_text

CODE = os.path.join(os.path.dirname(os.path.abspath(__file__)), "c")
SHARED = "observer"  # the code that all tables share has the names of tables that were called so
NARROW = 65_535  # the largest place that an unsigned short of C holds for sure


@dataclass
class Tables:
    """The automaton as arrays: see `c/observer_tables.h`. Places below `states` are states, the others nodes."""

    variables: int
    states: int
    first: List[int]
    rows: List[int]
    high: List[int]
    low: List[int]
    accepts: List[int]

    @property
    def wide(self) -> bool:
        return self.states + len(self.high) > NARROW

    @property
    def size(self) -> int:
        """The bytes of the arrays, a place being 2 bytes, and 4 in the wide form where a long of C has 4."""
        places = len(self.first) + len(self.rows) + len(self.high) + len(self.low)
        return places * (4 if self.wide else 2) + len(self.accepts)

    def leaf(self, place: int, letter: str) -> int:
        """The place that the code arrives at from this one: it looks at each variable once, in their order."""
        for variable, first in enumerate(self.first[:self.variables]):
            if place >= first:
                place = (self.high if letter[variable] == "1" else self.low)[place - self.states]
        return place

    def step(self, state: int, letter: str) -> int:
        return self.leaf(self.rows[state], letter)

    def accept(self, state: int) -> bool:
        return bool(self.accepts[state // 8] >> state % 8 & 1)


def nodes_of(automaton: Automaton) -> List[Choice]:
    """The nodes of all rows, each once: those of the last variable first."""
    return nodes_below(automaton.rows)


def nodes_below(rows: Iterable[Diagram]) -> List[Choice]:
    """The nodes of diagrams, each once: those of the last variable first."""
    found: Dict[int, Choice] = {}
    todo = [*rows][::-1]
    while todo:
        node = todo.pop()
        if isinstance(node, Choice) and id(node) not in found:
            found[id(node)] = node
            todo += [node.high, node.low]
    return sorted(found.values(), key=lambda node: -node.variable)


def tables_of(automaton: Automaton) -> Tables:
    width, states, nodes = len(automaton.variables), automaton.states, nodes_of(automaton)
    places = {id(node): states + number for number, node in enumerate(nodes)}

    def place(diagram: Diagram) -> int:
        return places[id(diagram)] if isinstance(diagram, Choice) else diagram

    accepts = [0] * ((states + 7) // 8)
    for state, accept in enumerate(automaton.accept):
        accepts[state // 8] |= accept << state % 8
    first = [states + sum(node.variable > variable for node in nodes) for variable in range(width)]
    return Tables(width, states, first, [place(row) for row in automaton.rows],
                  [place(node.high) for node in nodes], [place(node.low) for node in nodes], accepts)


# ---- the text in C

HEADER = """\
/* Tables of the observer of {source}: {states} states, {nodes} nodes, {size} bytes. `./ask tables` wrote them; they are not to be edited. */
#ifndef GUARD_{upper}_TABLES_H
#define GUARD_{upper}_TABLES_H

#include "observer_tables.h"
{wide}
{bits}extern const observer_tables {name}_tables;

#endif
"""

WIDE = """
#ifndef OBSERVER_TABLES_WIDE
#error "these tables are large: define OBSERVER_TABLES_WIDE in all files of the program"
#endif
"""

SOURCE = """\
/* Tables of the observer of {source}: what the numbers mean is said in observer_tables.h. */
#include "{name}_tables.h"

{arrays}
const observer_tables {name}_tables = {{
  {variables}u, {states}u, {name}_first, {name}_rows, {name}_high, {name}_low, {name}_accepts
}};
"""


def array_text(kind: str, name: str, numbers: Sequence[int]) -> str:
    """A constant array; C has none of no elements, so one that is not read stands for it."""
    lines: List[str] = []
    line = " "
    for number in numbers or [0]:
        word = f" {number}u,"
        if len(line) + len(word) > 110:
            lines.append(line)
            line = " "
        line += word
    body = "\n".join(lines + [line.rstrip(",")])
    return f"static const {kind} {name}[{len(numbers) or 1}] = {{\n{body}\n}};\n"


def header_text(tables: Tables, variables: Sequence[str], name: str, source: str) -> str:
    bits = "".join(f"#define {name.upper()}_{variable} {1 << number}u\n" for number, variable in enumerate(variables))
    bits = f"/* The bit of each variable in a letter. */\n{bits}\n" if bits else ""
    return HEADER.format(source=source, states=tables.states, nodes=len(tables.high), size=tables.size, upper=name.upper(),
                         name=name, bits=bits, wide=WIDE if tables.wide else "")


def source_text(tables: Tables, name: str, source: str) -> str:
    arrays = [array_text("observer_place", f"{name}_{field}", getattr(tables, field)) for field in ("first", "rows", "high", "low")]
    arrays.append(array_text("unsigned char", f"{name}_accepts", tables.accepts))
    return SOURCE.format(source=source, name=name, arrays="\n".join(arrays), variables=tables.variables, states=tables.states)


def name_of(path: str) -> str:
    """A name for the tables of a file: its own without the ending, with _ for what a name in C has not."""
    stem = re.sub(r"[^A-Za-z0-9_]", "_", os.path.splitext(os.path.basename(path))[0])
    return stem if re.match(r"[A-Za-z]", stem) and stem.lower() != SHARED else "observer_" + stem


def write(folder: str, name: str, texts: Sequence[Tuple[str, str]]) -> None:
    """The files of the tables, each put in its place at once: what a broken run leaves is no half of one."""
    make_folder(folder)
    for ending, text in texts:
        path = os.path.join(folder, f"{name}_tables.{ending}")
        write_text(path + ".new", text, "ascii")
        try:
            os.replace(path + ".new", path)
        except OSError as error:
            raise Unwritten(f"{path} could not be written: {error.strerror}") from None


def copy_code(folder: str) -> None:
    for ending in ("h", "c"):
        with open(os.path.join(CODE, f"observer_tables.{ending}"), encoding="ascii") as file:
            write_text(os.path.join(folder, f"observer_tables.{ending}"), file.read(), "ascii")


def c_name(word: str) -> str:
    if not re.fullmatch(r"[A-Za-z][A-Za-z0-9_]*", word):
        raise argparse.ArgumentTypeError(f"{word} is no name in C")
    if word.lower() == SHARED:
        raise argparse.ArgumentTypeError(f"{word}_tables.h and {word}_tables.c are the files of the code that all tables share")
    return word


def add_arguments(parser: argparse.ArgumentParser) -> None:
    parser.epilog = "Without --name, --out and --code it prints the tables."
    parser.add_argument("file", metavar="FILE")
    parser.add_argument("--name", type=c_name, help="writes NAME_tables.h and NAME_tables.c (else the file's name is taken)")
    parser.add_argument("--out", metavar="FOLDER", help="where they are written (else here)")
    parser.add_argument("--code", action="store_true", help="writes observer_tables.h and observer_tables.c beside them")
    parser.add_argument("--verify", action="store_true",
                        help="writes nothing, and checks the files that are there against the program; status 1 where they are wrong")


def run(options: argparse.Namespace, program: Program) -> int:
    name, folder = options.name or name_of(options.shown), options.out or "."
    text = Text(options.file, options.shown).text
    automaton = program.automaton(text)
    if options.verify:
        import tables_check
        return tables_check.verify(program, text, automaton, folder, name)
    tables, source = tables_of(automaton), plain(os.path.basename(options.shown)).replace("*/", "").replace("??", "")
    texts = [("h", header_text(tables, automaton.variables, name, source)), ("c", source_text(tables, name, source))]
    if not (options.name or options.out or options.code):
        print("\n".join(f"/* ---- {name}_tables.{ending} */\n{text}" for ending, text in texts), end="")
        return 0
    write(folder, name, texts)
    if options.code:
        copy_code(folder)
    print(f"{os.path.join(folder, name)}_tables.c: {tables.states} states, {len(tables.high)} nodes, {tables.size} bytes")
    return 0
