"""`register`: a table of requirements in CSV (id;sentence;pattern;arguments) as a folder of files, and a folder as a table.

A file begins with its id and its sentence in a comment. What a file says that is no call of one pattern stays in the file: in its
row the pattern is -, and the arguments are empty.
"""
import argparse
import csv
import os
import re
import sys
import textwrap
from typing import Dict, List, NamedTuple, Optional, Sequence

import library
from catalogue import call_of, unknown
from joined import heading_of
from language import Fault, parse_proposition, read_text
from pattern import Wrong
from program import Program
from shapes import MOST, is_number
from streams import make_folder, write_text

HEAD = ["id", "sentence", "pattern", "arguments"]
OTHER = "-"  # the pattern of a file that is no call of one


class Row(NamedTuple):
    id: str
    sentence: str
    pattern: str
    arguments: str


def rows_of(path: str) -> List[Row]:
    """The rows of a table."""
    with open(path, encoding="utf-8-sig", newline="") as file:
        try:
            rows = [row for row in csv.reader(file, delimiter=";") if row]
        except (csv.Error, UnicodeDecodeError) as error:
            raise Wrong(f"{path} is no table: {error}") from None
    if not rows or [cell.strip().lower() for cell in rows[0]] != HEAD:
        raise Wrong(f"{path}: the first row has to be {';'.join(HEAD)}")
    for number, row in enumerate(rows[1:], 2):
        if len(row) != len(HEAD):
            raise Wrong(f"{path}: row {number} has {len(row)} cells, and the header {len(HEAD)}")
    return [Row(*(cell.strip() for cell in row)) for row in rows[1:]]


def arguments_of(text: str) -> List[str]:
    """The arguments in a list: commas in parentheses part none."""
    found, depth = [""], 0
    for mark in text:
        depth += {"(": 1, ")": -1}.get(mark, 0)
        if mark == "," and depth == 0:
            found.append("")
        else:
            found[-1] += mark
    return [it.strip() for it in found]


def file_text(row: Row) -> str:
    """The file of a row."""
    pattern = library.pattern(row.pattern)
    if pattern is None:
        raise Wrong(f"{row.id}: {unknown(row.pattern)}")
    arguments = arguments_of(row.arguments)
    if len(arguments) != len(pattern.parameters):
        raise Wrong(f"{row.id}: {call_of(pattern)} has {len(pattern.parameters)} arguments, and {len(arguments)} are there")
    names: Dict[str, None] = {}
    for parameter, argument in zip(pattern.parameters, arguments):
        if parameter in pattern.numbers:
            if not is_number(argument) or len(argument) > 9 or not pattern.least.get(parameter, 0) <= int(argument) <= MOST:
                raise Wrong(f"{row.id}: {parameter} of {call_of(pattern)} is a number from {pattern.least.get(parameter, 0)} to {MOST}, and no {argument}")
            continue
        try:
            tree = parse_proposition(argument)
        except Fault:
            raise Wrong(f"{row.id}: {parameter} of {call_of(pattern)} is a proposition, and no {argument or 'empty text'}") from None
        names.update((part.value, None) for part in tree.walk() if part.kind == "name")
    said = textwrap.wrap(" ".join(f"{row.id}: {row.sentence}".split()), 115, break_on_hyphens=False, break_long_words=False)
    declared = f"var {', '.join(names)};\n" if names else ""
    return "".join(f"// {line}\n" for line in said) + f'use "patterns/{pattern.name}.dc";\n{declared}infer {pattern.name}({", ".join(arguments)});\n'


def row_of(path: str) -> Row:
    """The row of a file."""
    text = read_text(path).encode("latin-1").decode("utf-8", "replace")
    name, sentence = heading_of(text)
    bare = re.sub(r"//[^\n]*", "", text)
    call = re.fullmatch(r'\s*use "patterns/(\w+)\.dc";\s*(?:var [^;]*;\s*)?infer \1\((.*)\);\s*', bare, re.S)
    pattern, arguments = (call.group(1), " ".join(call.group(2).split())) if call else (OTHER, "")
    return Row(name or os.path.basename(path)[:-3], sentence, pattern, arguments)


def write_folder(table: str, folder: str) -> int:
    """Writes a file for each row; how many. Nothing is written where a row is wrong."""
    rows, texts = rows_of(table), {}
    for row in rows:
        name = re.sub(r"[^\w.-]", "_", row.id)
        if not name or name.startswith(".") or heading_of(f"// {row.id}: x")[0] != row.id:
            raise Wrong(f"{row.id or 'an empty id'} is no id: it has letters, then digits, as REQ-4711")
        if name in texts:
            raise Wrong(f"the id {row.id} is there twice")
        texts[name] = "" if row.pattern == OTHER else file_text(row)
    make_folder(folder)
    for name, text in texts.items():
        if text:
            write_text(os.path.join(folder, name + ".dc"), text)
    return sum(map(bool, texts.values()))


def table_text(folder: str) -> Sequence[Row]:
    names = sorted(name for name in os.listdir(folder) if name.endswith(".dc"))
    return [row_of(os.path.join(folder, name)) for name in names]


def add_arguments(parser: argparse.ArgumentParser) -> None:
    parser.epilog = f"The first row of a table is {';'.join(HEAD)}. Of a folder the table is printed."
    parser.add_argument("table", metavar="TABLE", help="a table, or a folder of files")
    parser.add_argument("--out", metavar="FOLDER", help="of a table: writes a file for each row there")


def run(options: argparse.Namespace, program: Program) -> int:
    folder: Optional[str] = options.out
    try:
        if os.path.isdir(options.table):
            writer = csv.writer(sys.stdout, delimiter=";", lineterminator="\n")
            writer.writerow(HEAD)
            writer.writerows(table_text(options.table))
        elif folder is None:
            raise Wrong("--out FOLDER says where the files of a table are written")
        else:
            print(f"{folder}: {write_folder(options.table, folder)} files")
    except Wrong as wrong:
        print(f"ask register: {wrong}", file=sys.stderr)
        return 2
    return 0
