"""Checks that tables in C are a requirement's automaton: walked state by state and letter by letter, and run beside `replay-c`."""
import os
import random
import re
import shutil
import subprocess
import tempfile
from typing import Iterator, List, Optional, Sequence, Set, Tuple

import limits
import observers
from automaton import Automaton, Choice, Diagram
from program import Program
from tables import CODE, Tables
from waves import in_line

FLAGS = ["-std=c89", "-O1", "-Wall", "-Wextra", "-Wconversion", "-pedantic", "-Werror"]
DRAWN, WALKED = 1000, 1_000_000
REPLAYED = 600_000_000  # instants times states: what a replay of an observer takes

# Reads behaviours, a line of digits for each instant and an empty line after each; or, with a word, takes each letter from each state.
HARNESS = """
#include <stdio.h>
#include "{name}_tables.h"

static void walk(void)
{{
  observer_instance one;
  unsigned long state, letter;
  int answer;

  for (state = 0; state < {states}; state++) for (letter = 0; letter < (1ul << {width}); letter++) {{
    observer_tables_reset(&one, &{name}_tables);
    one.state = (observer_place)state;
    answer = observer_tables_step(&one, (unsigned int)letter);
    printf("%lu %d\\n", (unsigned long)one.state, answer);
  }}
}}

int main(int count, char **words)
{{
  static observer_instance one;
  char line[40];
  unsigned int letter, bit;

  if (count > 1) {{ walk(); return words[1] == NULL; }}
  observer_tables_reset(&one, &{name}_tables);
  while (fgets(line, 40, stdin) != NULL) {{
    if (line[0] == '\\n') {{ puts(""); observer_tables_reset(&one, &{name}_tables); continue; }}
    for (letter = 0, bit = 0; line[bit] != '\\n'; bit++) if (line[bit] == '1') letter |= 1u << bit;
    putchar('0' + observer_tables_step(&one, letter));
  }}
  return 0;
}}
"""


class Wrong(Exception):
    """The tables are not the automaton, and where not."""


def read_tables(path: str, name: str) -> Tables:
    """The tables that a file in C holds, by its numbers alone."""
    with open(path, encoding="ascii", errors="replace") as file:
        text = re.sub(r"/\*.*?\*/", "", file.read(), flags=re.S)

    def array(field: str) -> List[int]:
        match = re.search(rf"\b{name}_{field}\[(\d+)\] = \{{([^}}]*)\}}", text)
        numbers = [int(word) for word in re.findall(r"\d+", match.group(2))] if match else []
        if match is None or len(numbers) != int(match.group(1)):
            raise Wrong(f"{path}: no array {name}_{field} of as many numbers as it says")
        return numbers

    head = re.search(rf"\b{name}_tables = \{{\s*(\d+)u, (\d+)u, ([^}}]*)\}}", text)
    fields = ["first", "rows", "high", "low", "accepts"]
    if head is None or [word.strip() for word in head.group(3).split(",")] != [f"{name}_{field}" for field in fields]:
        raise Wrong(f"{path}: no tables {name}_tables")
    return Tables(int(head.group(1)), int(head.group(2)), *map(array, fields))


# ---- all states and letters


def walk(tables: Tables, automaton: Automaton) -> None:
    """Compares each state's row for all letters at once, by the diagram's nodes: raises Wrong at the first difference."""
    width = len(automaton.variables)
    if (tables.variables, tables.states, len(tables.rows)) != (width, automaton.states, automaton.states):
        raise Wrong(f"the tables have {tables.variables} variables and {tables.states} states, the automaton {width} and {automaton.states}")
    if len(tables.high) != len(tables.low) or len(tables.first) < width or len(tables.accepts) * 8 < tables.states:
        raise Wrong("an array is shorter than the others ask for")
    same: Set[Tuple[int, bool, int, int]] = set()

    def compare(diagram: Diagram, place: int, letter: str) -> Optional[str]:
        """Whether both lead to the same state for each end of the letter; the letter that differs, else None."""
        variable = len(letter)
        key = (id(diagram) if isinstance(diagram, Choice) else diagram, isinstance(diagram, Choice), place, variable)
        if key in same:
            return None
        if variable == width:
            return letter if diagram != place else None
        for digit in "01":
            there = diagram
            if isinstance(diagram, Choice) and diagram.variable == variable:
                there = diagram.high if digit == "1" else diagram.low
            number, goes = place - tables.states, place
            if place >= tables.first[variable]:
                if not 0 <= number < len(tables.high):
                    return letter + digit
                goes = (tables.high if digit == "1" else tables.low)[number]
            differs = compare(there, goes, letter + digit)
            if differs is not None:
                return differs
        same.add(key)
        return None

    for state, row in enumerate(automaton.rows):
        differs = compare(row, tables.rows[state], "")
        if differs is not None:
            letter = differs.ljust(width, "0") or "-"
            raise Wrong(f"state {state}, letter {letter}: the automaton goes to state {automaton.step(state, letter)}, and the tables do not")
        if tables.accept(state) != automaton.accept[state]:
            raise Wrong(f"state {state}: the automaton {'accepts' if automaton.accept[state] else 'rejects'}, and the tables do not")


# ---- the compiled code


def compile_harness(room: str, folder: str, name: str, tables: Tables) -> Optional[str]:
    """The program that runs the tables, or None where there is no compiler."""
    compiler = os.environ.get("CC") or next((found for found in ("cc", "gcc", "clang") if shutil.which(found)), None)
    if compiler is None:
        return None
    source, binary = os.path.join(room, "harness.c"), os.path.join(room, "harness")
    with open(source, "w", encoding="ascii") as file:
        file.write(HARNESS.format(name=name, states=tables.states, width=tables.variables))
    wide = ["-DOBSERVER_TABLES_WIDE"] if tables.wide else []
    files = [source, os.path.join(folder, f"{name}_tables.c"), os.path.join(CODE, "observer_tables.c")]
    command = [*compiler.split(), *FLAGS, *wide, "-I", CODE, "-I", folder, "-o", binary, *files]
    built = subprocess.run(command, stdout=subprocess.PIPE, stderr=subprocess.STDOUT, check=False)
    if built.returncode:
        raise Wrong(f"{compiler} does not take the tables:\n{built.stdout.decode(errors='replace')}")
    return binary


def walk_compiled(binary: str, automaton: Automaton) -> None:
    """Each letter from each state, by the compiled code."""
    width = len(automaton.variables)
    lines = iter(subprocess.run([binary, "walk"], stdout=subprocess.PIPE, check=False).stdout.decode().splitlines())
    for state in range(automaton.states):
        for number in range(2 ** width):
            letter = format(number, f"0{width}b")[::-1] if width else "-"
            there = automaton.step(state, letter)
            wanted = f"{there} {int(automaton.accept[there])}"
            found = next(lines, "nothing")
            if found != wanted:
                raise Wrong(f"state {state}, letter {letter}: the compiled code says {found}, the automaton {wanted}")


def drawn_behaviours(automaton: Automaton, count: int = DRAWN, seed: int = 1) -> Iterator[List[str]]:
    """Behaviours that reach all over the automaton: a state's access word, and then up to 40 letters, some of them held."""
    draw, width = random.Random(seed), len(automaton.variables)
    for _ in range(count):
        word = automaton.access_word(draw.randrange(automaton.states))
        for _ in range(draw.randrange(1, 40)):
            held = word and draw.random() < 0.4
            word.append(word[-1] if held else "".join(draw.choice("01") for _ in range(width)) or "-")
        yield word


def drawn_within(automaton: Automaton) -> List[List[str]]:
    """As many drawn behaviours as a replay of the observer takes."""
    words: List[List[str]] = []
    instants = 0
    for word in drawn_behaviours(automaton):
        instants += len(word)
        if words and instants * automaton.states > REPLAYED:
            break
        words.append(word)
    return words


def answers_of(binary: Optional[str], tables: Tables, words: Sequence[Sequence[str]]) -> List[str]:
    """What the compiled code (or, where there is none, this script by the numbers) answers at each instant of each word."""
    if binary is None:
        return [by_numbers(tables, word) for word in words]
    text = "".join("".join(letter + "\n" for letter in word) + "\n" for word in words)
    done = subprocess.run([binary], input=text.encode(), stdout=subprocess.PIPE, check=False)
    answers = done.stdout.decode().split("\n")[:-1]
    if done.returncode or len(answers) != len(words):
        raise Wrong(f"the compiled code ended with status {done.returncode} after {len(answers)} of {len(words)} behaviours")
    return answers


def by_numbers(tables: Tables, word: Sequence[str]) -> str:
    state, found = 0, ""
    for letter in word:
        state = tables.step(state, letter)
        found += str(int(tables.accept(state)))
    return found


def run_drawn(program: Program, text: str, binary: Optional[str], tables: Tables, automaton: Automaton) -> Tuple[int, int]:
    """The drawn behaviours through the tables and through the program's own observer; how many there were, and their instants."""
    words = drawn_within(automaton)
    wanted_of = replayed(program, program.observer(text), tables.variables, words)
    for word, found, wanted in zip(words, answers_of(binary, tables, words), wanted_of):
        if found != wanted:
            at = next((i for i, pair in enumerate(zip(found, wanted)) if pair[0] != pair[1]), min(len(found), len(wanted)))
            raise Wrong(f"instant {at} of {in_line(word[:at + 1])}: the tables answer {found[at:at + 1]}, replay-c {wanted[at:at + 1]}")
    return len(words), sum(map(len, words))


def replayed(program: Program, observer: str, variables: int, words: Sequence[Sequence[str]]) -> List[str]:
    """What replay-c answers: in one run, by an input that restarts the observer, or with 16 variables, which leave no room for one, in a run each."""
    if variables < limits.VARIABLES:
        trace = [("0" if instant else "1") + letter.strip("-") for word in words for instant, letter in enumerate(word)]
        answers = iter(program.replay(observers.restarted(observer), trace))
        return ["".join(str(int(next(answers))) for _ in word) for word in words]
    with program.side_by_side(4) as pool:
        return list(pool.map(lambda word: "".join(str(int(answer)) for answer in program.replay(observer, word)), words))


def verify(program: Program, text: str, automaton: Automaton, folder: str, name: str) -> int:
    """Says what was checked, with status 0; or where the tables are wrong, with status 1."""
    path = os.path.join(folder, f"{name}_tables.c")
    try:
        tables = read_tables(path, name)
        walk(tables, automaton)
        print(f"{path}: all {automaton.states} states go where the automaton goes, by all {2 ** len(automaton.variables)} letters")
        with tempfile.TemporaryDirectory() as room:
            binary = compile_harness(room, folder, name, tables)
            if binary and automaton.states << len(automaton.variables) <= WALKED:
                walk_compiled(binary, automaton)
                print("  so does the compiled code, by each letter from each state")
            behaviours, instants = run_drawn(program, text, binary, tables, automaton)
        how = "the compiled code" if binary else "this script, by the numbers of the file (no C compiler was found),"
        print(f"  {how} answers as replay-c does at {instants} instants of {behaviours} drawn behaviours")
        return 0
    except Wrong as wrong:
        print(f"{path}: wrong: {wrong}")
        return 1
