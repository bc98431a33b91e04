#!/usr/bin/env python3
"""Compiles the constant tables of drawn formulas and compares them with the automaton and with `replay-c`. By hand, some minutes for 100 formulas:

    DCVALID=PROGRAM tests/tables.py [COUNT [SEED [INSTANTS]]]

Each text has to be that of a writer of this script's own, from the lines of the automaton's text. gcc, and clang where it is installed, compile it as
C89 without a warning and with the sanitizers of addresses and undefined behaviour. The compiled observer is run on drawn instants (10,000 by default),
once with 0 and 1 for the values and once with 0 and 2, and is reset at some of them. What it returns is compared with a walk over the automaton's text,
and up to the first reset with `replay-c` over the text of `c`.
"""
import os
import random
import shutil
import subprocess
import sys
import tempfile

from sweeps import Draw, formula
from tested import tested

FLAGS = ["-std=c89", "-O1", "-Wall", "-Wextra", "-Wconversion", "-pedantic", "-Werror", "-Wno-unused-parameter",
         "-fsanitize=address,undefined", "-fno-sanitize-recover=all"]
ATOMS = {"point": "<{0}>", "run": "[{0}]", "all": "[[{0}]]", "unit": "(slen = 1 && [{0}])", "scount": "(scount {0} >= {1})", "sdur": "(sdur {0} < {1})"}
JOINS = {"and": "&&", "or": "||", "chop": "^", "iff": "<=>"}
MAIN = """#include <stdio.h>

void observer_reset(void);
int observer_step({types});

int main(int count, char **words)
{{
  int letter[{room}];
  int read = 0;
  int c;

  (void)words;
  letter[0] = 0;
  observer_reset();
  while ((c = getchar()) != EOF) {{
    if (c == 'r') observer_reset();
    else if (c == '\\n') {{ puts(observer_step({letters}) ? "1" : "0"); read = 0; }}
    else if (c != '-') letter[read++] = c == '1' ? count : 0;
  }}
  return 0;
}}
"""


class Automaton:
    """The lines of an automaton's text: each state's row, each node by its name, and which states accept."""

    def __init__(self, text):
        self.names, self.nodes, self.rows, self.accepts = [], [], [], []
        for words in map(str.split, text.splitlines()):
            if words[0] == "variables":
                self.names = [name for name in words[1:] if name != "-"]
            elif words[0] == "node":
                self.nodes.append((words[2], words[4], words[6]))
            elif words[0] == "state":
                self.accepts.append(words[2] == "accept")
                self.rows.append(words[3])

    def step(self, state, letter):
        at = self.rows[state]
        while at[0] == "n":
            name, high, low = self.nodes[int(at[1:])]
            at = high if letter[self.names.index(name)] == "1" else low
        return int(at[1:])

    def answers(self, trace):
        """What is returned at each instant of a trace, in which `r` resets before an instant."""
        state, found = 0, []
        for line in trace:
            state = self.step(0 if line[0] == "r" else state, line.lstrip("r"))
            found.append("1" if self.accepts[state] else "0")
        return found


def tables_text(automaton):
    """The tables, written as docs/OBSERVERS.md describes them."""
    states, nodes, names = len(automaton.rows), len(automaton.nodes), automaton.names
    place = "unsigned short" if states + nodes <= 65_535 else "unsigned long"
    lines = [f"enum {{ states = {states}, nodes = {nodes}, variables = {len(names)} }};", ""]

    def number(target):
        return int(target[1:]) + (states if target[0] == "n" else 0)

    def array(integer, head, numbers):
        lines.extend([f"static const {integer} {head} = {{", *(f"  {one}," for one in numbers), "};", ""])

    if nodes:
        array("unsigned char", "variable[nodes]", [names.index(name) for name, _, _ in automaton.nodes])
        array(place, "high[nodes]", [number(high) for _, high, _ in automaton.nodes])
        array(place, "low[nodes]", [number(low) for _, _, low in automaton.nodes])
    array(place, "row[states]", map(number, automaton.rows))
    array("unsigned char", "accept[states]", map(int, automaton.accepts))
    lines += [f"static {place} st;", "", "void observer_reset(void)", "{", "  st = 0;", "}", "",
              f"int observer_step({', '.join(f'int v_{name}' for name in names) or 'void'})", "{", *["  int letter[variables];"] * bool(nodes),
              f"  {place} at;", "", *(f"  letter[{slot}] = v_{name};" for slot, name in enumerate(names) if nodes), "  at = row[st];",
              *["  while (at >= states) at = letter[variable[at - states]] ? high[at - states] : low[at - states];"] * bool(nodes),
              "  st = at;", "  return accept[st];", "}"]
    return "\n".join(lines) + "\n"


def spelled(tree, depth=0):
    """The text of a drawn formula; the variable of a quantifier in so many others is `t` with their number."""
    kind = tree[0]
    if kind in ATOMS:
        _, slot, truth, number = tree
        return ATOMS[kind].format(("" if truth else "!") + ("xyz"[slot] if slot < 3 else f"t{slot - 3}"), number)
    if kind == "not":
        return f"!({spelled(tree[1], depth)})"
    if kind == "star":
        return f"({spelled(tree[1], depth)})*"
    if kind == "exists":
        return f"(ex t{depth}. ({spelled(tree[1], depth + 1)}))"
    return f"({spelled(tree[1], depth)} {JOINS[kind]} {spelled(tree[2], depth)})"


def run(*words, data=None, statuses=(0, 1)):
    done = subprocess.run(words, input=data, capture_output=True, text=True)
    if done.returncode not in statuses:
        raise SystemExit(f"{' '.join(words)} ended with {done.returncode}: {done.stderr[:400]}")
    return done.stdout


def drawn_trace(draw, names, instants):
    share = draw.choice([0.05, 0.3, 0.5, 0.9])
    letters = ["".join("1" if draw.random() < share else "0" for _ in names) or "-" for _ in range(instants)]
    return ["r" * (place > 0 and draw.random() < 0.02) + letter for place, letter in enumerate(letters)]


def compiled(compiler, folder, text, names):
    """The program of the tables."""
    main = MAIN.format(types=", ".join(["int"] * len(names)) or "void", room=max(1, len(names)), letters=", ".join(f"letter[{k}]" for k in range(len(names))))
    paths = []
    for name, source in (("tables.c", text), ("main.c", main)):
        paths.append(os.path.join(folder, name))
        with open(paths[-1], "w") as file:
            file.write(source)
    program = os.path.join(folder, "program")
    run(compiler, *FLAGS, *paths, "-o", program)
    return program


def judge(program, path, folder, draw, instants):
    """Compares all of a formula file; the number of its states, which is 0 where a step is over the limits."""
    automaton = Automaton(run(program, "automaton", path, statuses=(0, 1, 4)))
    if not automaton.rows:
        return 0
    text = run(program, "tables", path)
    assert text == tables_text(automaton), f"{path}: another text"
    trace = drawn_trace(draw, automaton.names, instants)
    wanted = automaton.answers(trace)
    for compiler in filter(shutil.which, ("gcc", "clang")):
        watch = compiled(compiler, folder, text, automaton.names)
        for more in ([], ["2"]):
            got = run(watch, *more, data="\n".join(trace) + "\n").split()
            assert got == wanted, f"{path}: {compiler} returns another answer"
    first = next((place for place, line in enumerate(trace) if line[0] == "r"), len(trace))
    observer, log = os.path.join(folder, "observer.c"), os.path.join(folder, "trace")
    for name, lines in ((observer, run(program, "c", path)), (log, "\n".join(trace[:first]) + "\n")):
        with open(name, "w") as file:
            file.write(lines)
    replayed = [line.split()[-1] for line in run(program, "replay-c", observer, log).splitlines()]
    assert [{"accept": "1", "reject": "0"}.get(word, word) for word in replayed] == wanted[:first], f"{path}: replay-c answers otherwise"
    return len(automaton.rows)


def main():
    count, seed, instants = (int(word) for word in (sys.argv[1:] + ["100", "7", "10000"][len(sys.argv) - 1:]))
    program = tested()
    draw, source, states = random.Random(seed), Draw(seed), []
    with tempfile.TemporaryDirectory() as folder:
        path = os.path.join(folder, "drawn.dc")
        while len(states) < count:
            with open(path, "w") as file:
                file.write(f"var x, y, z;\ninfer {spelled(formula(source, 4, 0))};\n")
            states += [found for found in [judge(program, path, folder, draw, instants)] if found]
    print(f"{count} formulas with {sum(states)} states: the tables of each have the right text, and return what the automaton does on {instants} instants")


if __name__ == "__main__":
    main()
