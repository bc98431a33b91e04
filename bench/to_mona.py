#!/usr/bin/env python3
"""Says a formula file as a question to MONA (WS1S): is the goal true of every behaviour? For measuring beside it, by hand:

    bench/to_mona.py FILE >question.mona; mona -q question.mona

Each interval is a pair of positions, a variable is a set of positions, and `last` is the last instant. A count up to n is n positions that
are written out, so files with large numbers make large questions. The text is taken to have no faults.
"""
import os
import sys

sys.path.insert(0, os.path.join(os.path.dirname(os.path.abspath(__file__)), "..", "workbench"))
from language import parse, read_text
from names import expand

OPERATORS = {"and": "&", "or": "|", "implies": "=>", "iff": "<=>"}


class Question:
    """Makes a proposition a function from a position, and a formula one from two positions, to MONA's text."""

    def __init__(self):
        self.fresh = 0
        self.sets = {}  # MONA's name for each variable and quantified name

    def new(self, of):
        self.fresh += 1
        return f"{of}{self.fresh}"

    def of_file(self, file):
        self.sets = {name: "V" + name for name in file.variables}
        goal = self.formula(expand(file))
        declared = "".join(f"var2 V{name};\n" for name in file.variables)
        return f"ws1s;\nvar1 last;\n{declared}{goal('0', 'last')};\n"

    # ---- propositions

    def proposition(self, tree):
        if tree.kind == "name":
            return lambda i: f"{i} in {self.sets[tree.value]}"
        if tree.kind in ("p_true", "p_false"):
            return lambda i: tree.kind[2:]
        parts = [self.proposition(part) for part in tree.parts]
        if tree.kind == "p_not":
            return lambda i: f"~{parts[0](i)}"
        if tree.kind in ("prior", "next"):
            j = self.new("j")
            if tree.kind == "prior":
                return lambda i: f"(ex1 {j}: {j} + 1 = {i} & {parts[0](j)})"
            return lambda i: f"(ex1 {j}: {j} = {i} + 1 & {j} <= last & {parts[0](j)})"
        operator = OPERATORS[tree.kind[2:]]
        return from_left(parts, lambda a, b: lambda i: f"({a(i)} {operator} {b(i)})")

    # ---- formulas

    def formula(self, tree):
        kind = tree.kind
        if kind in OPERATORS:
            parts = [self.formula(part) for part in tree.parts]
            return from_left(parts, lambda a, c: lambda b, e: f"({a(b, e)} {OPERATORS[kind]} {c(b, e)})")
        if kind in ("scount", "sdur"):
            return self.measure(self.proposition(tree.parts[0]), *tree.value, "<=" if kind == "scount" else "<")
        if kind in ("point", "run", "every", "unit"):
            return self.bracket(kind, self.proposition(tree.parts[0]))
        if kind == "chop":
            return from_left([self.formula(part) for part in tree.parts], self.chopped)
        if kind in ("ex", "all"):
            return self.quantified(tree)
        if tree.parts:
            return self.prefixed(kind, self.formula(tree.parts[0]))
        if kind == "slen":
            relation, n = tree.value
            return lambda b, e: f"({e} {relation} {b} + {n})"
        return {"pt": lambda b, e: f"({b} = {e})", "ext": lambda b, e: f"({b} < {e})"}.get(kind, lambda b, e: kind)

    def quantified(self, tree):
        track = self.sets[tree.value] = self.new("Q")
        inner = self.formula(tree.parts[0])
        return lambda b, e: f"({tree.kind}2 {track}: {inner(b, e)})"

    def chopped(self, a, c):
        m = self.new("m")
        return lambda b, e: f"(ex1 {m}: {b} <= {m} & {m} <= {e} & {a(b, m)} & {c(m, e)})"

    def prefixed(self, kind, inner):
        if kind == "star":
            return self.star(inner)
        if kind == "not":
            return lambda b, e: f"~{inner(b, e)}"
        x, y = self.new("x"), self.new("y")
        if kind == "diamond":
            return lambda b, e: f"(ex1 {x}, {y}: {b} <= {x} & {x} <= {y} & {y} <= {e} & {inner(x, y)})"
        return lambda b, e: f"(all1 {x}, {y}: {b} <= {x} & {x} <= {y} & {y} <= {e} => {inner(x, y)})"

    def star(self, inner):
        cuts, x, y, z = self.new("S"), self.new("x"), self.new("y"), self.new("z")

        def starred(b, e):
            following = f"{x} in {cuts} & {y} in {cuts} & {x} < {y} & ~(ex1 {z}: {z} in {cuts} & {x} < {z} & {z} < {y})"
            return (f"({b} = {e} | (ex2 {cuts}: {b} in {cuts} & {e} in {cuts} & (all1 {x}: {x} in {cuts} => {b} <= {x} & {x} <= {e}) "
                    f"& (all1 {x}, {y}: {following} => {inner(x, y)})))")

        return starred

    def bracket(self, kind, inner):
        i = self.new("i")
        return {
            "point": lambda b, e: f"({b} = {e} & {inner(b)})",
            "run": lambda b, e: f"({b} < {e} & (all1 {i}: {b} <= {i} & {i} < {e} => {inner(i)}))",
            "every": lambda b, e: f"(all1 {i}: {b} <= {i} & {i} <= {e} => {inner(i)})",
            "unit": lambda b, e: f"({e} = {b} + 1 & {inner(b)})",
        }[kind]

    def measure(self, inner, relation, n, until):
        def at_least(b, e, count):
            if count == 0:
                return "true"
            places = [self.new("c") for _ in range(count)]
            order = "".join(f" & {a} < {c}" for a, c in zip(places, places[1:]))
            each = "".join(f" & {inner(c)}" for c in places)
            return f"(ex1 {', '.join(places)}: {b} <= {places[0]} & {places[-1]} {until} {e}{order}{each})"

        return {
            ">=": lambda b, e: at_least(b, e, n),
            ">": lambda b, e: at_least(b, e, n + 1),
            "<": lambda b, e: f"~{at_least(b, e, n)}",
            "<=": lambda b, e: f"~{at_least(b, e, n + 1)}",
            "=": lambda b, e: f"({at_least(b, e, n)} & ~{at_least(b, e, n + 1)})",
        }[relation]


def from_left(parts, join):
    """Operands joined one after another, from the left."""
    joined = parts[0]
    for part in parts[1:]:
        joined = join(joined, part)
    return joined


if __name__ == "__main__":
    print(Question().of_file(parse(read_text(sys.argv[1]))), end="")
