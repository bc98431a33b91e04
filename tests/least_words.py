#!/usr/bin/env python3
"""Finds the verdict of a formula file by trying all behaviours in order, for expected values of tests, by hand:

    tests/least_words.py FILE [LENGTH]

It shares no code with the program. Behaviours of more than LENGTH instants (6 if it is not given) are not tried: where none was found it says so.
The text is taken to have no faults.
"""
import functools
import itertools
import os
import sys

sys.path.insert(0, os.path.join(os.path.dirname(os.path.abspath(__file__)), "..", "workbench"))
from language import parse, read_text  # only how a text is read; what it means is said here
from names import expand

RELATIONS = {"=": lambda a, b: a == b, "<": lambda a, b: a < b, "<=": lambda a, b: a <= b, ">": lambda a, b: a > b, ">=": lambda a, b: a >= b}


class Evaluator:
    """Makes trees tests: a proposition of a behaviour and an instant, a formula of a behaviour and an interval.

    A behaviour is the number of its instants, the tracks of the declared variables, and those of the quantified ones in sight.
    """

    def __init__(self, file):
        self.slots = {name: slot for slot, name in enumerate(file.variables, 1)}
        self.depth = 1 + len(file.variables)
        goal = self.formula(expand(file))
        # e is the last instant of the whole behaviour
        self.goal = lambda tracks, b, e: goal((e + 1, *tracks), b, e)

    def proposition(self, tree):
        kind = tree.kind
        if kind == "name":
            slot = self.slots[tree.value]
            return lambda w, i: w[slot][i]
        if kind in ("p_true", "p_false"):
            return lambda w, i: kind == "p_true"
        parts = [self.proposition(part) for part in tree.parts]
        if kind == "p_not":
            return lambda w, i: not parts[0](w, i)
        if kind in ("prior", "next"):
            step = -1 if kind == "prior" else 1
            return lambda w, i: 0 <= i + step < w[0] and parts[0](w, i + step)
        return connected(kind[2:], parts)

    def formula(self, tree):
        kind = tree.kind
        if kind in ("and", "or", "implies", "iff"):
            return connected(kind, [self.formula(part) for part in tree.parts])
        if kind == "chop":
            return functools.reduce(chopped, [self.formula(part) for part in tree.parts])
        if kind in ("ex", "all"):
            return self.quantified(tree)
        if kind in ("point", "run", "every", "unit"):
            return bracket(kind, self.proposition(tree.parts[0]))
        if kind == "slen":
            relation, n = RELATIONS[tree.value[0]], tree.value[1]
            return lambda w, b, e: relation(e - b, n)
        if kind in ("scount", "sdur"):
            inner, relation, n = self.proposition(tree.parts[0]), RELATIONS[tree.value[0]], tree.value[1]
            last = 1 if kind == "scount" else 0
            return lambda w, b, e: relation(sum(inner(w, i) for i in range(b, e + last)), n)
        if tree.parts:
            return prefixed(kind, self.formula(tree.parts[0]))
        return {"pt": lambda w, b, e: b == e, "ext": lambda w, b, e: b < e}.get(kind, lambda w, b, e: kind == "true")

    def quantified(self, tree):
        slot = self.slots[tree.value] = self.depth
        self.depth += 1
        inner = self.formula(tree.parts[0])
        self.depth = slot
        some = any if tree.kind == "ex" else all
        return lambda w, b, e: some(
            inner(w[:slot] + ((False,) * b + choice,), b, e) for choice in itertools.product((False, True), repeat=e - b + 1))


def connected(kind, parts):
    """A connective of tests of anything: of an instant or of an interval."""
    if kind == "and":
        return lambda *at: all(part(*at) for part in parts)
    if kind == "or":
        return lambda *at: any(part(*at) for part in parts)
    if kind == "implies":
        return lambda *at: not parts[0](*at) or parts[1](*at)
    return lambda *at: functools.reduce(lambda a, b: a == b, [bool(part(*at)) for part in parts])


def chopped(a, c):
    return functools.lru_cache(10_000)(lambda w, b, e: any(a(w, b, m) and c(w, m, e) for m in range(b, e + 1)))


def prefixed(kind, inner):
    if kind == "not":
        return lambda w, b, e: not inner(w, b, e)
    if kind == "star":
        return star(inner)
    some = any if kind == "diamond" else all
    return lambda w, b, e: some(inner(w, x, y) for x in range(b, e + 1) for y in range(x, e + 1))


def star(inner):
    @functools.lru_cache(10_000)
    def starred(w, b, e):
        return b == e or any(inner(w, b, m) and starred(w, m, e) for m in range(b + 1, e + 1))

    return starred


def bracket(kind, inner):
    return {
        "point": lambda w, b, e: b == e and inner(w, b),
        "run": lambda w, b, e: b < e and all(inner(w, i) for i in range(b, e)),
        "every": lambda w, b, e: all(inner(w, i) for i in range(b, e + 1)),
        "unit": lambda w, b, e: e == b + 1 and inner(w, b),
    }[kind]


def least(width, length, test):
    """The shortlex-least behaviour that passes the test, as its lines."""
    for instants in range(1, length + 1):
        for letters in itertools.product(itertools.product((False, True), repeat=width), repeat=instants):
            if test(tuple(zip(*letters)), 0, instants - 1):
                return ["".join("01"[value] for value in letter) or "-" for letter in letters]
    return None


def main():
    file = parse(read_text(sys.argv[1]))
    goal, width = Evaluator(file).goal, len(file.variables)
    length = int(sys.argv[2]) if len(sys.argv) > 2 else 6
    counterexample = least(width, length, lambda w, b, e: not goal(w, b, e))
    example = least(width, length, goal)
    print("not valid" if counterexample else f"valid up to {length}")
    print("satisfiable" if example else f"not satisfiable up to {length}")
    for heading, word in (("counterexample", counterexample), ("example", example)):
        if word:
            print(f"{heading} {len(word)}", *word, sep="\n")


if __name__ == "__main__":
    main()
