#!/usr/bin/env python3
"""Writes one automaton as an automaton's text, a node of Lustre and a unit of C, all three laid out as the program does it:

    bench/observer_texts.py STATES VARIABLES FILE     writes FILE.automaton, FILE.lustre and FILE.c

Each state has a whole decision tree over the variables, whose leaves are drawn, so there are STATES * (2 ** VARIABLES - 1) nodes.
"""
import random
import sys


def tables(states, variables):
    """The nodes, each with its variable and two children, the rows of the states, and which states accept."""
    random.seed(1)
    nodes, leaves = [], set()

    def leaf_pair():
        while True:
            pair = random.randrange(states), random.randrange(states)
            if pair[0] != pair[1] and pair not in leaves:
                leaves.add(pair)
                return [("t", state) for state in pair]

    def tree(level):
        pair = leaf_pair() if level == variables - 1 else [tree(level + 1), tree(level + 1)]
        nodes.append((level, *pair))
        return "n", len(nodes) - 1

    rows = [tree(0) for _ in range(states)]
    return nodes, rows, [random.random() < 0.5 for _ in range(states)]


def as_automaton(target):
    return f"{target[0]}{target[1]}"


def as_item(target):
    return f"n{target[1]}" if target[0] == "n" else str(target[1])


def automaton(variables, nodes, rows, accepting):
    yield "automaton 1\nvariables " + " ".join(f"p{place}" for place in range(variables)) + f"\nstates {len(rows)}\n"
    for number, (level, high, low) in enumerate(nodes):
        yield f"node n{number} p{level} ? {as_automaton(high)} : {as_automaton(low)}\n"
    for state, row in enumerate(rows):
        yield f"state {state} {'accept' if accepting[state] else 'reject'} {as_automaton(row)}\n"
    for state in range(len(rows)):
        yield f"access {state} start {'0' * variables}\n"
    yield "suffix 0 empty\nend\n"


def lustre(variables, nodes, rows, accepting):
    inputs = "; ".join(f"v_p{place}: bool" for place in range(variables))
    yield f"node observer({inputs}) returns (ok: bool);\nvar\n  st: int;\n  nx: int;\n"
    yield from (f"  n{number}: int;\n" for number in range(len(nodes)))
    yield "let\n  st = 0 -> pre nx;\n"
    for number, (level, high, low) in enumerate(nodes):
        yield f"  n{number} = if v_p{level} then {as_item(high)} else {as_item(low)};\n"
    yield "  nx = "
    yield from (f"if st = {state} then {as_item(row)} else " for state, row in enumerate(rows[:-1]))
    tests = " or ".join(f"(nx = {state})" for state in range(len(rows)) if accepting[state])
    yield f"{as_item(rows[-1])};\n  ok = {tests};\ntel\n"


def c(variables, nodes, rows, accepting):
    parameters = ", ".join(f"int v_p{place}" for place in range(variables))
    yield "static int st;\n\nvoid observer_reset(void)\n{\n  st = 0;\n}\n\n" + f"int observer_step({parameters})\n{{\n  int nx;\n"
    yield from (f"  int n{number};\n" for number in range(len(nodes)))
    yield "\n  nx = 0;\n"
    for number, (level, high, low) in enumerate(nodes):
        yield f"  n{number} = v_p{level} ? {as_item(high)} : {as_item(low)};\n"
    yield from (f"  if (st == {state}) nx = {as_item(row)};\n" for state, row in enumerate(rows))
    tests = " || ".join(f"nx == {state}" for state in range(len(rows)) if accepting[state])
    yield f"  st = nx;\n  return {tests};\n}}\n"


def main():
    states, variables, name = int(sys.argv[1]), int(sys.argv[2]), sys.argv[3]
    nodes, rows, accepting = tables(states, variables)
    for language in (automaton, lustre, c):
        with open(f"{name}.{language.__name__}", "w") as file:
            file.writelines(language(variables, nodes, rows, accepting))


main()
