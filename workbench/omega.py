"""The minimal automaton in HOA, as one of infinite words: a behaviour is the letters while the proposition `alive` is true."""
from typing import Dict, List

from automaton import Automaton, Choice
from conditions import paths
from graphviz import quoted
from tables import nodes_of

ALIVE = "alive"
MOST_EDGES = 1_000_000


def hoa(automaton: Automaton, title: str) -> str:
    """A deterministic Büchi automaton. Two states are added: the end, to which a behaviour that satisfies the requirement goes when `alive` is
    false, and a start that no end follows, since no behaviour is empty."""
    end, first, own = automaton.states, automaton.states + 1, len(automaton.variables)
    names = [*automaton.variables, alive(automaton)]
    lines = ["HOA: v1", f"name: {quoted(title)}", 'tool: "dcvalid"', f"States: {automaton.states + 2}", f"Start: {first}",
             f"AP: {len(names)} {' '.join(map(quoted, names))}", "acc-name: Buchi", "Acceptance: 1 Inf(0)",
             "properties: trans-labels explicit-labels state-acc deterministic", "--BODY--"]
    for state in range(automaton.states):
        lines += [f"State: {state}", *edges(automaton, state)] + [f"[!{own}] {end}"] * automaton.accept[state]
    lines += [f"State: {end} {{0}}", f"[!{own}] {end}", f"State: {first}", *edges(automaton, 0)]
    return "\n".join(lines + ["--END--", ""])


def count(automaton: Automaton) -> int:
    """The number of edges: HOA has no diagrams, so each path of a state's diagram is one."""
    below: Dict[int, int] = {}
    for node in nodes_of(automaton):
        below[id(node)] = sum(below[id(end)] if isinstance(end, Choice) else 1 for end in (node.high, node.low))
    return sum(below[id(row)] if isinstance(row, Choice) else 1 for row in automaton.rows)


def alive(automaton: Automaton) -> str:
    """The name of the added proposition: no variable has it."""
    name = ALIVE
    while name in automaton.variables:
        name += "_"
    return name


def edges(automaton: Automaton, state: int) -> List[str]:
    """The lines for the letters from a state, while the behaviour lasts."""
    own = len(automaton.variables)
    return [f"[{'&'.join([*(('' if value else '!') + str(place) for place, value in cube), str(own)])}] {target}" for target, cube in paths(automaton.rows[state])]
