"""The minimal automaton as a graph in DOT, the language of Graphviz."""
from typing import List

from automaton import Automaton
from conditions import conditions, standing

MOST_STATES = 100  # `dot` of Graphviz laid out neither 246 nor 1,000 states in a minute
MOST_NEAT = 30  # a larger graph is laid out with less effort: at 61 states in 0.6 s, which are 26 s with all of it
MOST_CONDITIONS = 4  # on an edge
# Each is told by its line as well as by its colour.
LOOKS = {"holds for ever": 'style="filled,bold", fillcolor="#e3f1e4"', "broken for ever": 'style="filled,dashed", fillcolor="#f3d9d6"'}


def quoted(text: str) -> str:
    return '"' + text.replace("\\", "\\\\").replace('"', '\\"') + '"'


def dot(automaton: Automaton, title: str) -> str:
    """A doubled circle is a state in which the behaviour so far satisfies the requirement; a bold one is never left, and a dashed one neither."""
    lines = [f"digraph {quoted(title)} {{", f'  label={quoted(title)}; labelloc=t; rankdir=LR; fontname="sans-serif";',
             '  node [shape=circle, style=filled, fillcolor=white, fontname="sans-serif"]; edge [fontname="monospace", fontsize=10];',
             '  start [shape=point, label=""];', "  start -> 0;"]
    lines += ["  nslimit=1; nslimit1=1; mclimit=0.1; splines=line;"] * (automaton.states > MOST_NEAT)
    for state in range(automaton.states):
        lines += state_lines(automaton, state)
    return "\n".join(lines + ["}", ""])


def state_lines(automaton: Automaton, state: int) -> List[str]:
    """A state with the edges that leave it."""
    stand = standing(automaton, state)
    looks = [f"shape={'doublecircle' if automaton.accept[state] else 'circle'}", *filter(None, [LOOKS.get(stand)]), f"tooltip={quoted(stand)}"]
    lines = [f"  {state} [{', '.join(looks)}];"]
    for target, found in conditions(automaton, state).items():
        few = found if len(found) <= MOST_CONDITIONS else found[:MOST_CONDITIONS - 1] + [f"{len(found) - MOST_CONDITIONS + 1} more"]
        label = "\\nor ".join(few)
        lines.append(f'  {state} -> {target} [label="{label}"];')
    return lines
