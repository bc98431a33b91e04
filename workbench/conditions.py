"""What the letters on the edges of an automaton have in common, as short propositions; and an automaton as a table of these."""
from itertools import islice
from typing import Dict, Iterator, List, Tuple

from automaton import Automaton, Choice, Diagram
from waves import in_line

Cube = Dict[int, bool]  # the values of some variables
Path = Tuple[Tuple[int, bool], ...]  # the same, in the order of a diagram

MOST_PATHS = 400  # of a diagram with more paths than these, only where they lead is said


def conditions(automaton: Automaton, state: int) -> Dict[int, List[str]]:
    """For each state that one letter leads to from this one, propositions of which one holds of each such letter."""
    found = list(islice(paths(automaton.rows[state]), MOST_PATHS + 1))
    if len(found) > MOST_PATHS:
        return {target: ["some letters"] for target in sorted(automaton.targets(state))}
    cubes: Dict[int, List[Cube]] = {}
    for target, path in found:
        cubes.setdefault(target, []).append(dict(path))
    return {target: [_spoken(automaton.variables, cube) for cube in merged(those)] for target, those in sorted(cubes.items())}


def paths(row: Diagram) -> Iterator[Tuple[int, Path]]:
    """The paths of a state's diagram, each with the state that it leads to."""
    todo: List[Tuple[Diagram, Path]] = [(row, ())]
    while todo:
        diagram, path = todo.pop()
        if isinstance(diagram, Choice):
            todo += [(diagram.low, path + ((diagram.variable, False),)), (diagram.high, path + ((diagram.variable, True),))]
        else:
            yield diagram, path


def merged(cubes: List[Cube]) -> List[Cube]:
    """The same letters with fewer words: a literal is left out where its cube with it turned round lies in another cube."""
    def lies_in(cube: Cube, other: Cube) -> bool:
        return all(cube.get(name) == value for name, value in other.items())

    again = True
    while again:
        again = False
        for cube in cubes:
            for name in cube:
                turned = {**cube, name: not cube[name]}
                if any(lies_in(turned, other) for other in cubes):
                    shorter = {it: value for it, value in cube.items() if it != name}
                    cubes = [it for it in cubes if it is not cube and not lies_in(it, shorter)] + [shorter]
                    again = True
                    break
            if again:
                break
    return cubes


def _spoken(variables: List[str], cube: Cube) -> str:
    return " && ".join(("" if value else "!") + variables[place] for place, value in sorted(cube.items())) or "any"


def is_final(automaton: Automaton, state: int) -> bool:
    """Whether no letter leads out of a state."""
    return set(automaton.targets(state)) == {state}


def standing(automaton: Automaton, state: int) -> str:
    """What is so of the behaviours that lead to a state."""
    if is_final(automaton, state):
        return "holds for ever" if automaton.accept[state] else "broken for ever"
    return "holds so far" if automaton.accept[state] else "does not hold yet"


def automaton_lines(automaton: Automaton) -> List[str]:
    """An automaton as text: each state with a shortest word that leads to it, and where its letters lead."""
    lines = []
    for state in range(automaton.states):
        word = automaton.access_word(state) if automaton.access else []
        reached = "the start" if state == 0 else f"reached by {in_line(word)}"
        lines.append(f"state {state}, {standing(automaton, state)}; {reached}")
        if is_final(automaton, state):
            continue
        for target, found in conditions(automaton, state).items():
            lost = ", broken for ever," if standing(automaton, target) == "broken for ever" else ""
            where = "stays" if target == state else f"to {target}{lost}"
            few = found if len(found) <= 6 else found[:5] + [f"{len(found) - 5} more"]
            lines.append(f"    {where:<7} where {few[0]}")
            lines += [" " * (len(f"{where:<7}") + 7) + f"or {condition}" for condition in few[1:]]
    return lines
