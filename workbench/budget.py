"""What helps where a step is over the budget: the two parts whose states it multiplies, and the same requirement with smaller numbers."""
import re
from dataclasses import replace
from typing import Iterator, List, Optional, Tuple

from language import Fault, File, Tree, goal_text, natural, parse, tokens
from words import LISTS
from names import expand, free_names
from program import Program, Refusal

DIVISORS = (2, 5, 10)


def lines(program: Program, text: str, place: int) -> List[str]:
    """The lines for a step of a text, whose part begins at this place."""
    return [f"  {said}" for said in (product(program, text, place), smaller(program, text)) if said]


def product(program: Program, text: str, place: int) -> Optional[str]:
    """How many states the two operands have of the part that is over the budget."""
    try:
        file = parse(text)
    except Fault:
        return None
    for tree, inner in parts_at(file, place):
        operands = [states(program, inner, part) for part in tree.parts]
        for number in range(1, len(operands)):
            left = operands[0] if number == 1 else states(program, inner, replace(tree, parts=tree.parts[:number]))
            together = states(program, inner, replace(tree, parts=tree.parts[:number + 1]))
            right = operands[number]
            if left and right and not together:
                return f"Its operands have {left} and {right} states by themselves, and a product of {left * right}."
    return None


def parts_at(file: File, place: int) -> Iterator[Tuple[Tree, File]]:
    """The parts with several operands that begin at a place, the innermost first; each with the file whose variables its names are."""
    for body, parameters in [(file.goal, ())] + [(macro.body, macro.parameters) for macro in file.macros.values()]:
        inner = replace(file, variables=tuple(dict.fromkeys((*parameters, *file.variables))))
        found = [tree for tree in body.walk() if tree.start == place and (tree.kind in LISTS or tree.kind == "implies") and not tree.is_proposition]
        yield from ((tree, inner) for tree in reversed(found))


def states(program: Program, file: File, tree: Tree) -> Optional[int]:
    """The states of a part alone, or None where it is over the budget, or cannot be asked about."""
    try:
        whole = expand(file, tree)
        return program.automaton(goal_text(sorted(free_names(whole)), whole)).states
    except (Refusal, KeyError):
        return None


def divided(text: str, divisor: int) -> str:
    """The text with all its numbers divided; what was 1 or more stays so."""
    found, done = [], 0
    for token in tokens(text):
        if re.fullmatch("[0-9]+", token.text):
            number = natural(token.text)
            found.append(text[done:token.start] + str(max(min(number, 1), number // divisor)))
            done = token.end
    return "".join(found) + text[done:]


def smaller(program: Program, text: str) -> Optional[str]:
    """What is so of another requirement: this one with smaller numbers."""
    for divisor in DIVISORS:
        try:
            verdict = program.check(divided(text, divisor))
        except (Refusal, Fault):
            continue
        said = "valid" if verdict.valid else "not valid, and " + ("satisfiable" if verdict.satisfiable else "not satisfiable")
        return f"A hint, of another requirement: with all numbers divided by {divisor} this is within the budget, and is {said}."
    return None
