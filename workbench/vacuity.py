"""The last question of `review`: parts of a requirement that do not matter, variables that decide nothing, values that never happen."""
from typing import Dict, FrozenSet, Iterator, List, NamedTuple, Optional, Tuple

import limits
from language import File, Tree, goal_text, to_text
from names import expand
from questions import Occurrence, Requirement
from words import COUNTS

CONSTANTS = ("true", "false", "p_true", "p_false")


class Idle(NamedTuple):
    """A part that does not matter, in its line: a variable that decides nothing, a part in whose place a constant leaves the meaning
    as it is (`value`, with a reason), or one that is constant by itself (`always true` or `never true`)."""

    kind: str  # variable, needless or constant
    part: str
    line: str = ""
    value: str = ""
    why: str = ""
    states: int = 0  # of a needless part the most states of a step without it, where these are more than with it
    most: int = 0  # the most states of a step with it


# What it says that a part may be a constant, by what stands around it, the part's place there, and the constant.
ROLES = {
    ("implies", 0, "false"): "the => never asks for anything",
    ("implies", 0, "true"): "its => asks the right side in any case",
    ("implies", 1, "true"): "the => never asks for anything",
    ("implies", 1, "false"): "the left side of the => never happens",
}


def role(occurrence: Occurrence, constant: str) -> str:
    kind = occurrence.parent.kind.replace("p_", "") if occurrence.parent else ""
    if (kind, constant) == ("and", "true"):
        return "the others of the && imply it"
    if (kind, constant) == ("or", "false"):
        return "the others of the || make it needless"
    return ROLES.get((kind, occurrence.index, constant), "")


BOTH = frozenset((1, -1))


def signs_below(tree: Tree, signs: FrozenSet[int]) -> List[FrozenSet[int]]:
    """For each part of a tree whether more behaviours of it make more of the whole (1), fewer (-1), or either."""
    turned = frozenset(-sign for sign in signs)
    kind = tree.kind.replace("p_", "")
    if kind == "not":
        return [turned]
    if kind == "implies":
        return [turned, signs]
    if kind in ("iff", "call", "name"):
        return [BOTH] * len(tree.parts)
    if kind in COUNTS:
        return [BOTH if tree.value[0] == "=" else turned if tree.value[0] in ("<", "<=") else signs]
    return [signs] * len(tree.parts)


def signs_of(file: File) -> Dict[int, FrozenSet[int]]:
    """The signs of all parts of the goal and of the macros that it reaches, by the identity of their trees."""
    found: Dict[int, FrozenSet[int]] = {}
    calls: Dict[str, FrozenSet[int]] = {}

    def walk(tree: Tree, signs: FrozenSet[int]) -> None:
        found[id(tree)] = signs
        if tree.kind in ("name", "call"):
            calls[tree.value] = calls.get(tree.value, frozenset()) | signs
        for part, those in zip(tree.parts, signs_below(tree, signs)):
            walk(part, those)

    walk(file.goal, frozenset((1,)))
    for macro in reversed(list(file.macros.values())):
        walk(macro.body, calls.get(macro.name, frozenset()))
    return found


def candidates(requirement: Requirement) -> Iterator[Tuple[Occurrence, str]]:
    """Each part that a constant could stand for, with the constants. A theorem stays one where it is made weaker, so of it the
    constants are left out that do so, or that may."""
    goal, signs = requirement.file.goal, signs_of(requirement.file)
    for occurrence in requirement.occurrences():
        if occurrence.tree is not goal and occurrence.tree.kind not in CONSTANTS and requirement.is_own(occurrence.tree):
            for constant, stronger in (("true", -1), ("false", 1)):
                if not requirement.verdict.valid or signs[id(occurrence.tree)] == {stronger}:
                    yield occurrence, constant


def needless(requirement: Requirement) -> Iterator[Tuple[Occurrence, str, int]]:
    """Parts in whose place a constant leaves the meaning as it is, none of them inside another one; with the states that are then needed."""
    cases = list(candidates(requirement))
    answers = requirement.side_by_side(lambda occurrence, constant: requirement.automaton(requirement.put(occurrence.tree.start, occurrence.tree.end, constant)), cases)
    told: List[Tuple[int, int]] = []
    for (occurrence, constant), answer in zip(cases, answers):
        start, end = occurrence.place
        if answer is None or answer[0] != requirement.meaning or any(first <= start and end <= last for first, last in told):
            continue
        told.append((start, end))
        yield occurrence, constant, answer[1]


def needless_parts(requirement: Requirement) -> Iterator[Idle]:
    most = max(requirement.steps, default=0)
    for occurrence, constant, states in needless(requirement):
        part, line = requirement.part(occurrence.tree), requirement.line(occurrence.tree)
        yield Idle("needless", part, line, constant, role(occurrence, constant), states if states > most else 0, most)


# ---- parts that are constant by themselves


def by_itself(requirement: Requirement, tree: Tree) -> Optional[str]:
    """`always true` or `never true` where the part is, whatever its variables do; else nothing."""
    names = sorted({part.value for part in tree.walk() if part.kind == "name"})
    if tree.kind in CONSTANTS + ("name", "pt", "ext") or len(names) > limits.VARIABLES:
        return None
    text = to_text(tree)
    holds, fails = (f"<><{text}>", f"!<><!({text})>") if tree.is_proposition else (text, text)
    can, must = (requirement.check(goal_text(names, goal)) for goal in (holds, fails))
    if can is None or must is None:
        return None
    return "never true" if not can.satisfiable else "always true" if must.valid else None


def constant_parts(requirement: Requirement) -> Iterator[Idle]:
    """The innermost parts of the goal, macros in place, that are constant; of a theorem those that are never true."""
    goal = expand(requirement.file)
    parts = {to_text(tree): tree for tree in reversed(list(goal.walk())) if tree is not goal}
    found = dict(zip(parts, requirement.side_by_side(lambda tree: by_itself(requirement, tree), [(tree,) for tree in parts.values()])))
    told = ("never true",) if requirement.verdict.valid else ("never true", "always true")
    for text, tree in reversed(list(parts.items())):
        inside = [part for part in list(tree.walk())[1:] if requirement.is_own(part)]
        if found[text] in told and requirement.is_own(tree) and not any(found.get(to_text(part)) for part in inside):
            yield Idle("constant", text if len(text) <= 60 else text[:57] + " ..", requirement.line(tree), str(found[text]))


def idle(requirement: Requirement) -> List[Idle]:
    """All that does not matter."""
    verdict = requirement.verdict
    if not verdict.satisfiable:
        return list(constant_parts(requirement))
    found = list(constant_parts(requirement)) if verdict.valid else []
    if not verdict.valid:
        found += [Idle("variable", name) for name in requirement.variables if f" {name} ? " not in requirement.meaning]
    return found + list(needless_parts(requirement))
