"""Names of formula files: those that a tree leaves free, whether each is declared before it is used, and macros put in place.
"""
from dataclasses import replace
from functools import lru_cache
from itertools import chain, count
from typing import Callable, Dict, FrozenSet, List, Optional, Sequence, Tuple

import limits
from language import Fault, File, Tree, parse


@lru_cache(maxsize=None)
def free_names(tree: Tree) -> FrozenSet[str]:
    """The names of a tree that it does not quantify."""
    none: FrozenSet[str] = frozenset()
    found = none.union(*map(free_names, tree.parts))
    return found | {tree.value} if tree.kind == "name" else found - {tree.value} if tree.kind in ("ex", "all") else found


def check_names(text: str) -> File:
    """The file of a text, in which each name is declared before it is used, is new in its scope, and is used as what it is."""
    def fresh(names: Sequence[str], most: int, others: Sequence[str], place: int = 0) -> None:
        if len({*names}) < len(names) or len(names) > most or {*names} & {*others} or any(len(it) > limits.NAME for it in names):
            raise Fault(place, "a name that is taken, stands twice or is too long, or too many names")

    def look(tree: Tree, known: Dict[str, Tuple[str, int]]) -> None:
        if tree.kind in ("name", "call") and known.get(tree.value) != (tree.kind, len(tree.parts)):
            raise Fault(tree.start, f"{tree.value} used for what it is not")
        if tree.kind in ("ex", "all"):
            fresh([tree.value], 1, macros, tree.start)
            known = {**known, tree.value: ("name", 0)}
        for part in tree.parts:
            look(part, known)

    file = parse(text)
    macros: List[str] = []
    known: Dict[str, Tuple[str, int]] = dict.fromkeys(file.variables, ("name", 0))
    fresh(file.variables, limits.VARIABLES, [])
    for macro in file.listed:
        macros.append(macro.name)
        fresh(macros, limits.MACROS, file.variables, macro.start)
        fresh(macro.parameters, limits.PARAMETERS, macros, macro.start)
        look(macro.body, {**known, **dict.fromkeys(macro.parameters, ("name", 0))})
        known[macro.name] = "call" if macro.kind == "define" else "name", len(macro.parameters)
    look(file.goal, known)
    return file


def expand(file: File, goal: Optional[Tree] = None, bound: Optional[Callable[[int], str]] = None) -> Tree:
    """A file's goal (or another formula over its macros) with each macro's body in the place of its call.

    Quantified names are made different from the variables and from each other, so no argument is captured; or `bound` names
    them by the number of quantifiers around them. The places of trees stay where they were written.
    """
    taken = {*file.variables, *file.macros}

    def fresh(name: str) -> str:
        names = chain([name], (f"{name[:18]}_{number}" for number in count(2)))
        taken.add(new := next(new for new in names if new not in taken))
        return new

    def expanded(tree: Tree, scope: Dict[str, Tree], depth: int) -> Tree:
        value = tree.value
        if tree.kind in ("name", "call"):
            if value in scope:
                return scope[value]
            arguments = zip(file.macros[value].parameters, [expanded(part, scope, depth) for part in tree.parts])
            return expanded(file.macros[value].body, {**declared, **dict(arguments)}, depth)
        if tree.kind in ("ex", "all"):
            value = bound(depth) if bound else fresh(value)
            scope, depth = {**scope, tree.value: Tree("name", (), value)}, depth + 1
        return replace(tree, parts=tuple(expanded(part, scope, depth) for part in tree.parts), value=value)

    declared = {name: Tree("name", (), name) for name in file.variables}
    return expanded(file.goal if goal is None else goal, declared, 0)
