"""`review`: what a colleague would ask of a requirement, each question with its answer and a behaviour that shows it."""
import argparse
import itertools
from concurrent.futures import ThreadPoolExecutor
from dataclasses import replace
from typing import Dict, FrozenSet, Iterator, List, NamedTuple, Optional, Sequence, Set, Tuple, Union

import limits
import review_report
from answers import Word
from expand import Text
from glossary import glossary
from language import Tree, to_text
from names import expand
from program import Program
from questions import THREADS, Difference, Pair, Requirement, differing
from shapes import MOST
from vacuity import Idle, idle
from words import MEASURES

MOST_WISHES = 14  # with more of them the limits of an example are lower


# ---- a telling example


def names_in(tree: Tree) -> Set[str]:
    return {part.value for part in tree.walk() if part.kind == "name"}


def happenings(goal: Tree) -> Dict[str, str]:
    """The left sides of => and the propositions of <P>, {{P}} and P => Q that have no quantified name: what may happen, or not."""
    lefts: Dict[str, str] = {}
    events: Dict[str, str] = {}

    def walk(tree: Tree, bound: FrozenSet[str]) -> None:
        if tree.kind in ("ex", "all"):
            bound = bound | {tree.value}
        first = tree.parts[0] if tree.parts else tree
        if tree.kind == "implies" and not names_in(first) & bound:
            lefts[f"<>({to_text(first)})"] = to_text(first)
        if tree.kind in ("point", "unit", "p_implies") and not names_in(first) & bound:
            events[f"<><{to_text(first)}>"] = to_text(first)
        for part in tree.parts:
            walk(part, bound)

    walk(goal, frozenset())
    return {**lefts, **events}


def wishes_of(requirement: Requirement) -> Dict[str, str]:
    """What may happen, as a formula and in words: the wishes that hold in fewest behaviours come first."""
    names = requirement.variables
    wishes: Dict[str, str] = {}
    if 2 <= len(names) <= 4:
        for name in names:
            others = "".join(f" && !{other}" for other in names if other != name)
            wishes[f"<><{name}{others}>"] = f"{name} alone is true"
    wishes.update((f"<><{name}>", f"{name} is true") for name in names)
    for wish, event in happenings(expand(requirement.file)).items():
        wishes.setdefault(wish, f"{event} happens")
    wishes.update((f"<><!{name}>", f"{name} is false") for name in names)
    return wishes


class Example(NamedTuple):
    """A behaviour in which much happens, where there is one, and what does not happen in it, by why."""

    word: Optional[Word]
    without: Dict[str, List[str]]


def telling(requirement: Requirement) -> Example:
    """A shortest behaviour in which as much happens as can together."""
    wishes = wishes_of(requirement)
    whole = requirement.check(requirement.and_also(list(wishes)), wide=len(wishes) <= MOST_WISHES)
    if whole and whole.satisfiable:
        return Example(whole.example, {})
    alone = requirement.side_by_side(lambda wish: requirement.check(requirement.and_also([wish])), [(wish,) for wish in wishes])
    got: List[str] = []
    best: Optional[Word] = None
    without: Dict[str, List[str]] = {"never": [], "apart": [], "over": []}
    for (wish, said), answer in zip(wishes.items(), alone):
        possible = answer and answer.satisfiable
        if possible and got:
            answer = None if len(without["over"]) > 1 else requirement.check(requirement.and_also(got + [wish]), wide=len(wishes) <= MOST_WISHES)
        if answer is None:
            without["over"].append(said)
        elif answer.satisfiable:
            got.append(wish)
            best = answer.example
        else:
            without["apart" if possible else "never"].append(said)
    return Example(best, without)


# ---- boundaries


class Neighbour(NamedTuple):
    """A part and what stands in its place: the places of the part, how it is called, what stands there, and the whole text with it."""

    place: Tuple[int, int]
    called: str
    new: str
    text: str


def neighbours(requirement: Requirement) -> Iterator[Neighbour]:
    """Each number one lower and one higher, and each [P] as [[P]] and back. Of a source also the numbers that the macros of other files get."""
    for occurrence in requirement.occurrences():
        tree = occurrence.tree
        start, end = occurrence.place
        called = f"{requirement.line(tree)}: {requirement.part(tree)}"
        if not requirement.is_own(tree):
            continue
        if tree.kind in MEASURES:
            digits = len(requirement.text[start:end]) - len(requirement.text[start:end].rstrip("0123456789"))
            for number in (tree.value[1] - 1, tree.value[1] + 1):
                if 0 <= number <= MOST:
                    yield Neighbour((start, end), called, str(number), requirement.put(end - digits, end, str(number)))
        elif tree.kind == "run":
            yield Neighbour((start, end), called, "[[..]]", requirement.put(start, end, f"[{requirement.text[start:end]}]"))
        elif tree.kind == "every":
            yield Neighbour((start, end), called, "[..]", requirement.put(start, end, requirement.text[start + 1:end - 1]))
    yield from (Neighbour(*it) for it in requirement.whole.other_numbers())


class Boundary(NamedTuple):
    """A part, and its neighbours: of each what stands in its place, a behaviour that the part alone takes, and one that the neighbour alone takes."""

    called: str
    compared: List[Tuple[str, Difference, Difference]]


def boundaries(requirement: Requirement) -> List[Boundary]:
    """Each part that has neighbours, compared with them."""
    cases = list(neighbours(requirement))
    pairs = [pair for it in cases for pair in ((requirement.text, it.text), (it.text, requirement.text))]
    answers = iter(requirement.side_by_side(requirement.difference, pairs))
    found = [(it, (it.new, next(answers), next(answers))) for it in cases]
    grouped = (list(those) for _, those in itertools.groupby(found, lambda case: case[0].place))
    return [Boundary(those[0][0].called, [compared for _, compared in those]) for those in grouped]


# ---- near misses


def twin_of(goal: Tree, variable: str, twin: str) -> Tree:
    """The goal without macros, another variable in the place of one."""
    if goal.kind == "name" and goal.value == variable:
        return Tree("name", (), twin)
    return replace(goal, parts=tuple(twin_of(part, variable, twin) for part in goal.parts))


def free_name(goal: Tree, variables: Sequence[str]) -> str:
    """A name for a copy of a variable, which is none of the goal's."""
    taken = names_in(goal) | set(variables) | {part.value for part in goal.walk() if part.kind in ("ex", "all")}
    return next(name for name in (f"twin{number or ''}" for number in range(len(taken) + 1)) if name not in taken)


def near_miss(requirement: Requirement, goal: Tree, variable: str, high: bool) -> Union[Pair, str, None]:
    """A shortest good behaviour that is bad with the other value of the variable at one instant, at which it has this value, and
    that bad one; None where there is none, and `over` where that is not known."""
    twin = free_name(goal, requirement.variables)
    one, other = (variable, twin) if high else (twin, variable)
    once = f"scount ({one} && !{other}) = 1 && [[{other} => {one}]]"
    names, place = ", ".join((*requirement.variables, twin)), requirement.variables.index(variable)
    verdict = requirement.check(f"var {names};\ninfer {once} && ({to_text(goal)}) && !({to_text(twin_of(goal, variable, twin))});\n", wide=True)
    if verdict is None:
        return confirmed(requirement, differing(requirement.automaton_read, place, high))
    word = verdict.example
    return None if word is None else ([letter[:-1] for letter in word], [letter[:place] + letter[-1] + letter[place + 1:-1] for letter in word])


def confirmed(requirement: Requirement, found: Union[Pair, str, None]) -> Union[Pair, str, None]:
    """A pair that was found in the automaton's text, once the program's observer has said of both what they are."""
    if found is None or isinstance(found, str):
        return found
    answers = [requirement.program.replay(requirement.observer, word)[-1] for word in found]
    return found if answers == [True, False] else "over"


class Miss(NamedTuple):
    """A value that a variable has to have: a good behaviour and the bad one with the other value at one instant, or `over`."""

    variable: str
    high: bool
    pair: Union[Pair, str]

    @property
    def instant(self) -> int:
        return next(instant for instant, letters in enumerate(zip(*self.pair)) if letters[0] != letters[1])

    @property
    def said(self) -> str:
        return f"{self.variable} has to be {'true' if self.high else 'false'}"


def near_misses(requirement: Requirement) -> Optional[List[Miss]]:
    """What each variable decides; None where there is no room for a copy of a variable."""
    if len(requirement.variables) == limits.VARIABLES:
        return None
    goal = expand(requirement.file)
    cases = [(variable, high) for variable in requirement.variables for high in (True, False)]
    answers = requirement.side_by_side(lambda variable, high: near_miss(requirement, goal, variable, high), cases)
    return [Miss(*case, pair) for case, pair in zip(cases, answers) if pair is not None]


# ---- the review


class Review(NamedTuple):
    """All answers about a requirement."""

    requirement: Requirement
    example: Example
    boundaries: List[Boundary]
    misses: Optional[List[Miss]]
    idle: List[Idle]


def reviewed(requirement: Requirement, pool: ThreadPoolExecutor) -> Review:
    """The answers, asked side by side; the pool is another one than that of the requirement, whose answers are waited for."""
    example, found = pool.submit(telling, requirement), pool.submit(boundaries, requirement)
    misses, parts = pool.submit(near_misses, requirement), pool.submit(idle, requirement)
    return Review(requirement, example.result(), found.result(), misses.result(), parts.result())


def add_arguments(parser: argparse.ArgumentParser) -> None:
    parser.add_argument("file", metavar="FILE")
    parser.add_argument("--signals", metavar="LIST", help="a file of signals, whose comments say what the variables mean")


def run(options: argparse.Namespace, program: Program) -> int:
    whole = Text(options.file, options.shown)
    found = glossary(whole.source.text, options.signals)
    with program.side_by_side(THREADS) as questions, program.side_by_side(THREADS) as outer:
        answers = reviewed(Requirement(program, whole, questions), outer)
    print("\n".join([*review_report.lines(answers, options.shown), *review_report.names(answers.requirement.variables, found)]))
    return 0
