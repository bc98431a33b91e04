"""The answers of `review` as lines: each question, and below it what was found."""
from typing import TYPE_CHECKING, Iterator, List, Mapping, Sequence, Tuple

import limits
from program import Verdict
from questions import Difference
from vacuity import Idle
from waves import in_line, waves

if TYPE_CHECKING:
    from review import Boundary, Example, Miss, Review

MISSING = {"never": "Where it holds it never happens that", "apart": "Not together with the rest", "over": "Too large to ask for besides"}


def verdict_lines(verdict: Verdict) -> List[str]:
    if not verdict.satisfiable:
        return ["No behaviour satisfies it."]
    return ["Every behaviour satisfies it: it asks for nothing, or it is a theorem."] if verdict.valid else []


def missing_lines(example: "Example") -> List[str]:
    """What does not happen in the example, by why."""
    return [f"{MISSING[why]}: {'; '.join(said)}." for why, said in example.without.items() if said]


def example_lines(variables: Sequence[str], example: "Example") -> List[str]:
    if example.word is None:
        return []
    return (waves(variables, example.word) if variables else [in_line(example.word)]) + missing_lines(example)


def worth_saying(boundary: "Boundary", valid: bool) -> Tuple[List[str], List[Tuple[str, Difference, Difference]]]:
    """The neighbours that mean the same, and those that do not. That a theorem's neighbour is one too is worth saying where all of them are."""
    same = [new for new, here, there in boundary.compared if here == there == "same"]
    others = [it for it in boundary.compared if it[0] not in same]
    return [] if valid and others else same, others


def boundary_lines(boundary: "Boundary", valid: bool) -> Iterator[str]:
    same, others = worth_saying(boundary, valid)
    if same:
        yield f"  with {' or '.join(same)}: the same meaning"
    for new, here, there in others:
        if here is None or there is None:
            yield f"  with {new}: over the limits of this question"
            continue
        if here != "same":
            yield f"  with {new}: good now, bad then: {in_line(here)}"
        if there != "same":
            yield f"  with {new}: bad now, good then: {in_line(there)}"


def miss_line(miss: "Miss") -> str:
    if isinstance(miss.pair, str):
        return f"{miss.said}: over the limits of this question"
    return f"{miss.said} at instant {miss.instant}:  good {in_line(miss.pair[0])}   bad {in_line(miss.pair[1])}"


def idle_line(it: Idle) -> str:
    if it.kind == "variable":
        return f"{it.part} decides nothing"
    if it.kind == "constant":
        return f"{it.line}: {it.part} is {it.value}, whatever its variables do"
    line = f"{it.line}: {it.part} may be {it.value} and the meaning is the same" + (f": {it.why}" if it.why else "")
    return line + (f" (it is there for the budget: a step has {it.states} states without it, and {it.most} with it)" if it.states else "")


def names(variables: Sequence[str], meanings: Mapping[str, str]) -> List[str]:
    """The glossary of the variables."""
    found = [f"  {name}: {meanings[name]}" for name in variables if name in meanings]
    return ["", "What do the names mean?", *found] if found else []


def lines(review: "Review", shown: str) -> Iterator[str]:
    """The whole review of a file."""
    requirement, valid = review.requirement, review.requirement.verdict.valid
    compared = [(it.called, list(boundary_lines(it, valid))) for it in review.boundaries]
    sections = (
        ("Does it say anything at all?", verdict_lines(requirement.verdict)),
        ("What does it look like when it holds? A shortest behaviour in which as much as can happens:",
         example_lines(requirement.variables, review.example)),
        ("Is each number and bracket the one that is meant? Shortest behaviours that tell it from its neighbour:",
         [line for called, found in compared if found for line in (called, *found)]),
        ("What does each variable decide? A good and a bad behaviour that differ in one value:",
         [f"(Not asked: with {limits.VARIABLES} variables none can be copied.)"] if review.misses is None else list(map(miss_line, review.misses))),
        ("Does each part matter?", list(map(idle_line, review.idle))),
    )
    names = " ".join(requirement.variables)
    yield f"{shown}: " + (f"an instant is written as the digits of {names}" if names else "no variables")
    for title, found in sections:
        if found:
            yield from ("", title, *("  " + line if line else "" for line in found))
