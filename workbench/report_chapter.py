"""The chapter of one requirement on the page of `report`: its text, the verdict, behaviours, signals, its automaton and tests."""
from dataclasses import dataclass, field
from typing import Dict, Iterator, List, Optional, Sequence, Tuple

import limits
import suite
from arcs import MOST_STATES, Diagram, automaton_svg
from asked import Finding
from automaton import Automaton
from conditions import automaton_lines
from joined import Requirement
from markup import FEW_ROWS, badge, behaviour, captioned, code, coloured, figure, figures, items, of_bytes, picture, prose, scrolled, table, tag
from pictures import escaped
from questions import Difference, Pair
from review import Boundary, Miss, Review
from review_report import idle_line, missing_lines, worth_saying
from sets_report import spoken_one
from waves import in_line

MOST_TESTS, MOST_SIZE = 12, 200_000  # words of the suite that are shown; instants of a suite that is computed for them
MOST_WIDTH = 900  # of the picture of an automaton, so that its letters can be read in print
STATUS = {
    "fault": ("bad", "fault"), "impossible": ("bad", "impossible"), "always true": ("warn", "always true"), "stuck": ("warn", "gets stuck"),
    "unrealisable": ("bad", "no controller"),
}
TOGETHER = {"impossible": ("bad", "contradiction"), "no first instant": ("bad", "no first instant together"), "stuck": ("bad", "stuck together"),
            "unrealisable": ("bad", "no controller together")}
Status = Tuple[str, str]  # the kind of a mark and its word


@dataclass
class Chapter:
    """A requirement, and all that the page says of it."""

    it: Requirement
    anchor: str
    source: str  # the file as it is, a character for each byte
    meanings: Dict[str, str]
    alone: Optional[Finding]
    together: List[Finding]
    is_late: bool  # whether it is judged at the end
    unasked: List[str]  # the questions about it that were not asked
    review: Optional[Review] = None
    refusal: List[str] = field(default_factory=list)  # the message where there is a fault, or no verdict
    related: List[str] = field(default_factory=list)  # what it implies and what implies it, as HTML

    @property
    def status(self) -> Status:
        kind = self.alone.kind if self.alone else ""
        if kind in ("fault", "impossible"):
            return STATUS[kind]
        if self.together:
            return TOGETHER[self.together[0].kind]
        if kind:
            return STATUS[kind]
        if self.review is None:
            return "none", "not decided"
        return ("none", "not all asked") if self.unasked else ("ok", "well")

    @property
    def link(self) -> str:
        return tag("a", escaped(self.title), href=f"#{self.anchor}")

    @property
    def title(self) -> str:
        return spoken_one(self.it)

    @property
    def automaton(self) -> Optional[Automaton]:
        return self.review.requirement.automaton_read if self.review else None


def chapter(it: Chapter, chapters: Sequence[Chapter], inputs: Sequence[str]) -> str:
    """The whole chapter as HTML."""
    label = f"Link to {it.title}"
    head = tag("header", tag("h2", escaped(it.title)) + badge(*it.status) + tag("a", "#", class_="soft", href=f"#{it.anchor}", aria_label=label))
    parts = [head, tag("p", prose(it.it.sentence) or "It has no sentence: its file does not begin with a comment.", class_="sentence")]
    if it.source:
        parts += [tag("h3", "Text"), coloured(it.source)]
    if it.refusal:
        said = "The file has a fault." if it.it.fault is not None else "The program does not decide it."
        lines = tag("pre", escaped("\n".join(it.refusal)), class_="scroll", tabindex=0, role="group", aria_label="Message")
        parts += [tag("h3", "Verdict"), tag("p", said), lines]
    if it.review:
        parts += [tag("h3", "Verdict"), *verdict(it, it.review, inputs), *signals(it, chapters), *boundaries(it.review), *misses(it.review),
                  *idle(it.review), *automaton(it, it.review.requirement.automaton_read), *tests(it.review.requirement.automaton_read)]
    parts += [tag("h3", "Not asked"), items(list(map(escaped, it.unasked)))] if it.unasked and it.review else []
    return tag("section", "\n".join(parts), id=it.anchor)


# ---- the verdict


def sentences(it: Chapter, review: Review, inputs: Sequence[str]) -> Iterator[str]:
    """The verdict in sentences, as HTML."""
    if not review.requirement.verdict.satisfiable:
        yield "No behaviour satisfies it."
    elif review.requirement.verdict.valid:
        yield "Every behaviour satisfies it: it asks for nothing, or it is a theorem."
    else:
        yield "Some behaviours satisfy it, and some break it."
        yield from stuck(it, inputs)
    yield from it.related


def stuck(it: Chapter, inputs: Sequence[str]) -> Iterator[str]:
    kind = it.alone.kind if it.alone else ""
    if it.alone and kind == "stuck":
        yield f"It gets stuck after {code(in_line(it.alone.word))}: no next instant keeps to it."
    elif it.is_late:
        yield "It is judged at the end: no behaviour of one instant satisfies it."
    elif not it.unasked:
        yield "A behaviour that has kept to it so far can always go on."
    if it.alone and kind == "unrealisable":
        yield f"No controller keeps to it: its inputs can break it within {it.alone.bound} instants."
    elif inputs and not kind and not it.is_late and not it.unasked:
        yield "There is a controller that keeps to it."


def verdict(it: Chapter, review: Review, inputs: Sequence[str]) -> Iterator[str]:
    names, answer = it.it.variables, review.requirement.verdict
    yield tag("p", " ".join(sentences(it, review, inputs)))
    yield tag("p", f"An instant is written as the digits of {code(' '.join(names))}." if names else "It has no variables.", class_="soft")
    found = []
    if answer.counterexample:
        found.append(figure("A shortest behaviour that breaks it", names, answer.counterexample, len(answer.counterexample) - 1))
    if answer.example:
        found.append(figure("A shortest behaviour that keeps to it, in which as much happens as can", names, review.example.word or answer.example))
    if it.alone and it.alone.word:
        found.append(figure("It keeps to it at each instant, and no next instant does", names, it.alone.word, len(it.alone.word) - 1))
    yield figures(found)
    yield from (tag("p", escaped(line)) for line in missing_lines(review.example))


def signals(it: Chapter, chapters: Sequence[Chapter]) -> List[str]:
    """The variables with their meanings, and the other requirements that have them; where nothing is known of them, nothing."""
    rows = [[code(name), prose(it.meanings.get(name, "")), ", ".join(other.link for other in chapters if other is not it and name in other.it.variables)]
            for name in it.it.variables]
    kept = [0] + [place for place in (1, 2) if any(row[place] for row in rows)]
    heads = ("signal", "meaning", "also in")
    if len(kept) == 1:
        return []
    return [tag("h3", "Signals"), table([heads[place] for place in kept], [[row[place] for place in kept] for row in rows], "Signals")]


# ---- the questions of `review`


def boundaries(review: Review) -> List[str]:
    """Each number and bracket beside its neighbours, with the behaviours that distinguish them."""
    found = [part for it in review.boundaries for part in boundary(review, it)]
    return [tag("h3", "Is each number and bracket the one that is meant?"), *found] if found else []


def boundary(review: Review, it: Boundary) -> List[str]:
    same, others = worth_saying(it, review.requirement.verdict.valid)
    line, _, part = it.called.partition(": ")
    shown = [figure_of(review, f"with {code(new)}: {text}", word) for new, here, there in others
             for text, word in (("good now, bad then", here), ("bad now, good then", there)) if word != "same"]
    lines = [tag("p", f"With {' or '.join(map(code, same))} it means the same.")] if same else []
    return [tag("h4", f"{escaped(line)}: {tag('code', of_bytes(part))}"), *lines, figures(shown)] if same or shown else []


def figure_of(review: Review, caption: str, word: Difference) -> str:
    if not isinstance(word, list):
        return tag("p", caption.split(":")[0] + ": over the limits of this question")
    return figure(caption, review.requirement.variables, word, most=FEW_ROWS)


def misses(review: Review) -> List[str]:
    """The near misses: a good and a bad behaviour that differ in one value."""
    heading = tag("h3", "What does each signal decide?")
    if review.misses is None:
        return [heading, tag("p", f"Not asked: with {limits.VARIABLES} variables none can be copied.")]
    if not review.misses:
        return []
    over = [tag("p", escaped(f"{it.said}: over the limits of this question.")) for it in review.misses if isinstance(it.pair, str)]
    return [heading, figures(miss(review.requirement.variables, it, it.pair) for it in review.misses if not isinstance(it.pair, str)), *over]


def miss(variables: Sequence[str], it: Miss, pair: Pair) -> str:
    good, bad = pair
    shown = [badge(kind, said) + behaviour(variables, word, it.instant, FEW_ROWS) for kind, said, word in (("ok", "good", good), ("bad", "bad", bad))]
    return captioned(f"{code(it.variable)} has to be {'true' if it.high else 'false'} at instant {it.instant}", variables, "\n".join(shown))


def idle(review: Review) -> List[str]:
    lines = [of_bytes(idle_line(it)) for it in review.idle]
    return [tag("h3", "What does not matter"), items(lines)] if lines else []


# ---- the automaton and the tests


def counted(states: int) -> str:
    return f"{states} state{'s' * (states != 1)}"


def automaton(it: Chapter, found: Automaton) -> List[str]:
    """A small automaton as a picture, or a table where that would be too wide; of a large one the number of its states."""
    heading, states = tag("h3", "Automaton"), counted(found.states)
    if found.states > MOST_STATES:
        return [heading, tag("p", f"It has {states}: too many for this page. {code('./ask draw FILE --automaton')} prints them.")]
    if Diagram(found).size[0] > MOST_WIDTH:
        return [heading, tag("pre", escaped("\n".join(automaton_lines(found))), class_="scroll", tabindex=0, role="group", aria_label="Automaton")]
    label = f"Automaton of {states}. " + "; ".join(" ".join(line.split()) for line in automaton_lines(found))
    drawn = picture(automaton_svg(found, states, f"{it.anchor}-arrow", is_styled=False), label)
    legend = "Green: it holds so far. Gray: it does not hold yet. Red: it is broken for ever; where that is another state, it is in the box."
    return [heading, scrolled(drawn, "Automaton"), tag("p", legend, class_="soft")]


def tests(found: Automaton) -> List[str]:
    """The shortest words of the suite."""
    heading = tag("h3", "Tests")
    if suite.size_of(found, suite.suffixes_of(found)) > MOST_SIZE:
        return [heading, tag("p", f"The suite is too large for this page. {code('./ask tests FILE')} writes it.")]
    words = suite.words_of(found)
    if not words:
        return []
    lines = [tag("li", badge(*(("ok", "good") if found.accepts(word) else ("bad", "bad"))) + " " + code(in_line(word))) for word in words[:MOST_TESTS]]
    rest = f"The {MOST_TESTS} shortest of {len(words)} words; {code('./ask tests FILE')} writes all. " if len(words) > MOST_TESTS else ""
    return [heading, tag("p", f"{rest}An implementation with up to {counted(found.states)} that answers all words of the suite as here is right."),
            tag("ul", "".join(lines), class_="tests")]
