"""What `set` asks of requirements: of each alone, and of several together."""
import re
from dataclasses import dataclass
from typing import Callable, Dict, FrozenSet, List, Optional, Sequence, Set, Tuple, TypeVar

import limits
from answers import Word
from automaton import Automaton
from joined import Requirement, joined, names_of
from kept import Open
from program import Program, Refusal

Got = TypeVar("Got")
Members = Tuple[Requirement, ...]
LEAST_TUPLES = 10_000  # that a search over a group may reach, however many members it has


@dataclass(frozen=True)
class Finding:
    """What is not well with some requirements together: `kind`, and the behaviour that shows it, or None."""

    kind: str  # fault, impossible, always true, no first instant, stuck, unrealisable
    members: Members = ()
    word: Tuple[str, ...] = ()
    bound: int = 0


class Unanswered(Exception):
    """A question that the program refuses: over the budget, or another limit."""


class Questions:
    """What is asked of some requirements together."""

    def __init__(self, program: Program, inputs: Sequence[str], tuples: int = limits.DEFAULT_TUPLES) -> None:
        self.program, self.inputs, self.tuples = program, inputs, tuples
        self.late: Set[Requirement] = set()  # requirements that no behaviour of one instant satisfies: they are judged at the end
        self.stuck: Set[Requirement] = set()  # those that get stuck alone
        self.unrealisable: List[FrozenSet[Requirement]] = []  # those that no controller keeps to
        self.broken: Dict[Requirement, Word] = {}  # of each a shortest behaviour that breaks it
        self.automata: Dict[Requirement, Automaton] = {}
        self.unasked: List[Tuple[Members, str, str]] = []

    def asked(self, question: Callable[[], Got]) -> Got:
        """The answer; where the program refuses the question for a limit, or it is asked elsewhere, Unanswered."""
        try:
            return question()
        except Open:
            raise Unanswered("it is planned") from None
        except Refusal as refusal:
            if not refusal.over_limits:
                raise
            raise Unanswered(why(refusal)) from None

    def of(self, requirements: Sequence[Requirement]) -> Optional[Finding]:
        """The first thing that is not well with all of these together, or None. Of several it is not asked what one of them has alone."""
        members = tuple(requirements)
        if len(members) == 1:
            return self.alone(members[0])
        found = self.asked(lambda: self.program.together([it.text for it in members], ("--tuples", str(self.limit(len(members))))))
        if found.example is None:
            return Finding("impossible", members)
        if (self.late | self.stuck) & set(members):
            return None
        if found.stuck is None:
            return self.controller(members)
        return Finding("stuck", members, tuple(found.stuck)) if found.stuck else Finding("no first instant", members)

    def alone(self, it: Requirement) -> Optional[Finding]:
        verdict = self.asked(lambda: self.program.check(it.text))
        if not verdict.satisfiable:
            return Finding("impossible", (it,))
        if verdict.counterexample is None:
            return Finding("always true", (it,))
        self.broken[it] = verdict.counterexample
        self.automata[it] = self.asked(lambda: self.program.automaton(it.text))
        word = self.asked(lambda: self.program.stuck(it.text))
        if word is None:
            return self.controller((it,))
        if not word:  # no behaviour of one instant keeps to it
            self.late.add(it)
            return None
        self.stuck.add(it)
        return Finding("stuck", (it,), tuple(word))

    def controller(self, members: Members) -> Optional[Finding]:
        """Whether no controller keeps to them; what is so of some of them is not asked of all."""
        if not self.inputs or any(those <= set(members) for those in self.unrealisable):
            return None
        names = names_of(members, self.inputs)
        inputs, text = [name for name in names if name in self.inputs], joined(members, first=self.inputs)
        try:
            if len(names) > limits.VARIABLES:
                raise Unanswered(f"more than {limits.VARIABLES} names")
            answer = self.asked(lambda: self.program.ask("synth", text, options=("--inputs", str(len(inputs)))))
        except Unanswered as unanswered:
            self.unasked.append((members, "a controller", str(unanswered)))
            return None
        if answer.status == 0:
            return None
        self.unrealisable.append(frozenset(members))
        return Finding("unrealisable", members, bound=int(answer.output.split("\n")[1].split()[1]))

    def follows(self, left: Sequence[Requirement], right: Requirement) -> bool:
        """Whether all of the left together imply the right one."""
        if self.refuted(left, right):
            return False
        return self.asked(lambda: self.program.follows(right.text, [it.text for it in left], ("--tuples", str(self.limit(1 + len(left)))))) is None

    def limit(self, members: int) -> int:
        """How many combinations of states a search may reach: with each member more than two a fifth, since an instant has then so many
        more ways to go on."""
        return max(self.tuples // int(5 ** (members - 2)), min(self.tuples, LEAST_TUPLES))

    def refuted(self, left: Sequence[Requirement], right: Requirement) -> bool:
        """Whether a behaviour that breaks the right one, with the other names always false or always true, keeps to all of the left:
        as the automata that the program printed say. So most implications need no question of their own."""
        word = self.broken.get(right)
        if word is None or any(it not in self.automata for it in left):
            return False
        places = {name: place for place, name in enumerate(right.variables)}
        return any(all(self.automata[it].accepts([letter_of(it.variables, places, letter, other) for letter in word]) for it in left)
                   for other in "01")


def why(refusal: Refusal) -> str:
    """Why the program refuses a question for a limit."""
    tuples = re.match(r"budget tuples (\d+)", refusal.message)
    if tuples:
        return f"more than {tuples.group(1)} combinations of their states"
    if refusal.over_budget:
        return "over the budget"
    return "more than 8 outputs" if refusal.message == "fault outputs" else f"over a limit of the language ({refusal.message})"


def letter_of(variables: Sequence[str], places: Dict[str, int], letter: str, other: str) -> str:
    """The letter of some variables, at these places in another letter; what is not there has the value `other`."""
    return "".join([letter[places[name]] if name in places else other for name in variables]) or "-"
