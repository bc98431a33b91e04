"""Requirements that are watched over the rows of one log: each walks the automaton that the program printed.

A letter is one character, its code, so that the letters of many rows are one string. A state is a dictionary from codes to states, so
that the walk over a string is one call of `reduce`; a step to a state that rejects raises Broken, and is not kept in the dictionary.
"""
from functools import reduce
from itertools import accumulate
from operator import getitem, itemgetter, length_hint, mul
from typing import Any, Callable, Dict, Iterator, List, Mapping, NamedTuple, Optional, Sequence, Tuple

from automaton import Automaton

TRUTHS = {"0": "0", "1": "1", "false": "0", "true": "1", "off": "0", "on": "1", "no": "0", "yes": "1"}
MOST_KNOWN = 1 << 16  # of rows' cells whose code is kept
MOST_STEPS = 1 << 18  # of a walk that are kept
BEFORE = 6  # runs of equal letters that are shown up to a breach


class Broken(Exception):
    """A step leads to a state that rejects."""


class NoTruth(Exception):
    """Cells among which is one that is no truth."""


class State(Dict[str, "State"]):
    """A state of a walk, with the states that letters lead to, as far as they were met."""

    def __init__(self, walk: "Walk", number: int) -> None:
        super().__init__()
        self.walk, self.number = walk, number

    def __missing__(self, code: str) -> "State":
        target = self.walk.state(self.walk.automaton.step(self.number, self.walk.letters[ord(code)]))
        if not self.walk.automaton.accept[target.number]:
            raise Broken
        self.walk.note()
        self[code] = target
        return target


class Walk:
    """An automaton's states as they are met."""

    def __init__(self, automaton: Automaton, letters: List[str]) -> None:
        self.automaton, self.letters = automaton, letters
        self.states: Dict[int, State] = {}
        self.steps = 0  # that are kept

    def note(self) -> None:
        """One more step is kept; where they are too many, those before are not."""
        self.steps += 1
        if self.steps > MOST_STEPS:
            self.steps = 0
            for state in self.states.values():
                state.clear()

    def state(self, number: int) -> State:
        if number not in self.states:
            self.states[number] = State(self, number)
        return self.states[number]


class Codes(Dict[Any, str]):
    """The code of the cells that a requirement's variables have in a row."""

    def __init__(self) -> None:
        super().__init__()
        self.letters: List[str] = []  # by their codes
        self.known: Dict[str, str] = {}

    def __missing__(self, cells: Any) -> str:
        texts = (cells,) if isinstance(cells, str) else cells
        try:
            letter = "".join([TRUTHS[text.strip().lower()] for text in texts]) or "-"
        except KeyError:
            raise NoTruth from None
        if len(self) >= MOST_KNOWN:
            self.clear()
        self[cells] = self.code(letter)
        return self[cells]

    def code(self, letter: str) -> str:
        if letter not in self.known:
            self.known[letter] = chr(len(self.letters))
            self.letters.append(letter)
        return self.known[letter]


class Run(NamedTuple):
    """Equal letters in a row: the first and the last instant, the letter, and the label of the first row."""

    first: int
    last: int
    letter: str
    label: str


def cells_at(places: Sequence[int]) -> Callable[[List[str]], Any]:
    if places:
        return itemgetter(*places)
    return lambda row: ()


class Heading(NamedTuple):
    """What a requirement is called in reports."""

    name: str
    path: str
    id: str
    sentence: str
    variables: Sequence[str]
    meanings: Mapping[str, str]  # of names, as its file says

    @property
    def spoken(self) -> str:
        return f"{self.name} ({self.id})" if self.id else self.name


class Monitor:
    """A requirement, and where it is in the log."""

    def __init__(self, heading: Heading, text: str, automaton: Automaton, places: Sequence[int], rearm: bool = False) -> None:
        self.heading, self.text, self.automaton, self.rearm = heading, text, automaton, rearm
        self.places = places  # of the cells of its variables in a row
        self.codes = Codes()
        self.cells = cells_at(places)
        self.walk = Walk(automaton, self.codes.letters)
        self.state = self.walk.state(0)
        self.earlier: List[Run] = []  # the last runs before the rows that are looked at, up to the first breach
        self.breaches = 0
        self.first_breach: Optional[Tuple[int, str]] = None  # its instant and its label
        self.is_done = False

    def coded(self, rows: Sequence[List[str]], counts: Sequence[int]) -> Tuple[str, str]:
        """The codes of rows, and those with their repetitions; NoTruth and IndexError where a row has none."""
        short = "".join(map(self.codes.__getitem__, map(self.cells, rows)))
        return short, short if len(counts) == sum(counts) else "".join(map(mul, short, counts))

    def take(self, short: str, codes: str, counts: Sequence[int]) -> List[int]:
        """Walks over some rows: the places at which it is broken. After each it begins anew, or is not watched any more."""
        found: List[int] = []
        for place in self.by_runs(short, counts) if len(short) * 4 < len(codes) else self.by_rows(codes):
            found.append(place)
            self.begin_anew()
            if not self.rearm:
                self.is_done = True
                break
        return found

    def by_rows(self, codes: str) -> Iterator[int]:
        """The places at which it is broken; after each the walk goes on from the state that it has then."""
        steps = iter(codes)
        while True:
            try:
                self.state = reduce(getitem, steps, self.state)
                return
            except Broken:
                yield len(codes) - length_hint(steps) - 1

    def by_runs(self, short: str, counts: Sequence[int]) -> Iterator[int]:
        """The same where many rows repeat the one before: a state that a letter leaves as it is stays."""
        for code, count, end in zip(short, counts, accumulate(counts)):
            left = count
            while left:
                left -= 1
                try:
                    before, self.state = self.state, self.state[code]
                except Broken:
                    yield end - left - 1
                    continue
                if before is self.state:
                    break

    def runs(self, codes: str, first: int, labels: Sequence[str]) -> List[Run]:
        """The last runs of equal letters up to the last one of these, which begin at an instant."""
        found: List[Run] = []
        while codes and len(found) < BEFORE:
            rest = codes.rstrip(codes[-1])
            found.append(Run(first + len(rest), first + len(codes) - 1, self.codes.letters[ord(codes[-1])], labels[len(rest)].strip()))
            codes = rest
        found.reverse()
        if codes or not self.earlier:
            return found
        before = self.earlier
        if found and before[-1].letter == found[0].letter:
            before, found[0] = before[:-1], before[-1]._replace(last=found[0].last)
        return [*before, *found][-BEFORE:]

    def begin_anew(self) -> None:
        self.state = self.walk.state(0)
