"""`tests`: the test suite that an automaton's text holds: each access word, then nothing or one letter, then each suffix.

Vasilevskii (1973) and Chow (1978) showed of such a suite that an implementation with at most as many states, which answers all of
its words as the requirement does, answers every word so. Where that would be too much to write, there is a suite that takes each
transition once, which promises less.
"""
import argparse
import os
import re
import sys
from typing import Iterable, Iterator, List, NamedTuple, Optional, Sequence, Set, Tuple

from automaton import Automaton
from expand import Text
from program import Program
from streams import Unwritten, make_folder, write_text

Word = Tuple[str, ...]
MOST = 10_000_000  # instants of a suite that are written


def suffixes_of(automaton: Automaton) -> List[Word]:
    return [tuple(automaton.suffix_word(number)) for number in range(len(automaton.suffixes))]


def words_of(automaton: Automaton, suffixes: Optional[Sequence[Word]] = None) -> List[Word]:
    """The words, shortest first and then by their letters, none of them twice or empty; or those with some of the suffixes."""
    starts = [tuple(automaton.access_word(state)) for state in range(automaton.states)]
    middles: List[Word] = [(), *((letter,) for letter in automaton.letters())]
    ends = suffixes_of(automaton) if suffixes is None else suffixes
    found = {start + middle + suffix for start in [*starts, ()] for middle in middles for suffix in ends}
    return in_order(found - {()})


def size_of(automaton: Automaton, suffixes: Sequence[Word]) -> int:
    """The instants of the words with these suffixes, those that are there twice counted twice."""
    starts = [*map(len, map(automaton.access_word, range(automaton.states))), 0]
    letters: int = 2 ** len(automaton.variables)
    return sum(starts) * (1 + letters) * len(suffixes) + len(starts) * (letters * len(suffixes) + (1 + letters) * sum(map(len, suffixes)))


def transitions_of(automaton: Automaton, every: bool) -> List[Word]:
    """Each state's access word with each letter; or with the least letter for each state that it leads to."""
    found: Set[Word] = set()
    for state in range(automaton.states):
        start = tuple(automaton.access_word(state))
        found.update(start + (letter,) for letter in (automaton.letters() if every else automaton.targets(state).values()))
    return in_order(found)


def in_order(words: Iterable[Word]) -> List[Word]:
    return sorted(words, key=lambda word: (len(word), word))


def without_prefixes(words: Sequence[Word]) -> List[Word]:
    """The words of which no other is a continuation: an implementation that answers at each instant is tested by these alone. In the
    order of letters a word comes right before its continuations."""
    found = sorted(set(words))
    last = {word for word, after in zip(found, found[1:] + [()]) if after[:len(word)] != word}
    return [word for word in words if word in last]


def answers_of(automaton: Automaton, word: Sequence[str]) -> List[int]:
    """The answer at each instant of a word."""
    state, found = 0, []
    for letter in word:
        state = automaton.step(state, letter)
        found.append(int(automaton.accept[state]))
    return found


def write(folder: str, automaton: Automaton, words: Sequence[Word]) -> int:
    """A trace for each word, and what has to be answered at each of its instants. The traces of another suite that are there go: how many."""
    make_folder(folder)
    digits, names = len(str(len(words))), set()
    for number, word in enumerate(words, 1):
        for ending, lines in (("trace", word), ("expected", answers_of(automaton, word))):
            name = f"test_{number:0{digits}}.{ending}"
            names.add(name)
            write_text(os.path.join(folder, name), "".join(f"{line}\n" for line in lines), "ascii")
    return sum(removed(os.path.join(folder, name)) for name in others(folder) if name not in names)


def others(folder: str) -> Iterator[str]:
    return (name for name in sorted(os.listdir(folder)) if re.fullmatch(r"test_\d+\.(trace|expected)", name))


def removed(path: str) -> bool:
    """Removes a file; whether it is a trace."""
    try:
        os.remove(path)
    except OSError as error:
        raise Unwritten(f"{path} is of another suite, and could not be removed: {error.strerror}") from None
    return path.endswith(".trace")


class Suite(NamedTuple):
    """The words that are written, and what is said of them: whom they are for, and what they do not promise."""

    words: List[Word]
    whom: str
    weaker: str


def suite_of(automaton: Automaton, transitions: bool) -> Suite:
    """The whole suite, or without words that others go on with where it is smaller so; else each transition."""
    suffixes, states = suffixes_of(automaton), f"{automaton.states} state" + "s" * (automaton.states > 1)
    last = without_prefixes(suffixes) or suffixes
    for those in () if transitions else (suffixes, last):
        if size_of(automaton, those) <= MOST:
            return Suite(words_of(automaton, those), f"for implementations with up to {states}", "")
    why = "It is weaker than the whole suite" + ("" if transitions else f", which has up to {size_of(automaton, last)} instants, more than {MOST}") + ": "
    letters, longest = 2 ** len(automaton.variables), sum(len(automaton.access_word(state)) + 1 for state in range(automaton.states))
    every = letters * longest <= MOST
    missed = "it does not find each transition that goes to a wrong state" + ("" if every else ", nor each letter that does")
    return Suite(transitions_of(automaton, every), f"that take each transition of {states}" + ("" if every else ", each by a least letter"), why + missed)


def add_arguments(parser: argparse.ArgumentParser) -> None:
    parser.epilog = ("The suite holds for implementations with at most as many states as the requirement's automaton has. "
                     f"Where it has more than {MOST} instants, each transition is taken once, which promises less.")
    parser.add_argument("file", metavar="FILE")
    parser.add_argument("--out", metavar="FOLDER",
                        help="writes a trace and its expected answers for each word, and none for a word that another one goes on with")
    parser.add_argument("--transitions", action="store_true", help="the weaker suite, which takes each transition once")


def run(options: argparse.Namespace, program: Program) -> int:
    automaton = program.automaton(Text(options.file, options.shown).text)
    suite = suite_of(automaton, options.transitions)
    size = sum(map(len, suite.words))
    if size > MOST:
        print(f"ask tests: the suite has {size} instants, and {MOST} are the most that are written", file=sys.stderr)
        return 4
    if options.out:
        traces = without_prefixes(suite.words)
        gone = write(options.out, automaton, traces)
        print(f"{options.out}: {len(traces)} traces that hold all {len(suite.words)} words of the suite, {suite.whom}"
              + (f"; {gone} traces of another suite were removed" if gone else ""))
    else:
        print(f"{len(suite.words)} words, {size} instants, {suite.whom}; an instant is the digits of {' '.join(automaton.variables) or 'no variable'}")
    if suite.weaker:
        print(suite.weaker)
    for word in () if options.out else suite.words:
        print("good" if automaton.accept[automaton.run(word)] else "bad ", " ".join(word))
    return 0
