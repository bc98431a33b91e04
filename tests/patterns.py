#!/usr/bin/env python3
"""Checks each pattern of patterns/: its good and bad behaviours, its sentence by a plain check, its short form, what it says of the end and of synthesis.

    tests/patterns.py [--fast] [--reach] [NAME ..]

--fast compares shorter behaviours and smaller numbers; --reach checks how far each pattern goes too, which takes minutes.
DCVALID names the program.
"""
import itertools
import os
import re
import sys
from concurrent.futures import ThreadPoolExecutor

ROOT = os.path.dirname(os.path.dirname(os.path.abspath(__file__)))
sys.path[:0] = [os.path.join(ROOT, "workbench"), os.path.join(ROOT, "tests")]
from expansion import Expansion  # noqa: E402
from library import patterns  # noqa: E402
from pattern_monitors import MONITORS  # noqa: E402
from program import Program, Refusal  # noqa: E402
from sources import Source  # noqa: E402
from tested import tested  # noqa: E402

LONG = {1: 12, 2: 7, 3: 5, 4: 4}  # by the number of variables, the instants of the longest behaviours that are compared
SHORT = {1: 8, 2: 4, 3: 3, 4: 2}


def text_of(pattern, numbers, goal=None):
    """A file of the language: the pattern for these numbers."""
    return Expansion(Source("", pattern.name, pattern.text(numbers, goal))).text


def short_of(pattern, numbers):
    """A file with the short form in place of the formula, which may have macros of its own."""
    head, _, goal = pattern.fields["short"].rpartition("infer ")
    constants = "".join(f"const {name} = {value};\n" for name, value in numbers.items())
    inner = re.sub(r"(define|prop) (\w+)\(([^)]*)\) as", r"\1 \2(\3) as", head)
    return Expansion(Source("", pattern.name, f"{constants}var {', '.join(pattern.variables)};\n{inner}infer {goal};\n")).text


def choices(pattern, most):
    """The numbers that are tried: from the least on; of two numbers all pairs."""
    least = pattern.least
    return [dict(zip(least, values)) for values in itertools.product(*(range(low, max(most, low) + 1) for low in least.values()))]


def value_of(monitor, variables, word, numbers):
    columns = {name: [letter[place] == "1" for letter in word] for place, name in enumerate(variables)}
    return bool(monitor(**columns, **numbers))


def against_the_sentence(pattern, automaton, numbers, lengths):
    """A behaviour on which formula and plain check differ, or None."""
    monitor = MONITORS[pattern.name]
    letters = automaton.letters()
    for length in range(1, lengths[len(letters[0])] + 1):
        for word in itertools.product(letters, repeat=length):
            if automaton.accepts(word) != value_of(monitor, pattern.variables, word, numbers):
                return word
    return None


def is_safety(automaton):
    """Whether what is broken once is broken for ever."""
    reached, todo = set(), [0]
    while todo:
        for target in automaton.targets(todo.pop()).keys() - reached:
            reached.add(target)
            todo.append(target)
    return not any(automaton.accept[target] for state in reached if not automaton.accept[state] for target in automaton.targets(state))


def of_words(pattern, automaton):
    for field, wanted in (("good", True), ("bad", False)):
        for word in pattern.words(field):
            if automaton.accepts(word) != wanted:
                yield f"the behaviour {' '.join(word)} is not {field}"


def of_goal(pattern, program):
    """What the file says of itself, for the numbers of its goal."""
    automaton = program.automaton(text_of(pattern, {}))
    yield from of_words(pattern, automaton)
    if program.check(text_of(pattern, pattern.least)).valid:
        yield "with its least number it asks nothing"
    told = ", ".join(f"{name} = {value}" for name, value in pattern.numbers.items())
    for field in ("good", "bad"):
        if pattern.fields[field].partition(", where ")[2] != told:
            yield f"the numbers of {field} are not those of the goal"
    if not pattern.fields["end"].startswith("safety" if is_safety(automaton) else "judged at the end"):
        yield "it says another thing about the end"
    match = re.match(r"--inputs (\d+), (realisable|unrealisable, bound \d+):", pattern.fields["synthesis"])
    answer = program.run(["synth", "/dev/stdin", "--inputs", match.group(1)], text_of(pattern, {})).output.splitlines()
    if match.group(2) != (answer[0] if answer[0] == "realisable" else f"{answer[0]}, {answer[1]}"):
        yield f"synth says {answer[:2]}"


def of_numbers(pattern, program, numbers, lengths):
    """What has to be so for each choice of numbers."""
    told = ", ".join(f"{name} = {value}" for name, value in numbers.items()) or "no numbers"
    text = text_of(pattern, numbers)
    automaton = program.automaton(text)
    word = against_the_sentence(pattern, automaton, numbers, lengths)
    if word:
        yield f"with {told} the sentence says another thing of {' '.join(word)}"
    states = states_told(pattern, numbers)
    if states is not None and states != automaton.states:
        yield f"with {told} it has {automaton.states} states, and says {states}"


def of_short(pattern, program, most):
    """The short form says the same for the numbers 1 to `most`."""
    for values in itertools.product(range(1, most + 1), repeat=len(pattern.numbers)):
        numbers = dict(zip(pattern.numbers, values))
        text, short = text_of(pattern, numbers), short_of(pattern, numbers)
        for one, other in ((text, short), (short, text)):
            if program.implies(one, other) is not None:
                yield f"with {numbers} the short form says another thing"


def states_told(pattern, numbers):
    """The states that `reach` names for these numbers, or None where it names none."""
    formula, low, other = re.match(r"(.*?) states(?: \(from \w = (\d+)\))?(?: with (\w = [^;]*))?", pattern.fields["reach"]).groups()
    if low and max(numbers.get("n", 0), numbers.get("k", 0) if "n" not in numbers else 0) < int(low):
        return None
    python = re.sub(r"(\d)([a-z])", r"\1*\2", formula).replace("^", "**")
    if other and not eval(other.replace("=", "==").rstrip(";"), {}, numbers):
        return None
    return eval(python, {}, numbers)


def is_within(program, text):
    try:
        program.check(text)
        return True
    except Refusal as refusal:
        if not refusal.over_budget:
            raise
        return False


def of_reach(pattern, program):
    """How far the number goes in the default budget, and that of the short form: there, and not much further."""
    match = re.search(r"within the default budget to (\w) = (\d+)(?:, the short form to (\d+))?", pattern.fields["reach"])
    if not match:
        return
    name, other = match.group(1), re.search(r"with (\w) = (.*?);", pattern.fields["reach"])
    for form, last, text in (("it", match.group(2), text_of), ("the short form", match.group(3), short_of)):
        last = int(last or 0)
        tried = ([(last, True)] if last else []) + ([(last + max(1, last // 50), False)] if 0 < last < 9990 else [])
        for value, wanted in tried:
            numbers = {name: value, **({other.group(1): eval(other.group(2), {}, {name: value})} if other else {})}
            if set(numbers) != set(pattern.numbers):
                numbers.update({it: value for it in pattern.numbers if it not in numbers})
            if is_within(program, text(pattern, numbers)) != wanted:
                yield f"{form} is {'over' if wanted else 'within'} the budget with {numbers}"


def check(pattern, program, fast, reach):
    faults = list(of_goal(pattern, program))
    for numbers in choices(pattern, 2 if fast else 4):
        faults += of_numbers(pattern, program, numbers, SHORT if fast else LONG)
    if "short" in pattern.fields:
        faults += of_short(pattern, program, 2 if fast else 4)
    return faults + (list(of_reach(pattern, program)) if reach else [])


def main(words):
    names = [word for word in words if not word.startswith("--")]
    program = Program(tested())
    found = [it for it in patterns() if not names or it.name in names]
    missing = sorted({it.name for it in patterns()} ^ set(MONITORS))
    bad = [f"{name}: a pattern without a plain check, or a check without a pattern" for name in missing]
    with ThreadPoolExecutor(2) as pool:
        for pattern, faults in zip(found, pool.map(lambda it: check(it, program, "--fast" in words, "--reach" in words), found)):
            bad += [f"{pattern.name}: {fault}" for fault in faults]
    print("\n".join(bad + [f"{len(found)} patterns, {len(bad)} faults, {program.runs} questions"]))
    return 1 if bad else 0


if __name__ == "__main__":
    sys.exit(main(sys.argv[1:]))
