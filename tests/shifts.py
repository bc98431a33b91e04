#!/usr/bin/env python3
"""Compares automata of drawn goals with prior and next propositions with what the goals mean, on all short behaviours. By hand, a minute for 200 goals:

    tests/shifts.py SEED COUNT [PROGRAM]

It shares no code with the program: goals are drawn over two variables and evaluated as the guide says, on each interval, with the whole behaviour in sight. An automaton is
the program's text, which is run letter by letter. Behaviours have up to 4 instants, or 3 where the goal has quantifiers.
"""
import itertools
import operator
import os
import random
import subprocess
import sys
import tempfile

from tested import tested

VARIABLES = ["p", "q"]
RELATIONS = {"<": operator.lt, "<=": operator.le, "=": operator.eq, ">=": operator.ge, ">": operator.gt}
JOINS = {"&&": lambda a, b: a and b, "||": lambda a, b: a or b, "=>": lambda a, b: not a or b, "<=>": operator.eq}


# ---- propositions: what is judged at one instant of a behaviour


class Prop:
    """A word or sign, and the propositions below it."""

    def __init__(self, word, *parts):
        self.word, self.parts = word, parts

    def text(self):
        if not self.parts:
            return self.word
        if len(self.parts) == 1:
            return self.word + self.parts[0].text()
        return f"({self.parts[0].text()} {self.word} {self.parts[1].text()})"

    def value(self, tracks, i, length):
        if self.word in ("true", "false"):
            return self.word == "true"
        if not self.parts:
            return tracks[self.word][i]
        if self.word == "-":
            return i > 0 and self.parts[0].value(tracks, i - 1, length)
        if self.word == "+":
            return i + 1 < length and self.parts[0].value(tracks, i + 1, length)
        values = [part.value(tracks, i, length) for part in self.parts]
        return not values[0] if self.word == "!" else JOINS[self.word](*values)


def drawn_prop(draw, depth, names):
    if depth == 0:
        return Prop(draw.choice(names) if draw.random() < 0.85 else draw.choice(["true", "false"]))
    word = draw.choice(["", "!", "&&", "||", "=>", "<=>", "-", "+", "-", "+"])
    if word in ("-", "+"):
        # no quantified name may be looked at from another instant
        return Prop(word, drawn_prop(draw, depth - 1, VARIABLES))
    if word == "":
        return drawn_prop(draw, 0, names)
    return Prop(word, *(drawn_prop(draw, depth - 1, names) for _ in range(1 if word == "!" else 2)))


# ---- formulas: what is judged on an interval


class Formula:
    """A form, with its parts in the order in which it is written."""

    def __init__(self, form, *parts):
        self.form, self.parts = form, parts

    def text(self):
        parts = [part if isinstance(part, (str, int)) else part.text() for part in self.parts]
        return self.form.format(*parts)

    def has(self, form):
        return self.form == form or any(isinstance(part, Formula) and part.has(form) for part in self.parts)

    def holds(self, tracks, b, e, length):
        return MEANINGS[self.form](self, tracks, b, e, length)


def counted(goal, tracks, instants, length):
    return RELATIONS[goal.parts[1]](sum(goal.parts[0].value(tracks, i, length) for i in instants), goal.parts[2])


def some_track(goal, tracks, b, e, length):
    name, inner = goal.parts
    return any(inner.holds({**tracks, name: track}, b, e, length) for track in itertools.product([False, True], repeat=length))


def pairs(b, e):
    return ((c, d) for c in range(b, e + 1) for d in range(c, e + 1))


MEANINGS = {
    "pt": lambda g, t, b, e, n: b == e,
    "ext": lambda g, t, b, e, n: b < e,
    "<{}>": lambda g, t, b, e, n: b == e and g.parts[0].value(t, b, n),
    "[{}]": lambda g, t, b, e, n: b < e and all(g.parts[0].value(t, i, n) for i in range(b, e)),
    "[[{}]]": lambda g, t, b, e, n: all(g.parts[0].value(t, i, n) for i in range(b, e + 1)),
    "{{{{{}}}}}": lambda g, t, b, e, n: e == b + 1 and g.parts[0].value(t, b, n),
    "slen {} {}": lambda g, t, b, e, n: RELATIONS[g.parts[0]](e - b, g.parts[1]),
    "(scount {} {} {})": lambda g, t, b, e, n: counted(g, t, range(b, e + 1), n),
    "(sdur {} {} {})": lambda g, t, b, e, n: counted(g, t, range(b, e), n),
    "!({})": lambda g, t, b, e, n: not g.parts[0].holds(t, b, e, n),
    "(({}) && ({}))": lambda g, t, b, e, n: all(part.holds(t, b, e, n) for part in g.parts),
    "(({}) || ({}))": lambda g, t, b, e, n: any(part.holds(t, b, e, n) for part in g.parts),
    "(({}) => ({}))": lambda g, t, b, e, n: not g.parts[0].holds(t, b, e, n) or g.parts[1].holds(t, b, e, n),
    "(({}) ^ ({}))": lambda g, t, b, e, n: any(g.parts[0].holds(t, b, m, n) and g.parts[1].holds(t, m, e, n) for m in range(b, e + 1)),
    "({})*": lambda g, t, b, e, n: b == e or any(g.parts[0].holds(t, b, m, n) and g.holds(t, m, e, n) for m in range(b + 1, e + 1)),
    "<>({})": lambda g, t, b, e, n: any(g.parts[0].holds(t, c, d, n) for c, d in pairs(b, e)),
    "[]({})": lambda g, t, b, e, n: all(g.parts[0].holds(t, c, d, n) for c, d in pairs(b, e)),
    "(ex {}. ({}))": some_track,
}
ATOMS = ["pt", "ext", "<{}>", "<{}>", "[{}]", "[[{}]]", "[[{}]]", "{{{{{}}}}}", "slen {} {}", "(scount {} {} {})", "(sdur {} {} {})"]
OPERATORS = ["!({})", "(({}) && ({}))", "(({}) || ({}))", "(({}) => ({}))", "(({}) ^ ({}))", "(({}) ^ ({}))", "({})*", "<>({})", "[]({})", "(ex {}. ({}))"]


def drawn_atom(draw, names):
    form = draw.choice(ATOMS)
    if form == "slen {} {}":
        return Formula(form, draw.choice(list(RELATIONS)), draw.randint(0, 3))
    props = [drawn_prop(draw, draw.randint(0, 3), names)] if "{" in form else []
    measured = [draw.choice(list(RELATIONS)), draw.randint(0, 2)] if form.startswith("(s") else []
    return Formula(form, *props, *measured)


def drawn(draw, depth, names):
    if depth == 0:
        return drawn_atom(draw, names)
    form = draw.choice(OPERATORS)
    if form == "(ex {}. ({}))":
        name = f"r{len(names)}"
        return Formula(form, name, drawn(draw, depth - 1, names + [name]))
    return Formula(form, *(drawn(draw, depth - 1, names) for _ in range(form.count("{}"))))


# ---- automata, as the program prints them


class Automaton:
    def __init__(self, text):
        lines = [line.split() for line in text.splitlines()]
        self.nodes = {words[1]: (words[2], words[4], words[6]) for words in lines if words[0] == "node"}
        self.states = [(words[2] == "accept", words[3]) for words in lines if words[0] == "state"]

    def accepts(self, letters):
        state = 0
        for letter in letters:
            place = self.states[state][1]
            while place.startswith("n"):
                variable, high, low = self.nodes[place]
                place = high if letter[variable] else low
            state = int(place[1:])
        return self.states[state][0]


def differing(goal, automaton):
    """A behaviour on which the automaton does not say what the goal means, if there is one."""
    for length in range(1, 4 if goal.has("(ex {}. ({}))") else 5):
        for truths in itertools.product(itertools.product([False, True], repeat=length), repeat=len(VARIABLES)):
            tracks = dict(zip(VARIABLES, truths))
            letters = [{name: tracks[name][i] for name in VARIABLES} for i in range(length)]
            if automaton.accepts(letters) != goal.holds(tracks, 0, length - 1, length):
                return tracks
    return None


def main():
    draw, count = random.Random(int(sys.argv[1])), int(sys.argv[2])
    program = tested(*sys.argv[3:4])
    asked = differ = 0
    with tempfile.NamedTemporaryFile("w", suffix=".dc") as file:
        for _ in range(count):
            goal = drawn(draw, draw.randint(0, 3), VARIABLES)
            text = f"var p, q; infer {goal.text()};"
            file.seek(0)
            file.truncate()
            file.write(text)
            file.flush()
            ran = subprocess.run([program, "automaton", file.name], capture_output=True, text=True)
            if ran.returncode == 4:  # over the limits
                print(text, ran.stderr.strip())
                continue
            if not ran.stdout.startswith("automaton"):
                sys.exit(f"{text} has no automaton: status {ran.returncode}, {ran.stderr.strip()}")
            asked += 1
            tracks = differing(goal, Automaton(ran.stdout))
            if tracks:
                differ += 1
                print("DIFFERS:", text, tracks)
    print(asked, "goals,", differ, "differ")
    sys.exit(differ > 0)


if __name__ == "__main__":
    main()
