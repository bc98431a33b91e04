"""`tests`: the suite of a small requirement worked out by hand, and wrong automata, each of which some word of a suite tells."""
import os
import unittest
from dataclasses import replace

import suite
from automaton import Choice, read_automaton
from program import Program
from support import PROGRAM, ROOT, WithFolder, needs_program, run

# Of `var p; infer [[p]];`: the start accepts and is left for ever where p is false.
ALWAYS = """automaton 2
variables p
states 2
node n0 p ? t0 : t1
state 0 accept n0
state 1 reject t1
access 0 start 1
access 1 start 0
suffix 0 empty
steps 0
end
"""


def mutants(automaton):
    """Each automaton that has another answer in one state, or goes to another state by one letter."""
    for state in range(automaton.states):
        yield replace(automaton, accept=[accept != (place == state) for place, accept in enumerate(automaton.accept)])
        for letter in automaton.letters():
            for target in range(automaton.states):
                if target != automaton.step(state, letter):
                    table = {other: target if other == letter else automaton.step(state, other) for other in automaton.letters()}
                    rows = list(automaton.rows)
                    rows[state] = diagram(table, len(automaton.variables), "")
                    yield replace(automaton, rows=rows)


def diagram(table, width, letter):
    if len(letter) == width:
        return table[letter]
    return Choice(len(letter), diagram(table, width, letter + "1"), diagram(table, width, letter + "0"))


def same(first, second):
    """Whether two automata accept the same behaviours, by all pairs of states that one word leads to."""
    seen, todo = {(0, 0)}, [(0, 0)]
    while todo:
        one, other = todo.pop()
        for letter in first.letters():
            pair = first.step(one, letter), second.step(other, letter)
            if first.accept[pair[0]] != second.accept[pair[1]]:
                return False
            if pair not in seen:
                seen.add(pair)
                todo.append(pair)
    return True


class Words(unittest.TestCase):
    def test_by_hand(self):
        automaton = read_automaton(ALWAYS)
        words = suite.words_of(automaton)
        self.assertEqual([" ".join(word) for word in words], ["0", "1", "0 0", "0 1", "1 0", "1 1"])
        self.assertEqual([automaton.accepts(word) for word in words], [False, True, False, False, False, True])

    def test_no_word_that_another_goes_on_with(self):
        words = [("0",), ("0", "1"), ("1",), ("0", "1", "1"), ("1", "0")]
        self.assertEqual(suite.without_prefixes(words), [("0", "1", "1"), ("1", "0")])


@needs_program
class Suites(WithFolder):
    def test_every_wrong_automaton_is_told(self):
        for name in ("response", "lamp", "mine_pump", "minimum_duration"):
            with open(os.path.join(ROOT, "examples", name + ".dc")) as file:
                automaton = Program(PROGRAM).automaton(file.read())
            words, wrong = suite.words_of(automaton), 0
            for mutant in mutants(automaton):
                told = any(mutant.accepts(word) != automaton.accepts(word) for word in words)
                self.assertEqual(told, not same(automaton, mutant))
                wrong += told
            self.assertGreater(wrong, 0)

    def test_the_folder(self):
        path, out = self.file("p.dc", "var p; infer [[p]];"), os.path.join(self.folder, "out")
        self.assertEqual(run("ask", "tests", path, "--out", out)[0], 0)
        found = {}
        for name in sorted(os.listdir(out)):
            with open(os.path.join(out, name)) as file:
                found[name] = file.read()
        self.assertEqual(found, {"test_1.expected": "0\n0\n", "test_1.trace": "0\n0\n", "test_2.expected": "0\n0\n", "test_2.trace": "0\n1\n",
                                 "test_3.expected": "1\n0\n", "test_3.trace": "1\n0\n", "test_4.expected": "1\n1\n", "test_4.trace": "1\n1\n"})

    def test_the_verdicts_are_the_programs(self):
        path = os.path.join(ROOT, "examples", "arbiter.dc")
        out = os.path.join(self.folder, "out")
        run("ask", "tests", path, "--out", out)
        program = Program(PROGRAM)
        with open(path) as file:
            observer = program.observer(file.read())
        traces = sorted(name for name in os.listdir(out) if name.endswith(".trace"))
        for name in traces[::max(1, len(traces) // 25)]:
            with open(os.path.join(out, name)) as trace, open(os.path.join(out, name.replace(".trace", ".expected"))) as expected:
                self.assertEqual([str(int(answer)) for answer in program.replay(observer, trace.read().split())], expected.read().split())


if __name__ == "__main__":
    unittest.main()
