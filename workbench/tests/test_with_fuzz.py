"""300 drawn formulas, on each of which each command is judged; and faults that are planted in the workbench, which are found. SEED=7 draws others.

The formulas are judged while the tests before these run: so the name of this file is one of the last.
"""
import atexit
import os
import subprocess
import sys
import unittest
from unittest import mock

import fuzz
from program import Program
from support import PROGRAM, needs_program

COUNT = 300
BEGUN = subprocess.Popen([sys.executable, fuzz.__file__, str(COUNT), os.environ.get("SEED", "1")], stdout=subprocess.PIPE,
                         env={**os.environ, "DCVALID": PROGRAM}) if PROGRAM else None
if BEGUN:
    atexit.register(BEGUN.kill)

# A command, what of the workbench is another thing, and what it is.
PLANTED = (
    ("tests", "suite.answers_of", lambda automaton, word: [0] * len(word)),
    ("watch", "single.Watch.go_on", lambda watch, codes: None),
    ("explain", "explain.words_of", lambda report: {}),
    ("set", "asked.Questions.refuted", lambda questions, left, right: True),
    ("automaton", "tables.Tables.leaf", lambda tables, place, letter: 0),
    ("serve", "analysis.Analysis.decide", lambda analysis: None),
    ("export", "omega.paths", lambda row: [(0, ())]),
    ("review", "questions.Requirement.put", lambda requirement, start, end, new: requirement.text),
    ("check", "program.words_of", lambda report: {"counterexample": ["00"], "example": ["00"]}),
    ("stuck", "program.words_of", lambda report: {"stuck": ["00"]}),
    ("implies", "program.words_of", lambda report: {"counterexample": ["00"]}),
    ("expand", "shapes.natural", lambda digits: 1),
    ("report", "pictures._wave", lambda name, levels, *rest: []),
    ("draw", "fuzz.columns", lambda word: []),
    ("verify", "verify.ends_of", lambda diagram: {}),
)


@needs_program
class Fuzz(unittest.TestCase):
    def test_drawn_formulas(self):
        said = BEGUN.communicate()[0].decode()
        self.assertEqual(said, f"{COUNT * len(fuzz.JUDGES)} passed, 0 failed\n")

    def test_each_judge_finds_a_fault(self):
        self.assertEqual({name for name, _, _ in PLANTED}, set(fuzz.JUDGES))
        cases = [fuzz.Case(seed, Program(PROGRAM)) for seed in range(20)]
        for name, place, fault in PLANTED:
            with self.subTest(name), mock.patch(place, fault):
                self.assertTrue(any(self.fails(name, case) for case in cases))

    @staticmethod
    def fails(name, case):
        try:
            fuzz.JUDGES[name](case)
        except Exception:  # pylint: disable=broad-except
            return True
        return False


if __name__ == "__main__":
    unittest.main()
