"""`patterns` and `pattern`: what each pattern's file says of itself, and requirements made from patterns. tests/patterns.py checks more of them."""
import os
import sys
import unittest
from concurrent.futures import ThreadPoolExecutor

from support import PROGRAM, ROOT, needs_program, run

sys.path[:0] = [os.path.join(ROOT, "workbench"), os.path.join(ROOT, "tests")]
import library  # noqa: E402
import patterns as checks  # noqa: E402
from program import Program  # noqa: E402

RESPONSE = """// Each p at an instant i with n instants or more after it is followed by a q at one of the instants i to i+n (its own
// instant counts; n + 1 instants in all).
// At the end: once broken, it stays broken; a p with fewer than n instants after it is let pass.
// bounded_response_ended judges these too.
// Here p is ask && !off, q is served || off, n is 100.
var ask, off, served;
define first(p) as <p> || [!p] ^ <p>;
define late(p, q) as [[!q]] && first(p) ^ slen >= 100;
define bounded_response(p, q) as !((late(p, q) || true ^ {{q}} ^ late(p, q)) ^ true);
infer bounded_response(ask && !off, served || off);
"""


class Files(unittest.TestCase):
    def test_each_says_what_it_has_to(self):
        found = library.patterns()
        self.assertGreaterEqual(len(found), 60)
        for pattern in found:
            with self.subTest(pattern.name):
                self.assertLessEqual({"sentence", "end", "good", "bad", "reach", "synthesis", "group"}, set(pattern.fields))
                self.assertEqual("numbers" in pattern.fields, bool(pattern.numbers))
                self.assertEqual(set(pattern.least), set(pattern.numbers))
                self.assertEqual(set(pattern.parameters), set(pattern.propositions) | set(pattern.numbers))
                self.assertLessEqual(len(pattern.name), 24)
                for field in ("good", "bad"):
                    self.assertEqual(len(pattern.words(field)), 2)


@needs_program
class Patterns(unittest.TestCase):
    def test_words_and_what_they_say_of_the_end_and_of_synthesis(self):
        program, found = Program(PROGRAM), library.patterns()
        with ThreadPoolExecutor(4) as pool:
            for pattern, faults in zip(found, pool.map(lambda it: list(checks.of_goal(it, program)), found)):
                with self.subTest(pattern.name):
                    self.assertEqual(faults, [])

    def test_a_requirement(self):
        status, out, err = run("ask", "pattern", "bounded_response", "--p", "ask && !off", "--q", "served || off", "--n", "100")
        self.assertEqual((status, out, err), (0, RESPONSE, ""))
        program = Program(PROGRAM)
        observer = program.observer(out)
        for wait, kept in ((100, True), (101, False)):  # asked at instant 0, served after so many instants
            self.assertEqual(program.replay(observer, ["100"] + ["000"] * (wait - 1) + ["001"])[-1], kept)

    def test_variables_with_the_names_of_helpers(self):
        status, out, err = run("ask", "pattern", "bounded_response", "--p", "first", "--q", "late", "--n", "2")
        self.assertEqual((status, err), (0, ""))
        self.assertTrue(Program(PROGRAM).check(out).satisfiable)
        self.assertIn("var first, late;\ndefine first_2(p)", out)

    def test_without_propositions_the_variables_are_its_own(self):
        self.assertIn("var r, p;\n", run("ask", "pattern", "absence_before")[1])

    def test_what_makes_no_requirement(self):
        for words, said in ((("bounded_respons", "--n", "3"), "there is no pattern bounded_respons; there is bounded_response"),
                            (("bounded_response",), "bounded_response(p, q, n) needs --n N"),
                            (("bounded_response", "--n", "3", "--hi", "x"), "--hi is no parameter of bounded_response(p, q, n)"),
                            (("bounded_response", "--n", "3", "--p", "a &&"), "--p 'a &&' is no proposition: it ends at its character 5"),
                            (("bounded_response", "--n", "3", "--p", "a]] && [[b"), "--p 'a]] && [[b' is no proposition: it ends at its character 2"),
                            (("minimum_duration", "--n", "1"), "n is a number from 2 to 9999")):
            status, out, err = run("ask", "pattern", *words)
            self.assertEqual((status, out), (2, ""))
            self.assertIn(said, err)

    def test_numbers_that_ask_nothing(self):
        status, _, err = run("ask", "pattern", "at_most_k_in_n", "--n", "3", "--k", "3")
        self.assertEqual((status, err), (0, "ask pattern: every behaviour keeps to this\n"))

    def test_the_list(self):
        status, out, _ = run("ask", "patterns")
        self.assertEqual(status, 0)
        for pattern in library.patterns():
            self.assertRegex(out, rf"(?m)^  {pattern.name}\(")
        status, out, _ = run("ask", "patterns", "debounce")
        self.assertEqual(status, 0)
        for said in ("debounce(p, q, n)", "sentence: q takes the value", "good: 10 10 11 01 01 00", "define debounce(p, q, n) as"):
            self.assertIn(said, out)
        self.assertEqual(run("ask", "patterns", "bounce")[0], 2)


if __name__ == "__main__":
    unittest.main()
