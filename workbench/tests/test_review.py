"""`review`: boundaries, near misses, examples and parts that do not matter, of requirements whose answers are reasoned out by hand."""
import unittest

from expand import Text
from names import expand
from program import Program
from support import PROGRAM, WithFolder, examples, needs_program, run


@needs_program
class Review(WithFolder):
    def review(self, text):
        """The lines below each question, by the question's first words."""
        status, out, err = run("ask", "review", self.file("one.dc", text))
        self.assertEqual((status, err), (0, ""))
        found, title = {}, None
        for line in out.splitlines()[1:]:
            if line.endswith(("?", ":")) and not line.startswith(" "):
                title = line
                found[title.split("?")[0]] = lines = []
            elif line and title:
                lines.append(line.strip())
        return found

    def test_numbers_and_brackets(self):
        """p everywhere, for 2 steps or more. With 1, 2 instants do; with 3, 3 do not. In [p] the last instant is left out."""
        found = self.review("var p;\ninfer [[p]] &&\n  slen >= 2;\n")
        self.assertEqual(found["Is each number and bracket the one that is meant"],
                         ["line 2: [[p]]", "with [..]: bad now, good then: 1 1 0",
                          "line 3: slen >= 2", "with 1: bad now, good then: 1 1", "with 3: good now, bad then: 1 x3"])

    def test_near_misses(self):
        """At each of the three instants p decides; of the pairs the one is told that differs first. p never has to be false."""
        found = self.review("var p; infer [[p]] && slen >= 2;")
        self.assertEqual(found["What does each variable decide"], ["p has to be true at instant 0:  good 1 x3   bad 0 1 1"])

    def test_an_example_in_which_things_happen(self):
        """The least behaviour in which q follows each p has no p. For all of it, p with an instant after it, two instants are needed."""
        found = self.review("var p, q; infer []({{p}} => {{true}} ^ <q>);")
        self.assertEqual(found["What does it look like when it holds"], ["instant   0  1", "p       ###___", "q       ___###"])

    def test_what_cannot_happen_is_said(self):
        lines = self.review("var p; infer [[p]];")
        self.assertEqual(lines["What does it look like when it holds"][-1], "Where it holds it never happens that: p is false.")
        self.assertNotIn("Does each part matter", lines)
        lines = self.review("var p, q; infer [[p]] || [[!p && q]];")
        self.assertEqual(lines["What does it look like when it holds"][-1], "Not together with the rest: q alone is true; p is false.")

    def test_parts_that_do_not_matter(self):
        """An instant with p is there where p is everywhere. q stands nowhere."""
        lines = self.review("var p, q; infer [[p]] && <><p>;")["Does each part matter"]
        self.assertEqual(lines, ["q decides nothing",
                                 "line 1: <><p> may be true and the meaning is the same: the others of the && imply it"])

    def test_a_left_side_that_never_happens(self):
        """No instant has p and not p, so nothing is asked where it has."""
        lines = self.review("var p, q; infer <><q> && (<>(<p> && <!p>) => slen > 70);")["Does each part matter"]
        self.assertIn("line 1: <>(<p> && <!p>) => slen > 70 may be true and the meaning is the same: the others of the && imply it", lines)
        self.assertIn("p decides nothing", lines)

    def test_a_number_at_which_nothing_is_asked(self):
        """Each behaviour has 0 steps or more, and with 1 it has to have two instants."""
        found = self.review("var p; infer <><p> && slen >= 0;")
        self.assertEqual(found["Is each number and bracket the one that is meant"], ["line 1: slen >= 0", "with 1: good now, bad then: 1"])
        self.assertIn("line 1: slen >= 0 may be true and the meaning is the same: the others of the && imply it", found["Does each part matter"])

    def test_theorems_and_contradictions(self):
        theorem = self.review("var p; infer [[p]] => <><p>;")
        self.assertEqual(theorem["Does it say anything at all"], ["Every behaviour satisfies it: it asks for nothing, or it is a theorem."])
        self.assertNotIn("Does each part matter", theorem)
        self.assertNotIn("What does each variable decide", theorem)
        nothing = self.review("var p; infer [[p]] && <><!p>;")
        self.assertEqual(nothing["Does it say anything at all"], ["No behaviour satisfies it."])
        self.assertNotIn("What does it look like when it holds", nothing)

    def test_a_part_that_is_never_true(self):
        """The cut belongs to both parts of a chop, so p would be true and false there: the slip makes a theorem of the one and a
        contradiction of the other."""
        never = "line 1: [[p]] ^ [[!p]] is never true, whatever its variables do"
        theorem = self.review("var p; infer [[p]] ^ [[!p]] => slen > 70;")
        self.assertEqual(theorem["Does each part matter"],
                         [never, "line 1: slen > 70 may be false and the meaning is the same: the left side of the => never happens"])
        self.assertIn("Where it holds it never happens that: [[p]] ^ [[!p]] happens.", theorem["What does it look like when it holds"])
        self.assertEqual(self.review("var p; infer [[p]] ^ [[!p]] && slen > 70;")["Does each part matter"], [never])
        lines = self.review("var p; infer <p && !p> && slen < 70;")["Does each part matter"]
        self.assertEqual(lines, ["line 1: p && !p is never true, whatever its variables do"])

    def test_an_assumption_that_a_theorem_does_not_need(self):
        lines = self.review("var p, q; infer [[p]] && [[q]] => <><p>;")["Does each part matter"]
        self.assertEqual(lines, ["line 1: [[q]] may be true and the meaning is the same: the others of the && imply it"])

    def test_near_misses_in_the_automaton_are_as_short(self):
        """The search in an automaton's text finds pairs of the same lengths as the program does, or none where it has none."""
        import review
        from questions import Requirement, differing
        found = 0
        for path in examples():
            if any(name in path for name in ("deadlines", "edge_count", "gas_burner", "separation")):
                continue  # they take long, or are over the limits
            requirement = Requirement(Program(PROGRAM), Text(path, path))
            goal = expand(requirement.file)
            for place, variable in enumerate(requirement.variables):
                for high in (True, False):
                    asked, searched = review.near_miss(requirement, goal, variable, high), differing(requirement.automaton_read, place, high)
                    self.assertEqual(bool(asked), bool(searched))
                    if asked and "over" not in (asked, searched):
                        found += 1
                        self.assertEqual(len(asked[0]), len(searched[0]), (path, variable))
                        self.assertEqual(review.confirmed(requirement, searched), searched)
        self.assertGreater(found, 30)

    def test_the_questions_are_shown(self):
        status, _, err = run("ask", "review", self.file("one.dc", "var p; infer [[p]];"), "--show")
        self.assertEqual(status, 0)
        self.assertIn("asked: implies", err)
        self.assertIn("infer [p];", err)


if __name__ == "__main__":
    unittest.main()
