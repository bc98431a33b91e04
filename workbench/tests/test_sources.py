"""Files with constants, used files and numbers as arguments: each command takes them, and its places are those of the source."""
import re
import unittest

from support import WithFolder, each, needs_program, run

LOCK = """// An ask is served.
use "patterns/bounded_response.dc";
const wait = 3;
var ask, open;
infer bounded_response(ask, open, wait) &&
  !(<>([[open]] && slen >= 40));
"""


@needs_program
class Sources(WithFolder):
    def setUp(self):
        super().setUp()
        self.path = self.file("lock.dc", LOCK)
        self.plain = self.file("plain.dc", run("ask", "expand", self.path)[1])
        self.log = self.file("lock.csv", "ask,open\n1,0\n0,0\n0,0\n0,0\n")

    def test_each_command_answers_as_for_the_file_of_the_language(self):
        for words in (("draw",), ("tests",), ("tables", "--name", "a", "--out", "OUT"), ("watch", self.log), ("verify", "--observer"),
                      ("explain", "c"), ("explain", "synth", "--inputs", "1")):
            place = 2 if words[0] == "explain" else 1
            answers = each(lambda path: run("ask", *words[:place], path, *(it.replace("OUT", path + ".out") for it in words[place:])),
                           (self.path, self.plain))  # pylint: disable=cell-var-from-loop
            found = [(status, out.replace("plain.dc", "lock.dc"), err) for status, out, err in answers]
            self.assertEqual(found[0], found[1], words)
            self.assertEqual(found[0][2], "")
        self.assertEqual(run("explain", "implies", self.path, self.plain)[0], 0)

    def test_review_names_the_lines_of_the_source(self):
        out = run("ask", "review", self.path)[1]
        boundaries = out.split("Is each number")[1].split("What does each")[0]
        self.assertEqual(re.findall(r"line \d.*", boundaries), ["line 6: [[open]]", "line 6: slen >= 40", "line 3: const wait = 3"])
        self.assertIn("with 2 for 3: good now, bad then: 10 00 00\n", boundaries)
        self.assertNotIn("patterns", out)

    def test_faults_are_told_in_the_source(self):
        fault = self.file("fault.dc", LOCK.replace("ask, open, wait", "ask, opn, wait"))
        over = self.file("over.dc", "const n = 200;\nvar ask, open;\ndefine many(x, k) as scount x = k;\ninfer many(ask, n) &&\n  many(open, n);\n")
        notation = self.file("notation.dc", "const n = 3 4;\nvar p; infer <p>;\n")
        for words in (("review",), ("tables",), ("verify",), ("watch", self.log), ("explain", "check")):
            cases = ((fault, 3, "fault.dc:5:29: fault unknown"), (over, 4, "over.dc:4:7: over the budget"),
                     (notation, 3, "notation.dc:1:13: a number is expected here"))
            place = 2 if words[0] == "explain" else 1
            answers = each(lambda case: run("ask", *words[:place], case[0], *words[place:]), cases)  # pylint: disable=cell-var-from-loop
            for (path, status, said), found in zip(cases, answers):
                if words == ("verify",) and path == over:
                    self.assertEqual(found[0], 3)
                    continue
                self.assertEqual(found[:2], (status, ""), words)
                self.assertIn(said, found[2], words)

    def test_over_the_budget(self):
        """202 states each: 0 to 200 of them, and more."""
        path = self.file("over.dc", "var p, q;\ninfer scount p = 200 && scount q = 200;\n")
        err = run("explain", "check", path)[2]
        self.assertIn("Its operands have 202 and 202 states by themselves, and a product of 40804.", err)
        self.assertIn("A hint, of another requirement: with all numbers divided by 2 this is within the budget, and is not valid, and satisfiable.", err)


if __name__ == "__main__":
    unittest.main()
