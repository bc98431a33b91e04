"""`expand`: sources beside the files of the language that they have to become, written by hand, and faults at their places."""
import os
import sys
import unittest

from support import PROGRAM, ROOT, WithFolder, examples, needs_program, run

sys.path.insert(0, os.path.join(ROOT, "workbench"))
from expand import read  # noqa: E402
from program import Program  # noqa: E402
from sources import load  # noqa: E402

PAIRS = (
    ("constants and sums",
     "// A tank.\nconst n = 20; // instants\nconst half = n - 10;\nvar p;\ninfer slen < n + half - 1 && scount (p || !p) >= half && sdur p = 3;\n",
     "// A tank.\n// instants\nvar p;\ninfer slen < 29 && scount (p || !p) >= 10 && sdur p = 3;\n"),
    ("one choice of numbers keeps the name",
     "var p;\ndefine long(q, n) as [[q]] && slen >= n;\ninfer !(<>long(p, 4));\n",
     "var p;\ndefine long(q) as [[q]] && slen >= 4;\ninfer !(<>long(p));\n"),
    ("a copy for each choice",
     "var p, q;\ndefine long(x, n) as [[x]] && slen >= n + 1;\ndefine either(n, m) as long(p, n) || long(q, m);\ninfer either(3, 4) && !long(p && q, 7);\n",
     "var p, q;\ndefine long_3(x) as [[x]] && slen >= 4;\ndefine long_4(x) as [[x]] && slen >= 5;\ndefine long_7(x) as [[x]] && slen >= 8;\n"
     "define either as long_3(p) || long_4(q);\ninfer either && !long_7(p && q);\n"),
    ("a parameter hides a constant, and numbers are passed on",
     "const n = 9;\nvar p;\ndefine f(n) as scount p <= n;\ndefine g(m, k) as f(m + k) && slen <= n;\ninfer g(1, 1);\n",
     "var p;\ndefine f as scount p <= 2;\ndefine g as f && slen <= 9;\ninfer g;\n"),
    ("a macro that is used keeps out of the way",
     'use "lib.dc";\nvar first, q;\ndefine late as <q>;\ninfer late ^ true && served(first, q, 2) && first_of(q) && (ex m. <m> ^ true);\n',
     "var first, q;\ndefine first_2(p) as <p> || [!p] ^ <p>;\ndefine late_2(p, q) as [[!q]] && first_2(p) ^ slen >= 2;\n"
     "define served(p, q) as !(late_2(p, q) ^ true);\ndefine first_of(p) as first_2(p);\ndefine late as <q>;\n"
     "infer late ^ true && served(first, q) && first_of(q) && (ex m. <m> ^ true);\n"),
    ("a parameter of a used macro that is a macro here",
     'use "lib.dc";\nvar a;\nprop p as !a;\ninfer served(p, a, 1);\n',
     "var a;\ndefine first(p_0) as <p_0> || [!p_0] ^ <p_0>;\ndefine late(p_0, q) as [[!q]] && first(p_0) ^ slen >= 1;\n"
     "define served(p_0, q) as !(late(p_0, q) ^ true);\nprop p as !a;\ninfer served(p, a);\n"),
    ("a long name with its numbers",
     "var p;\ndefine a_name_of_24_characters(n) as slen = n;\ninfer a_name_of_24_characters(12) || a_name_of_24_characters(345);\n",
     "var p;\ndefine a_name_of_24_characte_12 as slen = 12;\ndefine a_name_of_24_charact_345 as slen = 345;\n"
     "infer a_name_of_24_characte_12 || a_name_of_24_charact_345;\n"),
    ("constants of a used file", 'use "limits.dc";\nvar p;\ninfer []([[p]] => slen < limit - 1);\n', "var p;\ninfer []([[p]] => slen < 29);\n"),
    ("statements in one line", "const n = 3; var p; infer slen = n;", "var p; infer slen = 3;"),
    ("blanks, a star after a number, and comments stay",
     "var  p ;\r\n\r\n  // of (n + 1)\r\ninfer  (slen = 2) * ^ slen = 3* ;\r\n", "var  p ;\r\n\r\n  // of (n + 1)\r\ninfer  (slen = 2) * ^ slen = 3* ;\r\n"),
)

LIBRARY = """// What others use.
var p, q;
define first(p) as <p> || [!p] ^ <p>;
define late(p, q, n) as [[!q]] && first(p) ^ slen >= n;
define served(p, q, n) as !(late(p, q, n) ^ true);
define first_of(p) as first(p);
infer served(p, q, 3);
"""

FAULTS = (
    ("var p;\ninfer slen = n + 1;\n", "2:14: n is no constant, and no number of this macro"),
    ("const n = 3;\nvar p;\ninfer slen = n - 4;\n", "3:14: this is -1, and a number is 0 to 9999"),
    ("const n = 9000;\nvar p;\ninfer slen = n + n;\n", "3:14: this is 18000, and a number is 0 to 9999"),
    ("const n = 3;\nconst n = 4;\nvar p; infer <p>;\n", "2:7: the constant n is there already"),
    ("const n = ;\nvar p; infer <p>;\n", "1:7: a constant is written const NAME = 20;"),
    ("const n = 3 4;\nvar p; infer <p>;\n", "1:13: a number is expected here: numbers and constants, joined by + and -"),
    ("const p = 3;\nvar p;\ninfer <p>;\n", "1:7: p is a constant, and a variable or a macro too"),
    ("var p\nconst n = 3;\ninfer <p>;\n", "2:1: a ; is missing before const"),
    ("var p;\ndefine f(n) as slen = n\ninfer f(3);\n", "3:1: fault syntax"),
    ("var p;\ndefine f(q, n) as [[q]] && slen = n;\ninfer f(p);\n", "3:7: f has 2 parameters (q, n), and 1 arguments stand here"),
    ("var p;\ndefine f(q, n) as [[q]] && slen = n;\ninfer f(p, p);\n", "3:12: p is no constant, and no number of this macro"),
    ("var p;\ndefine f(q, n) as [[q]] && slen = n;\ninfer f(p, 3 && 4);\n", "3:14: the argument n of f is a number"),
    ("var p;\ninfer f(3);\ndefine f(n) as slen = n;\n", "2:7: f is defined below"),
    ('use "nothing.dc";\nvar p;\ninfer <p>;\n', '1:5: there is no file "nothing.dc"'),
    ("use lib;\nvar p;\ninfer <p>;\n", "1:5: use takes the name of a file in quotes"),
    ('use "self.dc";\nvar p;\ninfer <p>;\n', '1:5: "self.dc" uses itself by this'),
    ("const n = 3;\nvar p;\ninfer slen = n && <r>;\n", "3:20: fault unknown"),
    ("const hours = 1000;\nvar p;\ninfer slen = hours && [p p];\n", "3:26: fault syntax"),
    ("const n = 3;\nvar p;\ndefine f(q, n) as\n  [[q r]] && slen = n;\ninfer f(p, n) && f(p, 4);\n", "4:7: fault syntax"),
    ("const n = 3;\nvar p;\ninfer slen = n\n", "3:15: fault syntax, at the end of the text"),
    ("const n = 3;\nvar p;;\ninfer slen = n;\n", "2:7: fault syntax"),
    ("const n = 3", "1:12: a ; is missing at the end"),
    ("const n = 3\nvar p; infer <p>;", "2:1: a ; is missing before var"),
    ("const n = 3;\nvar p;\ndefine f as [[p r]]\ninfer f && slen = n;\n", "3:17: fault syntax"),
    ('use "lib.dc"; use "other.dc";\nvar p;\ninfer first(p);\n', "3:7: several of the used files define first"),
    ('use "broken.dc";\nvar p;\ninfer f(p, 2);\n', "broken.dc:2:26: fault unknown"),
)


@needs_program
class Expand(WithFolder):
    def setUp(self):
        super().setUp()
        self.file("lib.dc", LIBRARY)
        self.file("limits.dc", "const limit = 30;\n")
        self.file("other.dc", "define first(p) as <p>;\n")
        self.file("broken.dc", "// A helper.\ndefine f(p, n) as [p] ^ <gone> && slen = n;\n")

    def expand(self, text, name="it.dc"):
        """The new text, and the lines of the fault: one of both is None."""
        path = self.file(name, text)
        made, fault = read(lambda: load(path, name), Program(PROGRAM))
        return made, "\n".join(fault) if fault else None

    def test_sources_and_their_files(self):
        for name, source, wanted in PAIRS:
            with self.subTest(name):
                self.assertEqual(self.expand(source), (wanted, None))
                self.assertEqual(self.expand(wanted), (wanted, None))

    def test_files_of_the_language_stay(self):
        for path in examples():
            with open(path, encoding="latin-1", newline="") as file:
                text = file.read()
            self.assertEqual(self.expand(text), (text, None))

    def test_the_command(self):
        status, out, err = run("ask", "expand", self.file("cafe.dc", "// caf\xc3\xa9\nconst n = 3;\nvar p; infer slen = n;"))
        self.assertEqual((status, out, err), (0, "// caf\u00e9\nvar p; infer slen = 3;", ""))
        status, out, err = run("ask", "expand", self.file("bad.dc", "const n = 3;\nvar p; infer slen = n - 4;"))
        self.assertEqual((status, out), (3, ""))
        self.assertIn("bad.dc:2:21: this is -1", err)

    def test_faults(self):
        for source, wanted in FAULTS:
            with self.subTest(wanted):
                made, fault = self.expand(source, "self.dc")
                self.assertIsNone(made)
                self.assertIn(wanted if "broken" in wanted else f"self.dc:{wanted}", fault)

    def test_an_empty_file(self):
        status, output, error = run("ask", "expand", self.file("empty.dc", ""))
        self.assertEqual((status, output), (3, ""))
        self.assertIn("empty.dc:1:1: fault syntax, at the end of the text", error)

    def test_a_fault_of_a_copy_names_its_numbers(self):
        self.assertIn("That is f with n = 2.", self.expand('use "broken.dc";\nvar p;\ninfer f(p, 2);\n')[1])

    def test_a_file_beside_the_one_that_uses_it(self):
        os.mkdir(os.path.join(self.folder, "deep"))
        self.file("deep/near.dc", 'use "far.dc";\ndefine near(p, n) as far(p, n + 1);\n')
        self.file("deep/far.dc", "define far(p, n) as scount p = n;\n")
        self.assertEqual(self.expand('use "deep/near.dc";\nvar q;\ninfer near(q, 1);\n')[0],
                         "var q;\ndefine far(p) as scount p = 2;\ndefine near(p) as far(p);\ninfer near(q);\n")


if __name__ == "__main__":
    unittest.main()
