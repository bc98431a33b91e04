"""`register`: a table as a folder of files and back, and tables with slips."""
import os
import unittest

from support import WithFolder, each, needs_program, run

TABLE = """id;sentence;pattern;arguments
REQ-1;"Each ask is served; soon.";bounded_response;ask && !off, (served || off), 100
REQ-2;The door stays shut.;absence;open
"""
SLIPS = (
    ("id;pattern\n", "the first row has to be id;sentence;pattern;arguments"),
    ("id;sentence;pattern;arguments\nREQ-1;a;absence\n", "row 2 has 3 cells"),
    ("id;sentence;pattern;arguments\nREQ-1;a;absense;p\n", "there is no pattern absense; there is absence"),
    ("id;sentence;pattern;arguments\nREQ-1;a;absence;p, q\n", "absence(p) has 1 arguments, and 2 are there"),
    ("id;sentence;pattern;arguments\nREQ-1;a;bounded_response;p, q, r\n", "n of bounded_response(p, q, n) is a number"),
    ("id;sentence;pattern;arguments\nREQ-1;a;absence;p &\n", "is a proposition, and no p &"),
    ("id;sentence;pattern;arguments\nREQ-1;a;absence;p\nREQ-1;b;absence;q\n", "the id REQ-1 is there twice"),
    ("id;sentence;pattern;arguments\n../x;a;absence;p\n", "../x is no id"),
)


class Register(WithFolder):
    def test_there_and_back(self):
        table, folder = self.file("a.csv", TABLE), os.path.join(self.folder, "out")
        self.assertEqual(run("ask", "register", table, "--out", folder), (0, f"{folder}: 2 files\n", ""))
        self.assertEqual(run("ask", "register", folder), (0, TABLE, ""))
        self.file("out/own.dc", "// Something else.\nvar p; infer [[p]] ^ <!p>;\n")
        self.assertEqual(run("ask", "register", folder)[1], TABLE + "own;Something else.;-;\n")

    def test_slips(self):
        paths = [self.file(f"a{number}.csv", text) for number, (text, _) in enumerate(SLIPS)]
        answers = each(lambda path: run("ask", "register", path, "--out", os.path.join(self.folder, "none")), paths)
        for (text, said), (status, out, err) in zip(SLIPS, answers):
            self.assertEqual((status, out), (2, ""), text)
            self.assertIn(said, err)
        self.assertFalse(os.path.exists(os.path.join(self.folder, "none")))

    @needs_program
    def test_the_files_are_requirements(self):
        folder = os.path.join(self.folder, "out")
        run("ask", "register", self.file("a.csv", TABLE), "--out", folder)
        status, out, _ = run("ask", "set", *(os.path.join(folder, name) for name in os.listdir(folder)))
        self.assertEqual(status, 0)
        self.assertIn("The door stays shut.", out)


if __name__ == "__main__":
    unittest.main()
