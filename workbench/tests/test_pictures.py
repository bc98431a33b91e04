"""Waves, pictures, automata as tables, the man page and the completion."""
import shutil
import subprocess
import unittest
import xml.dom.minidom

import pages
from commands import ASK, PROGRAM
from conditions import conditions
from pictures import COLOURS, Behaviour, rows_svg, vcd, waves_svg
from program import Program
from support import WithFolder, examples, needs_program, run
from waves import Column, HiddenChange, columns, in_line, spoken_runs, waves

FOLDED = ["10"] * 12 + ["01"] + ["00"] * 5 + ["11"] * 2


class Waves(unittest.TestCase):
    def test_folds(self):
        self.assertEqual(columns(FOLDED), [Column(0, 1), Column(1, 10), Column(11, 1), Column(12, 1), Column(13, 1), Column(14, 3), Column(17, 1),
                                           Column(18, 1), Column(19, 1)])
        self.assertEqual(waves(["p", "q"], FOLDED, 200), [
            "instant   0    ..  11 12 13   ..  17 18 19",
            "p       #### x10 ####_______ x3 ____######",
            "q       ____ x10 ____###____ x3 ____######"])
        self.assertEqual(in_line(FOLDED), "10 x12 01 00 x5 11 11")

    def test_plants(self):
        """A fold that hides a change, and one that leaves an instant out, are told."""
        for shown, said in (([Column(0, 20)], "hides a change at 12"), ([Column(0, 12), Column(12, 2), Column(14, 6)], "hides a change at 13"),
                            ([Column(0, 12), Column(13, 1)], "instant 12 is not shown"), ([Column(0, 12)], "instant 12 is not shown")):
            with self.assertRaisesRegex(HiddenChange, said):
                waves(["p", "q"], FOLDED, 200, shown)

    def test_width(self):
        word = [format(number % 4, "02b") for number in range(300)]
        lines = waves(["p", "q"], word, 80)
        self.assertLessEqual(max(map(len, lines)), 80)
        numbers = [int(number) for line in lines if line.startswith("instant") for number in line.split()[1:]]
        self.assertEqual(numbers, list(range(300)))

    def test_runs(self):
        self.assertEqual(spoken_runs("1110001"), "1 at 0 .. 2, 0 at 3 .. 5, 1 at 6")
        self.assertEqual(spoken_runs("1" * 4025 + "00"), "1 at 0 .. 4024, 0 from 4025")


class Pictures(WithFolder):
    def test_svg(self):
        """The colours come with the picture, or are left to a page; the marked instant is a column of its own in a fold of three."""
        text = waves_svg([Behaviour("a < b & c", ["p", "q"], FOLDED, 15), Behaviour("without variables", [], ["-"] * 3)])
        document = xml.dom.minidom.parseString(text)
        self.assertNotIn("<script", text)
        self.assertIn("10 more", text)
        said = [it.firstChild.data for it in document.getElementsByTagName("text")]
        self.assertEqual(said[said.index("14"):said.index("17") + 1], ["14", "15", "16", "17"])
        kinds = {it.getAttribute("class") for name in ("rect", "text", "path", "line") for it in document.getElementsByTagName(name)}
        self.assertLessEqual({"mark", "high", "high-folded", "line", "title"}, kinds)
        self.assertLessEqual(kinds, COLOURS.keys())
        self.assertNotIn("#", "".join(rows_svg(Behaviour("", ["p", "q"], FOLDED), 300)))

    @needs_program
    def test_glossary(self):
        fan, signals = self.file("fan.dc", "var hot, fan; // of all\ninfer [[hot => fan]];\n"), self.file("signals.txt", "hot // above 60\nidle // no\n")
        trace = self.file("a.trace", "10\n")
        for words in ((fan,), (fan, "--automaton"), (trace, "--names", "hot,fan")):
            out = run("ask", "draw", *words, "--signals", signals)[1]
            self.assertTrue(out.endswith("\n\n  hot: above 60\n"), out)
        self.assertNotIn("above", run("ask", "draw", fan)[1])
        self.assertTrue(run("ask", "review", fan, "--signals", signals)[1].endswith("\n\nWhat do the names mean?\n  hot: above 60\n"))

    def test_vcd(self):
        """Read back by its own rules, the dump says the word."""
        values, now, instant = {}, {}, 0
        body = vcd(["p", "q"], FOLDED).split("$enddefinitions $end\n")[1]
        for line in body.splitlines():
            if line.startswith("#"):
                for passed in range(instant, int(line[1:])):
                    values[passed] = now["!"] + now['"']
                instant = int(line[1:])
            elif line[0] in "01":
                now[line[1:]] = line[0]
        self.assertEqual([values[place] for place in range(len(FOLDED))], FOLDED)


@needs_program
class Automata(WithFolder):
    def test_conditions(self):
        """Of each state of each small example: every letter goes where its condition says, and nowhere else."""
        program = Program()
        for path in examples():
            with open(path, encoding="latin-1") as file:
                automaton = program.automaton(file.read())
            for state in range(min(automaton.states, 40)):
                found = conditions(automaton, state)
                for letter in automaton.letters():
                    true = [target for target, texts in found.items() if any(holds(text, automaton.variables, letter) for text in texts)]
                    self.assertEqual(true, [automaton.step(state, letter)], (path, state, letter))

    def test_arcs(self):
        for path in examples():
            out = self.folder + "/a.svg"
            status, _, error = run("ask", "draw", path, "--automaton", "--svg", out)
            if status == 2:
                self.assertRegex(error, r"has \d\d+ states; those of more than 12 are tables")
                continue
            self.assertEqual((status, error), (0, ""))
            with open(out, encoding="utf-8") as file:
                text = file.read()
            self.assert_inside(xml.dom.minidom.parseString(text))
            self.assertNotIn("<script", text)

    def assert_inside(self, document):
        """No text of a picture stands outside of it, by the width of its letters; and no two texts stand in the same place."""
        root = document.documentElement
        places = []
        for text in root.getElementsByTagName("text"):
            x, y, size = (float(text.getAttribute(name)) for name in ("x", "y", "font-size"))
            width = 0.602 * size * len(text.firstChild.data)
            left = x - {"start": 0, "middle": width / 2, "end": width}[text.getAttribute("text-anchor")]
            self.assertGreaterEqual(left, 0)
            self.assertLessEqual(left + width, float(root.getAttribute("width")))
            self.assertTrue(size <= y <= float(root.getAttribute("height")) - 2)
            places.append((left, y - 0.75 * size, left + width, y))
        for number, one in enumerate(places):
            for other in places[:number]:
                self.assertFalse(one[0] < other[2] and other[0] < one[2] and one[1] < other[3] and other[1] < one[3], (one, other))

    def test_draw(self):
        path = examples()[0].replace("alternation", "response")
        status, output, _ = run("ask", "draw", path)
        self.assertEqual(status, 0)
        self.assertIn("response.dc: a shortest behaviour that breaks it, 4 instants\n  instant   0  1  2  3\n  request ###_________\n", output)
        report = self.file("report", run("ask", "explain", "all", path)[1])
        self.assertEqual(run("ask", "draw", report)[1].replace("report:", "response.dc:"), output)
        trace = self.file("t.trace", "10\n00\n")
        self.assertIn("  request ###___\n", run("ask", "draw", trace, "--names", "request,grant")[1])
        self.assertIn("  request ###___\n", run("ask", "draw", trace, "--names", path)[1])
        status, _, error = run("ask", "draw", trace, "--names", "p")
        self.assertEqual((status, error), (2, "ask draw: there are 1 names for 2 variables\n"))
        automaton = self.file("a.auto", run("ask", "explain", "lustre", path)[1])
        self.assertEqual(run("ask", "draw", automaton)[0], 2)
        status, _, error = run("ask", "draw", self.file("bad.dc", "var p; infer [[p and p]];"))
        self.assertEqual(status, 3)
        self.assertIn("No fault is left if you write && for and.", error)
        self.assertEqual(run("ask", "draw", self.folder + "/missing")[0], 5)


def holds(condition, variables, letter):
    """Whether a letter fulfils a conjunction of literals."""
    if condition == "any":
        return True
    literals = condition.split(" && ")
    return all((letter[variables.index(it.lstrip("!"))] == "1") != it.startswith("!") for it in literals)


class Pages(unittest.TestCase):
    def test_man_page(self):
        page = pages.man_page()
        for command in PROGRAM + ASK:
            self.assertIn(command.name.replace("-", "\\-"), page)
        for option in ("--inputs", "--vcd", "--only", "--show"):
            self.assertIn(option.replace("-", "\\-"), page)
        if shutil.which("groff"):
            done = subprocess.run(["groff", "-man", "-Tascii", "-ww"], input=page.encode(), stdout=subprocess.PIPE, stderr=subprocess.PIPE)
            self.assertEqual(done.stderr, b"")

    @unittest.skipUnless(shutil.which("bash"), "there is no bash")
    def test_completion(self):
        rows = (("./dcvalid certi", "certify"), ("dcvalid check x --s", "--states"), ("ask dr", "draw"), ("./ask explain im", "implies"),
                ("./explain sy", "synth"), ("dcvalid check --states ", ""), ("dcvalid certify x --s", ""), ("ask draw x --v", "--vcd"))
        for line, wanted in rows:
            words = line.split(" ")
            script = pages.completion() + f"COMP_WORDS=({' '.join(word or chr(39) * 2 for word in words)}); COMP_CWORD={len(words) - 1}; _dcvalid; echo \"${{COMPREPLY[*]}}\""
            done = subprocess.run(["bash", "-c", script], stdout=subprocess.PIPE, stderr=subprocess.PIPE)
            self.assertEqual((done.stdout.decode().strip(), done.stderr.decode()), (wanted, ""), line)
