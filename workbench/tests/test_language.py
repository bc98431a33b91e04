"""Trees written back and macros expanded: what is read back is the same tree, and the program says the same of it."""
import random
import unittest

from language import Fault, Tree, goal_text, parse, read_text, to_text, tokens
from names import expand
from program import Program, Refusal
from support import examples, needs_program

BINARY = ("and", "or", "chop", "iff")


def drawn_proposition(draw, depth):
    kind = draw.choice(("name", "p_true", "p_not", "prior", "next", "p_and", "p_or", "p_implies", "p_iff") if depth else ("name", "p_false"))
    if kind == "name":
        return Tree("name", (), draw.choice("xyz"))
    if kind in ("p_true", "p_false"):
        return Tree(kind)
    count = 1 if kind in ("p_not", "prior", "next") else 2 if kind == "p_implies" else draw.randint(2, 3)
    return Tree(kind, tuple(drawn_proposition(draw, depth - 1) for _ in range(count)))


def drawn_formula(draw, depth):
    kinds = ("point", "run", "every", "unit", "pt", "ext", "true", "slen", "scount", "sdur")
    kind = draw.choice(kinds + BINARY + ("implies", "not", "diamond", "box", "star", "ex", "all") if depth else kinds)
    if kind in ("pt", "ext", "true"):
        return Tree(kind)
    if kind in ("slen", "scount", "sdur"):
        parts = () if kind == "slen" else (drawn_proposition(draw, 1),)
        return Tree(kind, parts, (draw.choice(("=", "<", "<=", ">", ">=")), draw.randint(0, 3)))
    if kind in kinds:
        return Tree(kind, (drawn_proposition(draw, 2),))
    count = draw.randint(2, 3) if kind in BINARY else 2 if kind == "implies" else 1
    return Tree(kind, tuple(drawn_formula(draw, depth - 1) for _ in range(count)), draw.choice("xyw") if kind in ("ex", "all") else None)


def file_text(file):
    """The text of a whole file, a line for each macro."""
    lines = [f"var {', '.join(file.variables)};"] if file.variables else []
    for macro in file.listed:
        parameters = f"({', '.join(macro.parameters)})" if macro.parameters else ""
        lines.append(f"{macro.kind} {macro.name}{parameters} as {to_text(macro.body)};")
    return "\n".join(lines + [f"infer {to_text(file.goal)};", ""])


class Trees(unittest.TestCase):
    def test_written_back(self):
        draw = random.Random(5)
        for _ in range(2000):
            tree = drawn_formula(draw, 4)
            self.assertEqual(parse(goal_text("xyz", tree)).goal, tree, to_text(tree))

    def test_few_parentheses(self):
        for text in ("!<p>*", "(!<p>)*", "ex p. <p> && <q>", "(ex p. <p>) && <q>", "(<p> && <q>) && pt", "<p> => <q> => pt", "(<p> => <q>) => pt",
                     "<p> ^ <q> && pt || ext", "<p> ^ (<q> && (pt || ext))", "scount (p && q) >= 2", "scount !p >= 2", "[](<p> => <><q>)", "[[-p && !+q]]"):
            self.assertEqual(to_text(parse(f"infer {text};").goal), text)

    def test_places(self):
        text = "var p; infer // a comment\n (<p> && [[p]]) ^ slen = 3;"
        goal = parse(text).goal
        self.assertEqual([text[tree.start:tree.end] for tree in goal.walk()],
                         ["(<p> && [[p]]) ^ slen = 3", "<p> && [[p]]", "<p>", "p", "[[p]]", "p", "slen = 3"])
        self.assertEqual([token.text for token in tokens(text)][:4], ["var", "p", ";", "infer"])

    def test_faults(self):
        for text, place in (("infer pt & pt;", 9), ("infer pt", 8), ("infer pt pt;", 9), ("infer scount >= 2;", 13), ("infer pt; pt", 10)):
            with self.assertRaises(Fault) as found:
                parse(text)
            self.assertEqual(found.exception.place, place)

    def test_capture(self):
        """An argument keeps its meaning: the q of the argument is not the one that the macro quantifies."""
        file = parse("var q; define F(a) as (ex q. [[q <=> a]]); infer F(!q);")
        self.assertEqual(to_text(expand(file)), "ex q_2. [[q_2 <=> !q]]")

    def test_deep(self):
        parse(f"infer {'(' * 499}pt{')' * 499};")
        parse(f"var p; infer [[{'!' * 499}p]];")


@needs_program
class Examples(unittest.TestCase):
    def test_written_back(self):
        program = Program()
        for path in examples():
            with self.subTest(path=path):
                text = read_text(path)
                file = parse(text)
                first = program.run(["check", "/dev/stdin"], text)
                for again in (file_text(file), goal_text(file.variables, expand(file))):
                    self.assertEqual(program.run(["check", "/dev/stdin"], again), first)
                self.assertEqual(parse(file_text(file)), file)

    def test_drawn(self):
        """Drawn formulas, written back with macros in place of their parts, mean the same."""
        draw, program = random.Random(11), Program()
        for _ in range(60):
            tree = drawn_formula(draw, 2)
            text = goal_text("xyz", tree)
            called = f"var x, y, z;\ndefine f as {to_text(tree)};\ninfer f;\n"
            try:
                self.assertEqual(program.check(text), program.check(called))
                self.assertEqual(program.check(text), program.check(goal_text("xyz", expand(parse(called)))))
            except Refusal as refusal:
                self.assertEqual(refusal.fault.kind, "shift", text)
