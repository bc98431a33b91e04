"""Faults as ./explain says them: the place, the hint, what may stand there, and the one change. The rows are worked out by hand."""
import contextlib
import io
import os
import re

import explain
import faults
import repairs
import support
from program import Program
from support import WithFolder, needs_program, run

# text, kind, offset, row, column on the screen, and a word of the hint
PLACES = (
    ("infer pt & pt;", "byte", 9, 1, 10, "Write &&"),
    ("infer <p> | pt;", "byte", 10, 1, 11, r"Write \|\|"),
    ("var p;\ninfer {p};", "byte", 13, 2, 7, r"\{\{p\}\}"),
    ("infer pt -> pt;", "syntax", 9, 1, 10, "Write =>"),
    ("var p, q; infer [[p - q]];", "syntax", 20, 1, 21, "arithmetic"),
    ("\xef\xbb\xbfinfer pt;", "byte", 0, 1, 1, "byte order mark"),
    ("// \xe2\x89\xa4\nvar p; infer \xe2\x89\xa4;", "byte", 20, 2, 14, "no ASCII"),
    ("var p\ninfer <p>;\n", "syntax", 6, 2, 1, "end of line 1"),
    ("var p\r\ninfer <p>;\r\n", "syntax", 7, 2, 1, "end of line 1"),
    ("var p; // a comment;\ninfer <p>\n // more\n", "syntax", 40, 2, 10, "whole"),
    ("infer pt", "syntax", 8, 1, 9, "whole"),
    ("infer pt; infer pt;", "syntax", 10, 1, 11, "one goal"),
    ("var p; infer slen != 3;", "syntax", 18, 1, 19, "!="),
    ("\tvar p;\n\tinfer\t[[r]];", "unknown", 17, 2, 10, "spelt"),
    ("var p; infer p;", "kind", 13, 1, 14, "<p>"),
    ("var p,p;infer pt;", "duplicate", 6, 1, 7, "second time"),
    ("define f(a) as [[a]]; infer f;", "arity", 28, 1, 29, "arguments"),
    ("infer slen = 10000;", "number", 13, 1, 14, "9999"),
    ("", "syntax", 0, 1, 1, "The file is empty"),
    ("  \n\n", "syntax", 4, 1, 1, "The file is empty"),
    ("var p; define p as pt; infer pt;", "taken", 14, 1, 15, "already"),
    ("var p; infer ex q. [[+q]];", "shift", 21, 1, 22, "no value of its own"),
    ("var " + "x" * 25 + "; infer pt;", "name", 4, 1, 5, "this one has 25"),
    ("var p, q; infer G(p => F q);", "syntax", 25, 1, 26, "no G, F, X and U"),
    ("var p, q; infer <p> U <q>;", "syntax", 20, 1, 21, "no G, F, X and U"),
    ("var p; infer slen <= 10_000;", "byte", 23, 1, 24, "digits alone"),
    ("var p; define f(a) as [[a]]; infer f(3);", "syntax", 37, 1, 38, "Arguments are propositions"),
    ("var p, q, infer <p>;", "syntax", 10, 1, 11, "no comma"),
    ("automaton 2\nvariables p\n", "syntax", 0, 1, 1, "This is the text of an automaton"),
    ("not valid\nsatisfiable\n", "syntax", 0, 1, 1, "This is a report of check"),
)

# text, what may stand at the fault, and the one change after which no fault is left
MISTAKES = (
    ("var p, q; infer [[p and q]];", "an operator && || => <=>, an end ]]", "write && for and"),
    ("var p, q; infer [p] [q];", "an operator ^ && || => <=> *, an end ;", "put &&, ||, =>, <=> or ^ before ["),
    ("var p; infer scount p => 3;", "a comparison = < <= > >=", "write >= for =>"),
    ("var p; infer slen => 3;", "a comparison = < <= > >=", "write >= for =>"),
    ("var q; infer ex q: <q>;", "an end .", "write . for :"),
    ("var q; infer ex q. <q> ^ <q>", "an operator ^ && || => <=> *, an end ;", "put ; after >"),
    ("infer pt & pt;", "an operator ^ && || => <=> *, an end ;", "write && for &"),
    ("var p; infer <p> | pt;", "an operator ^ && || => <=> *, an end ;", "write || for |"),
    ("infer pt -> pt;", "an operator ^ && || => <=> *, an end ;", "write => for ->"),
    ("var p, q; infer [[p -> q]];", "an operator && || => <=>, an end ]]", "write => for ->"),
    ("var p, q; infer [[p == q]];", "an operator && || => <=>, an end ]]", "write <=> for =="),
    ("var p, q; infer [[p != q]];", "an operator && || => <=>, an end ]]", "write !(p <=> q) for p != q"),
    ("var p; infer slen != 3;", "a comparison = < <= > >=", "write !(slen = 3) for slen != 3"),
    ("var p; infer slen == 3;", "a number 0 .. 9999", "write = for =="),
    ("var p; infer count p <= 3;", "an operator ^ && || => <=> *, an end ;", "write scount for count"),
    ("var p; infer slen \xe2\x89\xa4 3;", "a comparison = < <= > >=", "write <= for \u2264"),
    ("var p; infer slen <= 1_000;", "an operator ^ && || => <=> *, an end ;", "write 1000 for 1_000"),
    ("var p, q, infer <p>;", "a new name", "write ; for ,"),
    ("var p; infer slen <= n;", "a number 0 .. 9999", "write a number for n"),
    ("var p; infer sdur p < ;", "a number 0 .. 9999", "put a number before ;"),
    ("var p, q; infer scount p && q >= 2;", "a comparison = < <= > >=", "write scount (p && q) for scount p && q"),
    ("var p infer <p>;", "an end , ;", "put ; before infer"),
    ("var p\ninfer <p>;", "an end , ;", "put ; after p"),
    ("var p; infer {p};", "a formula < [ [[ {{ <> [] ! ( slen scount sdur pt ext true false ex all", "write {{p}} for {p}"),
    ("infer pt", "an operator ^ && || => <=> *, an end ;", "put ; after pt"),
    ("infer pt; infer pt;", "the end of the text", None),
    ("var p; infer [[p]] && ;", "a formula < [ [[ {{ <> [] ! ( slen scount sdur pt ext true false", "leave out && in front of it"),
    ("var p; infer ([[p]];", "an operator ^ && || => <=> *, an end )", "put ) before ;"),
    ("var p; infer [[p]]);", "an operator ^ && || => <=> *, an end ;", "leave out )"),
    ("var p; infer [[p];", "an operator && || => <=>, an end ]]", "write ]] for ]"),
    ("var p; infer <p>>;", "an operator ^ && || => <=> *, an end ;", "leave out >"),
    ("var p; define f(a) = [[a]]; infer f(p);", "a word as", "write as for ="),
    ("var p: bool; infer [[p]];", "an end , ;", "leave out : bool"),
    ("bool p; infer [[p]];", "a word var define prop infer", "write var for bool"),
    ("var p; infer [[p]] /* always */;", "an operator ^ && || => <=> *, an end ;", "leave out /* always */"),
    ("var p; infer forall q. <q>;", "an operator ^ && || => <=> *, an end ;", "write all for forall"),
    ("var p; infer [[p]] ^ ex q. <q>;", "a formula < [ [[ {{ <> [] ! ( slen scount sdur pt ext true false",
     "write (ex q. <q>) for ex q. <q>"),
    ("var door-open; infer [[door-open]];", "an end , ;", "write door_open for door-open everywhere"),
    ("var p; infer !<p>;;", "the end of the text", "leave out ;"),
    ("var p; infer [[<p>]];", "a proposition p ! - + ( true false", "write [[p]] for [[<p>]]"),
    ("var p; infer [[~p]];", "a proposition p ! - + ( true false", "write ! for ~"),
    ("var p; prop g as p; infer [[g && ]];", "a proposition p g ! - + ( true false", "put p or g before ]], or leave out && in front of it"),
    ("define f as pt; infer f ^ ;", "a formula f < [ [[ {{ <> [] ! ( slen scount sdur pt ext true false", "put f before ;, or leave out ^ in front of it"),
    ("var p; infer {{p}} {{p}};", "an operator ^ && || => <=> *, an end ;", "put &&, ||, =>, <=> or ^ before {{"),
    ("var 1p; infer pt;", "a new name", "leave out 1"),
    ("var p; # first\ninfer [[p]];", "a word define prop infer", "write // for #"),
    ("define f(x) as [[x]] var p; infer f(p);", "an operator ^ && || => <=> *, an end ;", None),
    ("var request; infer [[reqest]];", None, "write request for reqest"),
    ("var p; infer p;", None, "write [[p]] for p"),
    ("var p; define f(a) as [[a]]; infer [[f(p)]];", None, "write f(p) for [[f(p)]]"),
)


@needs_program
class Faults(WithFolder):
    def explained(self, text):
        status, output, error = run("explain", "check", self.file("text.dc", text))
        self.assertEqual((status, output), (3, ""), text)
        return error.splitlines()

    def in_this_process(self, path):
        """What `explain check` does, without the start of a Python for each file."""
        streams = io.StringIO(), io.StringIO()
        with contextlib.redirect_stdout(streams[0]), contextlib.redirect_stderr(streams[1]):
            status = explain.main(["check", path], Program())
        return (status, *(stream.getvalue() for stream in streams))

    def test_places(self):
        paths = [self.file(f"text{number}.dc", row[0]) for number, row in enumerate(PLACES)]
        plain = support.each(lambda path: run(os.path.abspath(support.PROGRAM), "check", path), paths)
        said = [self.in_this_process(path) for path in paths]
        self.assertEqual(run("explain", "check", paths[0]), said[0])
        for (text, kind, offset, row, column, hint), path, answer, explained in zip(PLACES, paths, plain, said):
            with self.subTest(text=text):
                self.assertEqual((answer[0], answer[2].strip()), (3, f"fault {kind} at {offset}"))
                self.assertEqual(explained[:2], (3, ""))
                lines = explained[2].splitlines()
                self.assertTrue(lines[0].startswith(f"{path}:{row}:{column}: fault {kind}"), lines[0])
                self.assertEqual(len(lines[2]), column + 8)
                self.assertRegex("\n".join(lines[3:]), hint)

    def test_mistakes(self):
        program = Program()

        def described(row):
            message = program.run(["check", "/dev/stdin"], row[0]).error.strip()
            return "\n".join(faults.described("text.dc", row[0], message, program))

        for (text, stands, change), said in zip(MISTAKES, support.each(described, MISTAKES)):
            with self.subTest(text=text):
                found = re.search(r"^  May stand here: (.*)$", said, re.M)
                self.assertEqual(found and found.group(1), stands)
                found = re.search(r"^  No fault is left if you (.*)\.$", said, re.M)
                self.assertEqual(found and found.group(1), change)

    def test_no_wrong_hint(self):
        for text, wrong in (("var p, q; infer [p] [q];", "scount"), ("var p; infer <p>>;", "Relations")):
            self.assertNotIn(wrong, "\n".join(self.explained(text)))

    def test_long_line(self):
        lines = self.explained("var p; infer [[p]]" + " " * 200_000 + "[[p]];")
        self.assertLess(max(map(len, lines)), 200)
        self.assertEqual(lines[1][lines[2].index("^"):][:5], "[[p]]")

    def test_repaired_texts(self):
        """One likely change alone, or each that fits, in texts that the program takes."""
        rows = (
            ("var p; infer [[p and p]];", [("write && for and", "var p; infer [[p && p]];")]),
            ("var pump; infer <pmp>;", [("write pump for pmp", "var pump; infer <pump>;")]),
            ("var p; infer <p>;;", [("leave out ;", "var p; infer <p>; ")]),
        )
        program = Program(support.PROGRAM)
        for text, wanted in rows:
            fault = program.fault(text)
            tokens = repairs.may_stand(program, text, fault.place) if fault.kind == "syntax" else []
            found = repairs.repairs(program, text, fault, tokens)
            self.assertEqual([(it.phrase, it.text) for it in found], wanted)

    def test_changes_are_told_by_the_script(self):
        self.assertIn("  No fault is left if you write && for and.", self.explained("var p, q; infer [[p and q]];"))


@needs_program
class Files(WithFolder):
    """Which file could not be opened or read, and which kind of file it is."""

    def test_unread(self):
        text = self.file("text.dc", "var p; infer <p>;")
        observer = self.file("observer.c", run("ask", "explain", "c", text)[1])
        missing, folder = self.folder + "/missing", self.folder
        rows = (
            ("fault open", missing, "check", missing), ("fault read", folder, "check", "--states", "5", folder),
            ("fault open", missing, "implies", text, missing), ("fault open", missing, "implies", missing, "--nodes", "9", text),
            ("fault open", missing, "replay-c", observer, missing), ("fault read", folder, "replay-c", observer, folder),
        )
        for line, named, *words in rows:
            with self.subTest(words=words):
                status, output, error = run("explain", *words)
                self.assertEqual((status, output), (5, ""))
                self.assertTrue(error.startswith(f"{line}\nThe file {named} could not be "), error)

    def test_read_once(self):
        text = self.file("text.dc", "var p; infer <p>;")
        status, output, _ = run("explain", "implies", text, "/dev/stdin", stdin="var p; infer pt;")
        self.assertEqual(status, 0)
        self.assertIn("implies: each behaviour", output)
        status, _, error = run("explain", "implies", text, "/dev/stdin", stdin="var p;\ninfer <p> & pt;")
        self.assertEqual(status, 3)
        self.assertTrue(error.startswith("/dev/stdin:2:11: fault byte"), error)

    def test_kinds(self):
        formula = self.file("text.dc", "var p; infer [[p]];")
        trace = self.file("t.trace", "1\n0\n")
        observer = self.file("observer.c", run("ask", "explain", "c", formula)[1])
        tables = self.file("tables.c", run("ask", "explain", "tables", formula)[1])
        wrong = self.file("wrong.c", run("ask", "explain", "tables", formula)[1].replace("row[states] = {\n  ", "row[states] = {\n  99"))
        rows = (
            (10, "This is a formula file", "certify", formula), (9, "This is a trace", "replay-c", trace, trace),
            (9, "which replay-c runs", "replay-lustre", observer, trace), (8, "This is a formula file", "replay-c", observer, formula),
            (9, "which replay-tables runs", "replay-c", tables, trace), (9, "which replay-c runs", "replay-tables", observer, trace),
            (9, "breaks a rule of tables", "replay-tables", wrong, trace),
        )
        for wanted, said, *words in rows:
            status, _, error = run("explain", *words)
            self.assertEqual(status, wanted)
            self.assertIn(said, error)
