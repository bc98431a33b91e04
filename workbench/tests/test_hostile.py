"""Inputs and programs that mean no good: each has a named refusal, no wrong answer, and no traceback. Each row was answered wrongly once."""
import os
import re
import signal
import subprocess
import sys
import time
import unittest
import xml.dom.minidom

from support import PROGRAM, ROOT, WithFolder, each, needs_program, run

sys.path.insert(0, os.path.join(ROOT, "workbench"))
from answers import Malformed, check_shape, words_of  # noqa: E402
from automaton import read_automaton  # noqa: E402
from catalogue import call_of  # noqa: E402
from expansion import Expansion  # noqa: E402
from library import patterns  # noqa: E402
from logs import LogFault, rows_of  # noqa: E402
from program import Program, Refusal  # noqa: E402
from pattern import source_text  # noqa: E402
from sources import Source, load  # noqa: E402

ALWAYS = "var p;\ninfer [[p]];\n"
RESPONSE = os.path.join(ROOT, "examples", "response.dc")
COMMANDS = (("review",), ("tables",), ("tests",), ("draw",), ("draw", "--automaton"), ("verify",), ("explain", "check"), ("explain", "automaton"),
            ("explain", "implies"), ("explain", "c"), ("explain", "all"), ("set",), ("watch",))


@needs_program
class Programs(WithFolder):
    """Programs that are killed, or that answer with something else."""

    def program(self, text):
        path = self.file("program", "#!/bin/bash\n" + text.replace("REAL", f"'{os.path.abspath(PROGRAM)}'"))
        os.chmod(path, 0o755)
        return path

    def words(self, command):
        path = self.file("p.dc", ALWAYS)
        more = [path] if command[-1] == "implies" else [self.file("l.csv", "t,p\n1,1\n2,1\n3,1\n4,0\n5,0\n")] if command == ("watch",) else []
        return [*command, path, *more]

    def test_no_program_that_is_killed_answers(self):
        asks = (lambda it: it.check(ALWAYS), lambda it: it.automaton(ALWAYS), lambda it: it.implies(ALWAYS, ALWAYS), lambda it: it.stuck(ALWAYS),
                lambda it: it.observer(ALWAYS), lambda it: it.replay("", ["1", "0"]), lambda it: it.fault("infer"), lambda it: it.observer(ALWAYS, "lustre"),
                lambda it: it.together([ALWAYS, ALWAYS]), lambda it: it.follows(ALWAYS, [ALWAYS]))
        for text in ("kill -9 $$", "exit 0", "exit 1", "echo valid", "exit 77", "exit 255", 'REAL "$@"; kill -15 $$', 'REAL "$@" | head -n 3; kill -9 $$'):
            program = Program(self.program(text))
            for number, ask in enumerate(asks):
                with self.subTest(text=text, ask=number), self.assertRaises(Refusal) as caught:
                    ask(program)
                self.assertEqual(caught.exception.status, 125)

    def test_no_command_answers_by_a_program_that_is_killed(self):
        program = self.program('REAL "$@" | head -n 3; kill -9 $$')
        asked = each(lambda command: run("ask", *self.words(command), program=program), COMMANDS)
        for command, (status, out, err) in zip(COMMANDS, asked):
            self.assertEqual((status, "SIGKILL" in err, err.count("\n")), (125, True, 1), (command, out, err))
            self.assertNotRegex(out, "holds|words|0 states|valid")

    def test_a_replay_that_ends_early(self):
        """The log is broken at instant 3, and three answers are there."""
        program = self.program('case $1 in replay-tables) REAL "$@" | head -n 3; kill -9 $$;; *) exec REAL "$@";; esac')
        status, out, err = run("ask", *self.words(("watch",)), program=program)
        self.assertEqual((status, out), (125, ""))
        self.assertIn("ended by SIGKILL", err)
        program = self.program('case $1 in replay-tables) REAL "$@" | head -n 3;; *) exec REAL "$@";; esac')
        status, out, err = run("ask", *self.words(("watch",)), program=program)
        self.assertEqual((status, out), (125, ""))
        self.assertIn("3 lines for 5 instants", err)

    def test_no_text_that_is_cut_off_is_read(self):
        program = Program(PROGRAM)
        for goal in ("[[p]]", "true ^ <p>", "scount p = 2"):
            text = f"var p; infer {goal};"
            automaton, report = program.automaton_text(text), program.ask("check", text).output
            for end in range(len(automaton)):
                self.assertRaises(Malformed, read_automaton, automaton[:end])
            for end in range(len(report)):
                self.assertRaises(Malformed, check_shape, "check", 1, report[:end])
        first, second = "var p; infer [[p]];", "var p; infer slen <= 2;"
        for command, texts in (("together", (first, second)), ("follows", (second, first))):
            report = program.ask(command, *texts).output
            for end in range(len(report)):
                self.assertRaises(Malformed, check_shape, command, 1, report[:end])
        self.assertRaises(Malformed, words_of, "not valid\nsatisfiable\ncounterexample 2\n0\nexample 1\n1\n")
        self.assertRaises(Malformed, words_of, "counterexample 2\n0\n01\n")
        for name, text in (("a.auto", automaton[:-5]), ("b.report", "not valid\nsatisfiable\ncounterexample 1\n"),
                           ("c.auto", "automaton 1\nvariables p\nstates 1\nnode n0 q ? t0 : t1\n")):
            status, out, err = run("ask", "draw", self.file(name, text))
            self.assertEqual((status, out), (10, ""))
            self.assertIn(name, err)

    def test_what_the_workbench_asks_wrongly_is_its_own_fault(self):
        self.assertTrue(Refusal(3, "fault size at 3").over_limits)
        self.assertFalse(Refusal(3, "fault syntax at 3").over_limits)
        program = self.program('case $1 in implies) echo "fault syntax at 3 in second" >&2; exit 3;; *) exec REAL "$@";; esac')
        status, _, err = run("ask", "review", self.file("p.dc", ALWAYS), program=program)
        self.assertEqual(status, 125)
        self.assertIn("a fault of the workbench", err)


@needs_program
class Answers(WithFolder):
    def test_parts_of_equal_trees_have_their_own_lines(self):
        """In p everywhere and then p everywhere, only the second can be left earlier: q follows it."""
        _, out, _ = run("ask", "review", self.file("a.dc", "var p, q;\ninfer [[p]] ^\n[[p]] ^ <q>;\n"))
        boundaries = out.split("Is each number")[1].split("What does each")[0]
        self.assertEqual(re.findall(r"line \d: .*", boundaries), ["line 2: [[p]]", "line 3: [[p]]"])
        self.assertEqual(boundaries.count("bad now, good then"), 1)
        _, out, _ = run("ask", "review", self.file("b.dc", "var p;\ninfer (slen > 2 <=>\n slen > 2) <=> [p];\n"))
        boundaries = out.split("Is each number")[1].split("What does each")[0]
        self.assertEqual(re.findall(r"line \d: slen > 2", boundaries), ["line 2: slen > 2", "line 3: slen > 2"])

    def test_a_comment_at_the_end_and_a_part_that_touches_a_word(self):
        goal = "var p, q;\ninfer !(<p> ^ slen >= 3 ^ <q>)%s;\n"
        plain = run("ask", "review", self.file("c.dc", goal % ""))[1]
        self.assertIn("What does it look like when it holds", plain)
        self.assertEqual(run("ask", "review", self.file("c.dc", goal % "   // no q after p\n"))[1], plain)
        touching, apart = "var p;\ndefine f as%s!<p>;\ninfer f || <p> || true;\n" % "", "var p;\ndefine f as !<p>;\ninfer f || <p> || true;\n"
        said = run("ask", "review", self.file("d.dc", apart))[1]
        self.assertIn("!<p> may be false", said)
        self.assertEqual(run("ask", "review", self.file("d.dc", touching))[1], said)

    def test_the_shared_code_of_tables_stays(self):
        for name in ("observer.dc", "Observer.dc"):
            self.assertEqual(run("ask", "tables", self.file(name, ALWAYS), "--out", self.folder, "--code")[0], 0)
            with open(os.path.join(self.folder, "observer_tables.h"), encoding="ascii") as file:
                self.assertIn("observer_tables_step", file.read())
        self.assertEqual(run("ask", "tables", RESPONSE, "--out", self.folder, "--name", "observer")[0], 2)

    def test_no_trace_of_another_suite_stays(self):
        out = os.path.join(self.folder, "out")
        run("ask", "tests", RESPONSE, "--out", out)
        self.file("out/mine.trace", "0\n")
        _, said, _ = run("ask", "tests", self.file("p.dc", ALWAYS), "--out", out)
        self.assertIn("19 traces of another suite were removed", said)
        self.assertEqual(len(os.listdir(out)), 2 * 4 + 1)

    def test_a_file_that_is_named_like_a_command(self):
        self.file("synth", "var a, b; infer [[a]];")
        done = subprocess.run([os.path.join(ROOT, "ask"), "explain", "synth", "synth", "--inputs", "1"], cwd=self.folder, stdout=subprocess.PIPE,
                              env={**os.environ, "DCVALID": os.path.abspath(PROGRAM)}, check=False)
        self.assertEqual(done.returncode, 1)
        self.assertIn(b"broken within 1 instant", done.stdout)

    def test_a_fault_at_the_end_of_a_file_of_the_most_bytes(self):
        """No token can be asked about there."""
        text = "infer pt &&;"
        _, _, err = run("explain", "check", self.file("a.dc", " " * (262_144 - len(text)) + text))
        self.assertIn("fault syntax", err)
        self.assertNotIn("May stand here", err)

    def test_calls_of_patterns_as_they_are_listed(self):
        """In the listing, in ./ask pattern and in a file that uses the pattern, parameters stand in one order: that of the macro."""
        listed = dict(re.findall(r"^  (\w+)\((.*)\)$", run("ask", "patterns")[1], re.M))
        found = patterns()
        self.assertEqual(len(found), 65)
        for it in found:
            with self.subTest(it.name):
                macro = next(definition for definition in load(it.path, it.path).definitions if definition.name == it.name)
                self.assertEqual(listed[it.name].split(", "), macro.parameters)
                self.assertEqual(call_of(it), f"{it.name}({listed[it.name]})")

    def test_a_call_as_listed_is_the_requirement(self):
        """A file that writes the call as it is listed is what ./ask pattern makes."""
        for it in patterns():
            values = {name: "5" if name in it.numbers else name for name in it.parameters}
            listed = re.sub(r"\w+", lambda match: values.get(match.group(), match.group()), call_of(it))
            text = f'use "patterns/{it.name}.dc";\nvar {", ".join(it.variables)};\ninfer {listed};\n'
            made = Source("", "made", source_text(it, values))
            bare = re.sub(r"//[^\n]*\n", "", Expansion(made).text)
            self.assertEqual(Expansion(Source("", "written", text)).text, bare, it.name)


class Logs(WithFolder):
    HEAD = "$timescale 1 ms $end\n$var wire 1 ! p $end\n$enddefinitions $end\n"
    FAULTS = (
        ("a.csv", "p\n1\n\n0\n", "3: the row is empty"),
        ("a.csv", "t,p\n1,1,0\n", "2: the row has 3 cells, and the header 2"),
        ("a.vcd", HEAD + "#0\nb10 !\n#1\n", "p is b10, which is no truth"),
        ("a.vcd", HEAD + "#0\nr0.1 !\n#1\n", "p is r0.1, which is no truth"),
        ("a.vcd", HEAD + "#\u00b2\n1!\n", "no time of 39 digits"),
        ("a.vcd", HEAD + "#" + "1" * 5000 + "\n1!\n", "no time of 39 digits"),
    )

    def test_faults(self):
        for name, text, said in self.FAULTS:
            with self.assertRaises(LogFault) as caught:
                path = os.path.join(self.folder, name)
                with open(path, "w", encoding="utf-8") as file:
                    file.write(text)
                list(rows_of(path, ["p"], {}))
            self.assertIn(said, str(caught.exception))

    def test_rows(self):
        def word(name, text, **more):
            return [letter for _, letter in rows_of(self.file(name, text), ["p"], {}, **more)]

        self.assertEqual(word("a.vcd", self.HEAD + "#0\n0!\n#5\n1!\n#5\n0!\n#6\n1!\n"), ["0", "0", "1"])
        self.assertEqual(word("a.vcd", self.HEAD + "#0\nb0001 !\n#1\nb0 !\n"), ["1", "0"])
        self.assertEqual(word("a.csv", '"a,b";p\nx;1\ny;0\n'), ["1", "0"])
        self.assertEqual(word("a.csv", f"t,p\n{'x' * 200_000},1\ny,0\n"), ["1", "0"])
        with self.assertRaisesRegex(LogFault, "there are 999999999999999 instants"):
            word("a.vcd", self.HEAD + "#0\n0!\n#999999999999999\n1!\n", period=1)

    @needs_program
    def test_a_long_run_after_the_first_violation(self):
        path = self.file("a.csv", "t,p\n0,1\n" + "".join(f"{instant},0\n" for instant in range(1, 5001)) + "5001,1\n")
        _, out, _ = run("ask", "watch", self.file("p.dc", ALWAYS), path)
        self.assertIn("2 .. 5000", out)
        self.assertEqual(run("ask", "watch", self.file("p.dc", ALWAYS), path, "--piece", "700")[1], out)


@needs_program
class Streams(WithFolder):
    def test_outputs_that_fail(self):
        for words in (("explain", "check", RESPONSE), ("patterns",), ("expand", RESPONSE)):
            line = f"'{os.path.join(ROOT, 'ask')}' {' '.join(words)}"
            for ending in (">/dev/full", "| true; exit ${PIPESTATUS[0]}", ">&-"):
                done = subprocess.run(["bash", "-c", f"{line} {ending}"], env={**os.environ, "DCVALID": PROGRAM}, stderr=subprocess.PIPE, check=False)
                self.assertNotIn(b"Traceback", done.stderr)
                self.assertEqual(done.returncode, 6 if ending != "| true; exit ${PIPESTATUS[0]}" else done.returncode, (line, ending))
        for words in (("draw", RESPONSE, "--svg", "/nowhere/x"), ("tests", RESPONSE, "--out", "/dev/null/x"), ("tables", RESPONSE, "--out", "/dev/null/x"),
                      ("set", RESPONSE, "--junit", "/nowhere/x")):
            status, _, err = run("ask", *words)
            self.assertEqual((status, "Traceback" in err), (6, False), words)

    def test_inputs_that_cannot_be_read(self):
        cases = [(command, path) for command in ("draw", "expand") for path in (self.folder, os.path.join(self.folder, "none"), "/dev/zero")]
        for (command, path), (status, out, err) in zip(cases, each(lambda words: run("ask", *words), cases)):
            if path == "/dev/zero":
                self.assertEqual((status, "262144 bytes at most" in err), (3, True))
            else:
                self.assertEqual((status, out, err.count("\n")), (5, "", 1), (command, path))

    def test_numbers(self):
        zeros = self.file("zeros.dc", f"var p; infer slen = {'0' * 5000}5;")
        for command in ("review", "draw", "verify", "expand"):
            self.assertEqual(run("ask", command, zeros)[0], 0, command)
        for text in ("const a = \xb2;\ninfer pt;\n", "infer slen = \xb2;\n"):
            status, _, err = run("ask", "expand", self.file("a.dc", text))
            self.assertEqual((status, "Traceback" in err), (3, False))
        self.assertEqual(run("ask", "watch", zeros, zeros, "--period", "\u00b2")[0], 2)

    def test_names_that_are_no_text(self):
        path = os.path.join(os.fsencode(self.folder), b"n\xff\x1b[31m.dc")
        with open(path, "w", encoding="ascii") as file:
            file.write(ALWAYS)
        drawn, junit = os.path.join(self.folder, "a.svg"), os.path.join(self.folder, "a.xml")
        for words in (("draw", "--svg", drawn), ("set", "--junit", junit), ("explain", "check")):
            for encoding in ("utf-8", "ascii"):
                done = subprocess.run([os.path.join(ROOT, "ask"), *words[:1 + (words[0] == "explain")], path, *words[1 + (words[0] == "explain"):]],
                                      env={**os.environ, "DCVALID": PROGRAM, "PYTHONIOENCODING": encoding}, stdout=subprocess.PIPE,
                                      stderr=subprocess.PIPE, check=False)
                self.assertIn(done.returncode, (0, 1), done.stderr)
                self.assertNotIn(b"\x1b", done.stdout + done.stderr)
        for written in (drawn, junit):
            xml.dom.minidom.parse(written)

    def test_dumps_that_others_read(self):
        dump = os.path.join(self.folder, "a.vcd")
        self.assertEqual(run("ask", "draw", self.file("a.trace", "10\n01\n"), "--names", "a b,$end", "--vcd", dump)[0], 0)
        wide = "".join("10"[place % 3 == 0] for place in range(200))
        with open(dump, encoding="ascii") as file:
            self.assertEqual(re.findall(r"\$var wire 1 (\S+) (\S+) \$end", file.read()), [("!", "a_b"), ('"', "_end")])
        self.assertEqual(run("ask", "draw", self.file("b.trace", wide + "\n"), "--vcd", dump)[0], 0)
        names = [f"variable_{place + 1}" for place in range(200)]
        self.assertEqual([letter for _, letter in rows_of(dump, names, {})], [wide])

    def test_what_is_stopped_leaves_nothing(self):
        room = os.path.join(self.folder, "tmp")
        os.mkdir(room)
        for number, wait in ((signal.SIGTERM, 0), (signal.SIGINT, 0), (signal.SIGTERM, 0.3)):
            process = subprocess.Popen([os.path.join(ROOT, "ask"), "review", os.path.join(ROOT, "examples", "gas_burner.dc")], stdout=subprocess.PIPE,
                                       stderr=subprocess.PIPE, env={**os.environ, "DCVALID": PROGRAM, "TMPDIR": room})
            while process.poll() is None and not any(name.startswith("ask-") for name in os.listdir(room)):
                time.sleep(0.01)  # until its folder is there, so that it knows of signals
            time.sleep(wait)
            process.send_signal(number)
            _, err = process.communicate()
            self.assertIn(process.returncode, (0, 128 + number))
            self.assertEqual((err, os.listdir(room)), (b"", []))


class Growth(WithFolder):
    """What grew exponentially or by squares: these end, in time that is not measured."""

    def test_files_that_are_used_twice_a_level(self):
        for level in range(1, 60):
            self.file(f"b{level}.dc", f'use "b{level - 1}.dc";\nuse "b{level - 1}.dc";\ndefine m{level} as pt;\ninfer pt;\n')
        self.file("b0.dc", "infer pt;\n")
        self.assertIn("m59", load(os.path.join(self.folder, "b59.dc"), "b59.dc").visible())

    def test_chains_of_used_macros(self):
        chain = "define m0 as pt;\n" + "".join(f"define m{level} as m{level - 1} && m{level - 1};\n" for level in range(1, 60))
        self.file("lib.dc", chain + "infer pt;\n")
        source = load(self.file("use.dc", 'use "lib.dc";\nuse "other.dc";\ninfer m59;\n' if self.file("other.dc", chain + "infer pt;\n") else ""), "use.dc")
        self.assertFalse(source.is_ambiguous(source.visible()["m59"][0]))

    def test_chains_that_are_too_long(self):
        """Of macros in another file, and of files."""
        self.file("lib.dc", "define m0 as pt;\n" + "".join(f"define m{level} as m{level - 1};\n" for level in range(1, 11_000)) + "infer pt;\n")
        for level in range(1, 300):
            self.file(f"f{level}.dc", f'use "f{level - 1}.dc";\ninfer pt;\n')
        self.file("f0.dc", "infer pt;\n")
        for text, said in (('use "lib.dc";\ninfer m10999;\n', "more than 1000 macros"), ('use "f299.dc";\ninfer pt;\n', "more than 100 files")):
            status, _, err = run("ask", "expand", self.file("a.dc", text))
            self.assertEqual((status, said in err), (3, True), err[-300:])

    @needs_program
    def test_suites_of_many_states(self):
        """248 p at most: each of the 250 states needs a suffix of its own, and the traces are few."""
        path, out = self.file("a.dc", "var p;\ninfer scount p <= 248;\n"), os.path.join(self.folder, "out")
        self.assertEqual(run("ask", "tests", path, "--out", out)[0], 0)
        self.assertLess(len(os.listdir(out)), 2 * 600)
        self.assertIn("weaker", run("ask", "tests", path, "--transitions", "--out", out)[1])

    def test_a_formula_of_20000_operands(self):
        status, _, err = run("ask", "verify", self.file("a.dc", f"var p; infer {' || '.join(['<p>'] * 20_000)};"))
        self.assertEqual(status, 3 if PROGRAM else 125)
        self.assertIn("the formula has 39999 parts", err)


if __name__ == "__main__":
    unittest.main()
