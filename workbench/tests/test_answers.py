"""Answers as ./explain says them, of a program that is a stub: every row is worked out by hand."""
import os
import shutil
import subprocess

from support import ROOT, WithFolder, run


class Answers(WithFolder):
    def said(self, *words, output="", error="", status=0, stdin=""):
        """What ./explain prints where the program answers this."""
        got = run("explain", *words, program=self.stub(output, error, status), stdin=stdin)
        self.assertEqual(got[0], status)
        return got[1], got[2]

    REPORT = "not valid\nsatisfiable\ncounterexample 2\n01\n00\nexample 1\n00\n"

    def test_table(self):
        output, _ = self.said("check", "--table", "--states", "5", "/dev/stdin", output=self.REPORT, status=1, stdin="var a, // b\n long_name; infer pt;")
        self.assertEqual(output, """not valid: some behaviour breaks the requirement
satisfiable: some behaviour meets it

A shortest behaviour that breaks it, 2 instants:
  instant  a  long_name
        0  0          1
        1  0          0

A shortest behaviour that meets it, 1 instant:
  instant  a  long_name
        0  0          0
""")

    def test_waves(self):
        output, _ = self.said("check", "/dev/stdin", output=self.REPORT, status=1, stdin="var a, // b\n long_name; infer pt;")
        self.assertIn("  instant     0  1\n  a         ______\n  long_name ###___\n", output)

    def test_together(self):
        """The names are those of the report, in its order; the place of a fault is in the file that the line names."""
        first, second = self.file("first.dc", "var p; infer [[p]];"), self.file("second.dc", "const n = 5; var q, p; infer [[r && p]] && slen < n;")
        report = "variables p q\npossible 1\n10\nstuck 2\n10\n11\n"
        output, _ = self.said("together", "--tuples", "5", first, first, second, output=report, status=1)
        self.assertEqual(output, """possible: some behaviour meets all the requirements
stuck: some behaviour keeps to all of them so far, and no next instant keeps to all

A shortest behaviour that meets all of them, 1 instant:
  instant   0
  p       ###
  q       ___

A shortest behaviour that keeps to all of them at each instant, and that no next instant continues, 2 instants:
  instant   0  1
  p       ######
  q       ___###
""")
        _, error = self.said("follows", first, first, second, error="fault unknown at 18 in file 3\n", status=3)
        self.assertTrue(error.startswith(f"{second}:1:32: fault unknown\n"), error)
        _, error = self.said("together", first, second, error="fault names at 4 in file 1\n", status=3)
        self.assertIn("first.dc:1:5: fault names", error)
        self.assertIn("32 names at most together; p is one more.", error)
        self.assertIn("--tuples N sets the limit", self.said("together", first, second, error="budget tuples 7\n", status=4)[1])

    def test_follows(self):
        text = self.file("text.dc", "var p; infer [[p]];")
        self.assertIn("follows: each behaviour that meets all the others", self.said("follows", text, text, output="variables p\nfollows\n")[0])
        output, _ = self.said("follows", "--table", text, text, output="variables p q\ndoes not follow 1\n01\n", status=1)
        self.assertIn("meets all the others and breaks the first, 1 instant:\n  instant  p  q\n        0  0  1\n", output)

    def test_budget(self):
        text = self.file("text.dc", "var p, q;\ninfer scount p = 200 && scount q = 200;")
        output, error = self.said("check", text, error="budget states 30000 at 16 step 2\n", status=4)
        self.assertEqual(output, "")
        self.assertTrue(error.startswith(f"{text}:2:7: over the budget\n"), error)
        self.assertIn("\nStep 2 of the formula, whose part of the text begins here, needs more than 30000 states.\n", error)

    def test_replays(self):
        observer = self.file("observer", "node observer(v_p: bool) returns (ok: bool);\nlet\n  ok = q;\ntel\n")
        text = self.file("text.dc", "var p; infer <p>;")
        output, error = self.said("replay-lustre", observer, text, output="1\n0\n", error="fault line 3\n", status=8)
        self.assertTrue(output.startswith("  1 at 0, 0 at 1\n"))
        self.assertIn("That line of the trace", error)
        output, _ = self.said("replay-lustre", "--table", observer, text, output="1\n0\n", error="fault line 3\n", status=8)
        self.assertEqual(output, "  instant 0: the behaviour so far is accepted\n  instant 1: it is not\n")
        output, _ = self.said("replay-c", observer, self.file("trace", "0\n" * 4030), output="1\n" * 4025 + "0\n" * 5)
        self.assertTrue(output.startswith("  1 at 0 .. 4024, 0 from 4025\n"))
        _, error = self.said("replay-lustre", observer, text, error="fault observer names at 56\n", status=9)
        self.assertIn("line 3", error)

    def test_what_was_answered_stays(self):
        observer = self.file("observer.c", "static int st;\n")
        trace = os.path.join(self.folder, "trace")
        output, error = self.said("replay-c", observer, trace, output="1\n0\n", error="fault read\n", status=5)
        self.assertTrue(output.startswith("  1 at 0, 0 at 1\n"))
        self.assertIn(f"The file {trace} could not be read", error)

    def test_programs(self):
        text = self.file("text.dc", "var p; infer <p>;")
        for command, said in (("c", "static int st;\n0\n}\n"), ("lustre", "node observer(v_p: bool)\n0\ntel\n")):
            self.assertEqual(self.said(command, text, output=said, status=1)[0], said)
        said = ("--- verdict\nnot valid\nnot satisfiable\ncounterexample 1\n0\n--- automaton\nautomaton 2\nvariables p\nend\n"
                "--- lustre\nnode observer(v_p: bool)\n0\ntel\n--- c\nstatic int st;\n0\n}\n")
        self.assertEqual(self.said("all", text, output=said, status=1)[0], said)

    def test_counts(self):
        output, _ = self.said("sweep", "0", "1", output="formulas 1\nvalid 0\nsatisfiable 1\nover 0\nstates 3\n")
        self.assertEqual(len(output.splitlines()), 5)
        self.assertTrue(output.startswith("1 formula over x, y and z"))
        self.assertIn("\n3 states in the minimal automata", output)

    def test_parts(self):
        text = self.file("text.dc", "var p;\ninfer true ^ <p>; // somewhere\n")
        steps = "step 0 at 13 states 1 nodes 0\nstep 1 at 20 states 3 nodes 2\nstep 2 at 13 states 4 nodes 2\n"
        output, _ = self.said("automaton", text, output=f"automaton 2\nvariables p\nstates 1\nsteps 3\n{steps}end\n", status=1)
        self.assertEqual(output.splitlines()[-3:], ["        4        2      2  2:7       true ^ <p>;", "        3        2      1  2:14      <p>;",
                                                    "        1        0      0  2:7       true ^ <p>;"])

    def test_bad_automaton(self):
        text = self.file("text.auto", "automaton 2\nvariables var\n")
        _, error = self.said("convert", text, "--to", "1", error="fault automaton table at 22\n", status=10)
        self.assertIn("line 2", error)

    def test_too_many_inputs(self):
        text = self.file("text.dc", "var a, b; infer pt;")
        _, error = self.said("synth", text, "--inputs", "3", error="fault outputs\n", status=3)
        self.assertIn("more than 8 outputs", error)

    def test_play(self):
        """Of a requirement by which the output of an instant has to be the input of the next."""
        strategy = "unrealisable\\nbound 2\\nstate 0 rank 2 input 0\\nstate 1 rank 1 input 1\\nstate 2 rank 1 input 0\\nend\\n"
        automaton = ("automaton 2\\nvariables a b\\nstates 4\\nnode n0 b ? t2 : t1\\nnode n1 a ? t3 : n0\\nnode n2 a ? n0 : t3\\nstate 0 reject n0\\n"
                     "state 1 accept n1\\nstate 2 accept n2\\nstate 3 reject t3\\nsteps 0\\nend\\n")
        game = self.file("game", f"#!/bin/sh\ncase $1 in synth) printf '{strategy}'; exit 1 ;; *) printf '{automaton}' ;; esac\n")
        os.chmod(game, 0o755)
        text = self.file("text.dc", "var a, b;\ninfer []({{b}} => true ^ <a>) && []({{!b}} => true ^ <!a>);\n")
        status, output, _ = run("explain", "synth", "--table", text, "--inputs", "1", program=game)
        self.assertEqual(status, 1)
        self.assertIn("broken within 2 instants", output)
        self.assertIn("  instant  a  b\n        0  0  0\n        1  1  ?\n", output)

    def test_commands(self):
        status, output, _ = run("ask")
        self.assertEqual(status, 0)
        self.assertIn("explain COMMAND ..", output)
        status, _, error = run("ask", "nothing")
        self.assertEqual(status, 2)
        self.assertIn("no command nothing", error)


class Built(WithFolder):
    """The repository's own program: it is built before it is asked, and nothing is built for words that are none. ./dcvalid is a stub here."""

    SCRIPT = """#!/bin/sh
cd "$(dirname "$0")"
echo "$*" >>calls
case $1 in
  --build) echo 'so much is proved' >&2; [ ! -e fails ] || exit 125; mkdir -p crates/dcvalid/out; cp stub crates/dcvalid/out/dcvalid ;;
  *) echo 'there is no such thing' >&2; exit 5 ;;
esac
"""

    def setUp(self):
        super().setUp()
        shutil.copytree(os.path.join(ROOT, "workbench"), os.path.join(self.folder, "workbench"), ignore=shutil.ignore_patterns("tests", "__pycache__"))
        for name in ("ask", "explain"):
            shutil.copy(os.path.join(ROOT, name), self.folder)
        os.chmod(self.file("dcvalid", self.SCRIPT), 0o755)
        self.stub("valid\nsatisfiable\nexample 1\n1\n", status=0)
        self.text = self.file("text.dc", "var p; infer pt;")

    def explained(self, *words):
        done = subprocess.run([os.path.join(self.folder, "explain"), *words], env={**os.environ, "DCVALID": ""}, stdout=subprocess.PIPE, stderr=subprocess.PIPE)
        calls = os.path.join(self.folder, "calls")
        with open(calls) as file:
            said = file.read().splitlines()
        os.remove(calls)
        return done.returncode, done.stdout.decode().split("\n")[0], done.stderr.decode(), said

    def test_builds_once(self):
        for _ in range(2):
            self.assertEqual(self.explained("check", self.text), (0, "valid: each behaviour meets the requirement", "so much is proved\n", ["--build"]))

    def test_fails(self):
        self.file("fails", "")
        self.assertEqual(self.explained("check", self.text), (125, "", "so much is proved\n", ["--build"]))

    def test_what_needs_no_program_builds_none(self):
        shutil.copytree(os.path.join(ROOT, "patterns"), os.path.join(self.folder, "patterns"))
        for words in (("expand", self.text), ("pattern", "absence"), ("patterns",), ("draw", self.file("a.trace", "0\n")), ("register", self.folder)):
            done = subprocess.run([os.path.join(self.folder, "ask"), *words], env={**os.environ, "DCVALID": ""}, stdout=subprocess.PIPE, check=False)
            self.assertEqual((done.returncode, os.path.exists(os.path.join(self.folder, "calls"))), (0, False), words)

    def test_no_build(self):
        for words in (["chek", self.text], ["check", self.folder + "/missing"], ["implies", self.text, "missing"], ["--version"]):
            self.assertEqual(self.explained(*words), (5, "", "there is no such thing\n", [" ".join(words)]))
