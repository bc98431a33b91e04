"""`tables`: the arrays are the automaton, wrong ones are told, and compilers and a checker of C have nothing to say of them."""
import os
import re
import shutil
import subprocess
import unittest

import tables
import tables_check
from automaton import read_automaton
from language import read_text
from program import Program
from support import PROGRAM, ROOT, WithFolder, examples, needs_program, run

RESPONSE = os.path.join(ROOT, "examples", "response.dc")
WARNINGS = ["-std=c89", "-Wall", "-Wextra", "-Wconversion", "-pedantic", "-Werror"]

# Of `var p, q; infer <p> ^ true || <q>;`, by hand but for the numbers: states 0 (nothing read), 1 (broken for ever), 2 (good now alone), 3 (good).
SMALL = """automaton 2
variables p q
states 4
node n0 q ? t2 : t1
node n1 p ? t3 : n0
state 0 reject n1
state 1 reject t1
state 2 accept t1
state 3 accept t3
access 0 empty
access 1 start 00
access 2 start 01
access 3 start 10
steps 0
end
"""

TWO = """
#include <stdio.h>
#include "a_tables.h"
#include "b_tables.h"
int main(void)
{
  static observer_instance one, other, third;
  observer_tables_reset(&one, &a_tables);
  observer_tables_reset(&other, &b_tables);
  observer_tables_reset(&third, &a_tables);
  printf("%d", observer_tables_step(&one, A_p));
  printf("%d", observer_tables_step(&other, B_p | B_q));
  printf("%d", observer_tables_step(&third, 0u));
  printf("%d", observer_tables_step(&one, A_p));
  printf("%d", observer_tables_step(&other, B_p));
  printf("%d", observer_tables_step(&third, A_p));
  return 0;
}
"""


class Arrays(unittest.TestCase):
    def test_by_hand(self):
        """Nodes follow the 4 states, those of q first. The node of q is place 4 and that of p, which leads to it, place 5; states 2 and 3
        accept, so the bits are 4 and 8."""
        wanted = tables.Tables(2, 4, [5, 4], [5, 1, 1, 3], [2, 3], [1, 4], [12])
        self.assertEqual(tables.tables_of(read_automaton(SMALL)), wanted)

    def test_more_places_than_a_short_has(self):
        self.assertFalse(tables.Tables(1, 30000, [30000], [0] * 30000, [0] * 35535, [0] * 35535, []).wide)
        self.assertTrue(tables.Tables(1, 30000, [30000], [0] * 30000, [0] * 35536, [0] * 35536, []).wide)

    def test_a_name_in_c(self):
        self.assertEqual([tables.name_of(path) for path in ("a/door-2.dc", "x.y.dc", "/tmp/1.dc")], ["door_2", "x_y", "observer_1"])


@needs_program
class Files(WithFolder):
    def write(self, path, name):
        self.assertEqual(run("ask", "tables", path, "--name", name, "--out", self.folder)[0], 0)
        return os.path.join(self.folder, f"{name}_tables.c")

    def test_each_example(self):
        program = Program(PROGRAM)
        for path in examples():
            automaton = program.automaton(read_text(path))
            made = tables.tables_of(automaton)
            tables.write(self.folder, "one", [("c", tables.source_text(made, "one", "one.dc"))])
            read = tables_check.read_tables(os.path.join(self.folder, "one_tables.c"), "one")
            self.assertEqual((read.rows, read.high, read.low), (made.rows, made.high or [0], made.low or [0]))
            tables_check.walk(read, automaton)
            for word in tables_check.drawn_behaviours(automaton, 50):
                self.assertEqual(read.accept(self.state(read, word)), automaton.accepts(word))

    def state(self, read, word):
        state = 0
        for letter in word:
            state = read.step(state, letter)
        return state

    def test_verify(self):
        self.write(RESPONSE, "good")
        status, out, err = run("ask", "tables", RESPONSE, "--name", "good", "--out", self.folder, "--verify")
        self.assertEqual((status, err), (0, ""))
        self.assertIn("all 5 states go where the automaton goes, by all 4 letters", out)
        self.assertIn("of 1000 drawn behaviours", out)

    def test_a_wrong_table_is_told(self):
        """Each number of the file, one higher: of the arrays, of the accepting states and of the sizes."""
        path = self.write(RESPONSE, "door")
        text, automaton = read_text(path), Program(PROGRAM).automaton(read_text(RESPONSE))
        numbers = [match for match in re.finditer(r"\b(\d+)u\b", text)]
        self.assertEqual(len(numbers), 2 + 5 + 5 + 5 + 1 + 2)
        for match in numbers:
            with open(path, "w") as file:
                file.write(f"{text[:match.start()]}{int(match.group(1)) + 1}u{text[match.end():]}")
            with self.assertRaises(tables_check.Wrong, msg=text[match.start() - 20:match.end()]):
                tables_check.walk(tables_check.read_tables(path, "door"), automaton)

    def test_a_wrong_table_has_status_1(self):
        path = self.write(RESPONSE, "door")
        text = read_text(path)
        with open(path, "w") as file:
            file.write(text.replace("1u, 2u, 3u, 4u, 0u", "1u, 2u, 4u, 4u, 0u"))
        status, out, _ = run("ask", "tables", RESPONSE, "--name", "door", "--out", self.folder, "--verify")
        self.assertEqual(status, 1)
        self.assertIn("wrong: state 2, letter 00: the automaton goes to state 3, and the tables do not", out)

    def test_the_tables_of_another_requirement(self):
        self.write(RESPONSE, "door")
        self.assertEqual(run("ask", "tables", RESPONSE.replace("response", "lamp"), "--name", "door", "--out", self.folder, "--verify")[0], 1)

    @unittest.skipUnless(shutil.which("cc"), "there is no C compiler")
    def test_the_compiled_code_is_asked(self):
        """Code that goes the other way at each node is told by the compiled check, though the tables are right."""
        self.write(RESPONSE, "door")
        code, kept = os.path.join(self.folder, "code"), tables_check.CODE
        shutil.copytree(kept, code)
        with open(os.path.join(code, "observer_tables.c")) as file:
            text = file.read()
        with open(os.path.join(code, "observer_tables.c"), "w") as file:
            file.write(text.replace("(rest & 1u) != 0u", "(rest & 1u) == 0u"))
        automaton = Program(PROGRAM).automaton(read_text(RESPONSE))
        read = tables_check.read_tables(os.path.join(self.folder, "door_tables.c"), "door")
        tables_check.CODE = code
        self.addCleanup(setattr, tables_check, "CODE", kept)
        binary = tables_check.compile_harness(self.folder, self.folder, "door", read)
        with self.assertRaises(tables_check.Wrong):
            tables_check.walk_compiled(binary, automaton)
        with self.assertRaises(tables_check.Wrong):
            tables_check.run_drawn(Program(PROGRAM), read_text(RESPONSE), binary, read, automaton)

    @unittest.skipUnless(shutil.which("cc"), "there is no C compiler")
    def test_several_observers_in_one_program(self):
        self.write(self.file("a.dc", "var p; infer [[p]];"), "a")
        self.write(self.file("b.dc", "var p, q; infer [[p && q]];"), "b")
        main, out = self.file("main.c", TWO), os.path.join(self.folder, "two")
        sources = [main] + [os.path.join(self.folder, f"{name}_tables.c") for name in "ab"] + [os.path.join(tables.CODE, "observer_tables.c")]
        subprocess.run(["cc", *WARNINGS, "-I", tables.CODE, "-I", self.folder, "-o", out, *sources], check=True)
        self.assertEqual(subprocess.run([out], stdout=subprocess.PIPE).stdout, b"110100")

    def test_no_warnings(self):
        source = self.write(RESPONSE, "door")
        for compiler in filter(shutil.which, ("gcc", "clang")):
            for wide in ([], ["-DOBSERVER_TABLES_WIDE"]):
                for path in (source, os.path.join(tables.CODE, "observer_tables.c")):
                    subprocess.run([compiler, *WARNINGS, *wide, "-I", tables.CODE, "-c", "-o", os.devnull, path], check=True)

    @unittest.skipUnless(shutil.which("cppcheck"), "there is no cppcheck")
    def test_misra(self):
        """Of the advice of MISRA C:2012 that cppcheck knows one is not kept: macros that nobody uses (2.5), the bits of variables."""
        source = self.write(RESPONSE, "door")
        for path in (source, os.path.join(tables.CODE, "observer_tables.c")):
            done = subprocess.run(["cppcheck", "--std=c89", "--enable=warning,style,portability", "--addon=misra", "-I", tables.CODE, path],
                                  stdout=subprocess.PIPE, stderr=subprocess.STDOUT)
            self.assertEqual(set(re.findall(r"\[([a-zA-Z0-9.-]+)\]$", done.stdout.decode(), re.M)) - {"misra-c2012-2.5"}, set())


if __name__ == "__main__":
    unittest.main()
