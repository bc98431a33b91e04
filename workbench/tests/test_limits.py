"""limits.py beside the program: each limit is in its --help, or a text that reaches it is read and a larger one is refused."""
import re
import subprocess

import limits
from support import PROGRAM, WithFolder, needs_program


def names(count):
    return ", ".join(f"v{number}" for number in range(count))


def doubled(extra):
    """A goal of 65,535 nodes and some more: 15 macros that double."""
    macros = "".join(f"define m{n + 1} as m{n} && m{n};" for n in range(15))
    return f"define m0 as true;{macros} infer {'!' * extra}m15;"


# Of each limit: its number, a text by a number, and the fault of the text for one more.
TEXTS = (
    (limits.VARIABLES, lambda n: f"var {names(n)}; infer pt;", "many"),
    (limits.MACROS, lambda n: "".join(f"define m{k} as pt;" for k in range(n)) + "infer pt;", "many"),
    (limits.PARAMETERS, lambda n: f"define m({names(n)}) as pt; infer pt;", "many"),
    (limits.SLOTS, lambda n: "infer " + "".join(f"ex v{k}. " for k in range(n)) + "pt;", "slots"),
    (limits.NAME, lambda n: f"var {'v' * n}; infer pt;", "name"),
    (limits.NUMBER, lambda n: f"infer slen <= {n};", "number"),
    (limits.NESTED, lambda n: f"infer {'!' * n}pt;", "nest"),
    (limits.FILE_BYTES, lambda n: "infer pt;".ljust(n), "length"),
    (limits.GOAL_NODES, lambda n: doubled(n - 65_535), "size"),
    (limits.GOAL_DEPTH, lambda n: f"define m as {'!' * 300}true; infer {'!' * (n - 301)}m;", "depth"),
)


def run(*words, text=""):
    done = subprocess.run([PROGRAM, *words], input=text.encode(), stdout=subprocess.PIPE, stderr=subprocess.PIPE, check=False)
    return done.returncode, done.stdout.decode(), done.stderr.decode()


@needs_program
class Limits(WithFolder):
    def test_texts(self):
        for most, text, fault in TEXTS:
            with self.subTest(fault=fault, most=most):
                self.assertIn(run("check", "/dev/stdin", text=text(most))[0], (0, 1, 4))
                status, _, error = run("check", "/dev/stdin", text=text(most + 1))
                self.assertEqual((status, error.split()[:2]), (3, ["fault", fault]))

    def test_steps(self):
        shown = run("check", "--help")[2]
        found = [tuple(map(int, row)) for row in re.findall(r"from 1 to (\d+) \[default: (\d+)\]", shown)]
        self.assertEqual(found, [(limits.STATES, limits.DEFAULT_STATES), (limits.NODES, limits.NODES)])
        for option, most in (("--states", limits.STATES), ("--nodes", limits.NODES)):
            self.assertEqual([run("check", "/dev/stdin", option, str(n), text="infer pt;")[0] for n in (most, most + 1)], [1, 2])

    def test_joint_names(self):
        files = [self.file(f"{letter}.dc", f"var {names(count).replace('v', letter)}; infer pt;") for letter, count in (("a", 16), ("b", limits.JOINT_NAMES - 16), ("c", 1))]
        self.assertEqual(run("follows", *files[:2])[0], 0)
        status, _, error = run("follows", *files)
        self.assertEqual((status, error.split()[:2]), (3, ["fault", "names"]))

    def test_tuples(self):
        self.assertIn(f"from 1 to {limits.TUPLES} [default: {limits.DEFAULT_TUPLES}]", run("together", "--help")[2])
        self.assertEqual([run("together", "/dev/stdin", "--tuples", str(n), text="infer true;")[0] for n in (limits.TUPLES, limits.TUPLES + 1)], [0, 2])

    def test_outputs(self):
        text = f"var {names(limits.OUTPUTS + 1)}; infer true;"
        self.assertEqual(run("synth", "/dev/stdin", "--inputs", "1", text=text)[0], 0)
        status, _, error = run("synth", "/dev/stdin", "--inputs", "0", text=text)
        self.assertEqual((status, error.split()[:2]), (3, ["fault", "outputs"]))

    def test_traces(self):
        observer = run("c", "/dev/stdin", text="var p; infer true;")[1]
        for lines, status in ((limits.TRACE_LINES, 0), (limits.TRACE_LINES + 1, 8)):
            with self.subTest(lines=lines):
                self.assertEqual(run("replay-c", self.file("observer", observer), self.file("trace", "0\n" * lines))[0], status)
