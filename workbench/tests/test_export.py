"""`export`: what other tools read of an automaton accepts the same behaviours, and they take it; a wrong module is reported."""
import json
import os
import re
import subprocess
import sys
import unittest

import exports
import graphviz
import interchange
import omega
import verilog
from automaton import read_automaton
from language import read_text
from program import Program
from support import PROGRAM, ROOT, WithFolder, examples, needs_program, needs_tool, run
from tables_check import drawn_behaviours
from test_tables import SMALL

try:
    import jsonschema
except ImportError:
    jsonschema = None

RESPONSE = os.path.join(ROOT, "examples", "response.dc")
LARGE = ("deadlines.dc", "edge_count.dc", "separation.dc")  # 862 to 1,361 states


def small_examples():
    return [path for path in examples() if os.path.basename(path) not in LARGE]


class ByHand(unittest.TestCase):
    """Of `<p> ^ true || <q>`: true at the first instant of p, or at an only instant of q."""

    GOOD, BAD = (["10"], ["01"], ["10", "00"]), (["00"], ["01", "10"], ["01", "01"], ["00", "10"], [])

    def test_json(self):
        text = interchange.as_json(read_automaton(SMALL), "small.dc")
        self.assertTrue(all(exports.json_accepts(text, word) for word in self.GOOD))
        self.assertFalse(any(exports.json_accepts(text, word) for word in self.BAD))
        self.assertEqual(json.loads(text)["states"][2]["access"], {"from": None, "letter": "01"})

    def test_hoa(self):
        text = omega.hoa(read_automaton(SMALL), "small.dc")
        self.assertTrue(all(exports.hoa_accepts(text, word) for word in self.GOOD))
        self.assertFalse(any(exports.hoa_accepts(text, word) for word in self.BAD))

    def test_no_behaviour_is_empty(self):
        """The start satisfies the requirement, and the word without a letter is none."""
        text = omega.hoa(read_automaton("automaton 2\nvariables -\nstates 1\nstate 0 accept t0\naccess 0 start -\nsteps 0\nend\n"), "true.dc")
        self.assertEqual([exports.hoa_accepts(text, ["-"] * length) for length in range(3)], [False, True, True])

    def test_a_variable_called_alive(self):
        text = SMALL.replace("variables p q", "variables alive q").replace("n1 p ?", "n1 alive ?")
        self.assertIn('AP: 3 "alive" "q" "alive_"', omega.hoa(read_automaton(text), "a.dc"))

    def test_edges(self):
        """From the start the paths p, !p q and !p !q, and one from each state that stays."""
        self.assertEqual(omega.count(read_automaton(SMALL)), 3 + 1 + 1 + 1)

    def test_names_of_files(self):
        self.assertIn('label="a\\\\\\"b"', graphviz.dot(read_automaton(SMALL), 'a\\"b'))


@needs_program
class Formats(WithFolder):
    def test_each_example(self):
        """JSON and HOA accept what the program's automaton accepts."""
        program = Program(PROGRAM)
        for path in small_examples():
            automaton = program.automaton(read_text(path))
            texts = interchange.as_json(automaton, "a.dc"), omega.hoa(automaton, "a.dc")
            self.assertEqual(texts[1].split("State: ", 1)[1].split(f"State: {automaton.states} ")[0].count("\n[") - sum(automaton.accept), omega.count(automaton))
            for word in drawn_behaviours(automaton, 30):
                found = exports.json_accepts(texts[0], word), exports.hoa_accepts(texts[1], word)
                self.assertEqual(found, (automaton.accepts(word),) * 2, (path, word))

    @unittest.skipUnless(jsonschema, "there is no jsonschema: Debian has it in the package python3-jsonschema")
    def test_schema(self):
        with open(os.path.join(ROOT, "docs", "automaton.schema.json")) as file:
            schema = json.load(file)
        jsonschema.Draft7Validator.check_schema(schema)
        for path in (RESPONSE, RESPONSE.replace("response", "separation"), self.file("none.dc", "infer true;")):
            found = json.loads(run("ask", "export", path, "--to", "json")[1])
            jsonschema.validate(found, schema)
        for wrong in ({"start": 1}, {"states": []}, {"schema": "dcvalid-automaton-2"}, {"nodes": [{"variable": 0, "high": {"state": 1}}]}):
            with self.assertRaises(jsonschema.ValidationError):
                jsonschema.validate({**found, **wrong}, schema)

    @needs_tool("dot", "graphviz")
    def test_graphviz(self):
        """A node for each state and one for the start; an edge to each state that a letter leads to."""
        program = Program(PROGRAM)
        for path in small_examples():
            automaton = program.automaton(read_text(path))
            if automaton.states <= graphviz.MOST_STATES:
                done = subprocess.run(["dot", "-Tplain"], input=graphviz.dot(automaton, "a").encode(), stdout=subprocess.PIPE, stderr=subprocess.PIPE)
                self.assertEqual((done.returncode, done.stderr), (0, b""))
                kinds = [line.split()[0] for line in done.stdout.decode().splitlines()]
                edges = 1 + sum(len(automaton.targets(state)) for state in range(automaton.states))
                self.assertEqual((kinds.count("node"), kinds.count("edge")), (automaton.states + 1, edges))

    def test_what_is_not_written(self):
        status, out, err = run("ask", "export", os.path.join(ROOT, "examples", "response_100.dc"), "--to", "dot")
        self.assertEqual((status, out), (2, ""))
        self.assertIn("102 states", err)
        for words in (["--to", "smv"], [], ["--to", "json", "--inputs", "1"], ["--to", "verilog", "--inputs", "2"], ["--to", "verilog", "--module", "a b"]):
            self.assertEqual(run("ask", "export", RESPONSE, *words)[:2], (2, ""), words)

    def test_a_source(self):
        """A behaviour of no, of one, of two and of more instants."""
        source = self.file("source.dc", "const n = 2;\nvar p;\ninfer slen < n;\n")
        self.assertEqual(len(json.loads(run("ask", "export", source, "--to", "json")[1])["states"]), 4)


@needs_program
class Verilog(WithFolder):
    def write(self, path, *words):
        """A module in a file of its name, which the linter asks for."""
        status, text, err = run("ask", "export", path, "--to", "verilog", *words)
        self.assertEqual((status, err), (0, ""))
        return self.file(re.search(r"^module (\w+)", text, re.M).group(1) + ".v", text)

    def verified(self, path, module, *words):
        return run("ask", "export", path, "--to", "verilog", "--verify", module, *words)

    def test_names(self):
        self.assertEqual([verilog.module_name(path, "monitor") for path in ("a/door-2.dc", "x.y.dc", "/tmp/1.dc", "-")],
                         ["door_2_monitor", "x_y_monitor", "dc_1_monitor", "dcvalid_monitor"])

    def test_where_there_is_no_simulator(self):
        path = self.write(RESPONSE)
        done = subprocess.run([sys.executable, os.path.join(ROOT, "ask"), "export", RESPONSE, "--to", "verilog", "--verify", path],
                              env={**os.environ, "PATH": self.folder}, stdout=subprocess.PIPE, stderr=subprocess.PIPE)
        self.assertEqual((done.returncode, done.stdout), (125, b""))
        self.assertIn(b"package iverilog", done.stderr)

    @needs_tool("iverilog", "iverilog")
    def test_monitors(self):
        """Both forms, and 1,000 drawn behaviours beside replay-c; a large one is a table."""
        for name, *forms in (("response", "cases", "tables"), ("arbiter", "cases", "tables"), ("response_100", "cases"), ("gas_burner", "tables"),
                             ("separation", "tables")):
            path = os.path.join(ROOT, "examples", f"{name}.dc")
            for form in forms:
                status, out, err = self.verified(path, self.write(path, "--form", form))
                self.assertEqual((status, err), (0, ""), (name, form, out))
                self.assertRegex(out, r"all \d+ states go where the automaton goes(.|\n)* of 1000 drawn behaviours\n", name)

    @needs_tool("iverilog", "iverilog")
    def test_controllers(self):
        for name, inputs in (("arbiter", "2"), ("lift_door", "2"), ("lift_door", "0")):
            path = os.path.join(ROOT, "examples", f"{name}.dc")
            for form in ("cases", "tables"):
                module = self.write(path, "--inputs", inputs, "--form", form)
                status, out, err = self.verified(path, module, "--inputs", inputs)
                self.assertEqual((status, err), (0, ""), out)
                self.assertRegex(out, r"of 1000 drawn behaviours\n")

    def test_no_controller(self):
        """The output has to be true before its input is, so no controller keeps to it."""
        path = self.file("early.dc", "var p, q; infer [[q <=> +p]] ^ true && slen = 1;")
        status, out, err = run("ask", "export", path, "--to", "verilog", "--inputs", "1")
        self.assertEqual((status, out), (1, ""))
        self.assertIn("no controller of q keeps to it", err)

    @needs_tool("iverilog", "iverilog")
    def test_wrong_modules(self):
        """A number, changed: where a node and a state lead, and what is accepted. And a text that is no module."""
        for form, changes in (("cases", (("v_grant ? 3'd0 : 3'd1", "v_grant ? 3'd0 : 3'd2"), ("3'd4: next = 3'd4", "3'd4: next = 3'd0"),
                                         ("accepting = 1'b0", "accepting = 1'b1"))),
                              ("tables", (("next_low1[2] = 4'd3", "next_low1[2] = 4'd2"), ("next_row[2] = 4'd10", "next_row[2] = 4'd9"),
                                          ("accepting[3] = 1'd1", "accepting[3] = 1'd0")))):
            path = self.write(RESPONSE, "--form", form)
            text = read_text(path)
            for old, new in changes:
                self.assertIn(old, text)
                self.file(os.path.basename(path), text.replace(old, new))
                status, out, err = self.verified(RESPONSE, path)
                self.assertEqual((status, err), (1, ""), old)
                self.assertIn("wrong: state ", out)
        self.file(os.path.basename(path), text.replace("endmodule", ""))
        self.assertEqual(self.verified(RESPONSE, path)[0], 1)

    @needs_tool("verilator", "verilator")
    def test_lint(self):
        words = ["verilator", "--lint-only", "-Wall"]
        for path, *options in ((RESPONSE,), (RESPONSE, "--form", "tables"), (RESPONSE.replace("response", "arbiter"), "--inputs", "2"),
                               (RESPONSE.replace("response", "arbiter"), "--inputs", "2", "--form", "tables"), (RESPONSE.replace("response", "separation"),),
                               (self.file("none.dc", "infer true;"),), (self.file("table.dc", "var module, clk; infer [[module]];"),)):
            done = subprocess.run([*words, self.write(path, *options)], stdout=subprocess.PIPE, stderr=subprocess.STDOUT)
            self.assertEqual((done.returncode, done.stdout), (0, b""), (path, options))

    @needs_tool("yosys", "yosys")
    @needs_tool("berkeley-abc", "berkeley-abc")
    def test_model_checker(self):
        """By AIGER: a grant that is free breaks the requirement at the length of the shortest counterexample, by hand 4 (frames count from 0), and one
        that comes at once never does."""
        module, aiger = self.write(RESPONSE), os.path.join(self.folder, "bad.aig")
        for grant, found in (("grant", b"was asserted in frame 3"), ("request", b"Property proved")):
            bad = self.file("bad.v", "module bad(input clk, input request, input grant, output broken); wire ok;\n"
                            f"response_monitor it(.clk(clk), .rst(1'b0), .v_request(request), .v_grant({grant}), .ok(ok));\nassign broken = !ok; endmodule\n")
            script = f"read_verilog {module} {bad}; synth -flatten -top bad; dffunmap; aigmap; write_aiger -zinit {aiger}"
            subprocess.run(["yosys", "-q", "-p", script], check=True)
            said = subprocess.run(["berkeley-abc", "-c", f"read {aiger}; pdr"], stdout=subprocess.PIPE, check=True)
            self.assertIn(found, said.stdout)


if __name__ == "__main__":
    unittest.main()
