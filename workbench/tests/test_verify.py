"""`verify`: right answers are verified, and each place of what the program prints, changed, is told."""
import functools
import itertools
import os
import random
import re
import unittest

import diagrams
import forms
import printed
import verify
from language import Fault, parse, read_text
from program import Program
from support import PROGRAM, ROOT, WithFolder, needs_program, run
from verify_sets import Joint, check_answer

RESPONSE = os.path.join(ROOT, "examples", "response.dc")
CROSSING = os.path.join(ROOT, "examples", "crossing.dc")

# A formula of each form, whose automata are small.
FORMS = {
    "point": "<p && !q>", "run": "[p || q]", "every": "[[p => q]]", "unit": "{{p <=> q}}", "pt": "pt", "ext": "ext", "slen": "slen = 2",
    "scount": "scount p >= 2", "sdur": "sdur p < 2", "true": "true", "false": "false", "not": "!{{p}}", "and": "[p] && slen = 1",
    "or": "<p> || {{q}}", "implies": "[p] => slen <= 1", "iff": "<p> <=> [[q]]", "chop": "[p] ^ <q>", "star": "({{p}})*", "diamond": "<>{{p}}",
    "box": "[](<p> || ext)", "ex": "ex r. ([r] ^ <!r>) && [[r => p]]", "all": "all r. <r> || ext", "prior": "[[p => -q]]", "next": "[[p => +q]]",
    "list": "<p> ^ {{q}} ^ {{p}}",
}


# By hand: state 1 is where an even number of letters after the first are 1.
START = """automaton 2
variables p
states 3
node n0 p ? t2 : t1
node n1 p ? t1 : t2
state 0 {} t1
state 1 accept n0
state 2 reject n1
access 0 empty
access 1 start 0
access 2 1 1
{}end
"""


@functools.lru_cache(maxsize=None)
def real(command, *texts, options=(), part=False):
    """What the program answers."""
    return verify.asked(Program(PROGRAM), command, *texts, options=options, part=part)


def output_of(command, text, *options):
    return real(command, text, options=options)[1]


class Changed:
    """A program of which one answer is another: that to `command` about the file with this text, else the real one's."""

    def __init__(self, command="", text="", output="", status=None):
        self.command, self.text, self.output, self.status = command, text, output, status

    def __call__(self, command, *texts, options=(), part=False):
        status, output = real(command, *texts, options=options, part=part)
        if (command, texts[0]) == (self.command, self.text):
            return status if self.status is None else self.status, self.output
        return status, output


def checked(text, ask=real, inputs=None):
    """All that verify checks of one file."""
    check = verify.Check(ask, text)
    check.verdict()
    check.observers()
    if inputs is not None:
        check.synth(inputs)
    return check


def accepts(automaton, word):
    """By a walk, letter by letter."""
    place = 0
    for letter in word:
        place = diagrams.follow(automaton.rows[place], {variable for variable, digit in enumerate(letter) if digit == "1"})
    return automaton.accept[place]


def stepped(unit, state, letter):
    """The next st of a flat unit in C or Lustre, and what it returns: a name, or whether nx is one of some numbers."""
    values = {f"v_{name}": int(digit) for name, digit in letter.items()}

    def item(word):
        return int(word) if word.isdigit() else values[word]

    lines = re.sub(r"if (v_\w+) then (\w+) else (\w+);", r"\1 ? \2 : \3;", unit)
    lines = re.sub(r"  nx = (if st .*) else (\w+);", lambda match: f"  nx = {match[2]};\n" + "".join(
        f"  if (st == {case[0]}) nx = {case[1]};\n" for case in re.findall(r"st = (\d+) then (\w+)", match[1])[::-1]), lines)
    for line in lines.split("\n"):
        match = re.fullmatch(r"  (?:if \(st == (\d+)\) )?(nx|y|[no]\d+) = (?:(\w+) \? (\w+) : )?(\w+);", line)
        if match and int(match[1] or state) == state:
            values[match[2]] = item(match[4] if match[3] and values[match[3]] else match[5])
    returned = re.search(r"(?:return|ok =) (.*);", unit)[1]
    return values["nx"], values["y"] if returned == "y" else values["nx"] in map(int, re.findall(r"nx ==? (\d+)", returned))


def changes_of_rows(text):
    """Each text with another end, another acceptance or another variable in one place of the nodes and states."""
    states = int(re.search(r"^states (\d+)", text, re.M).group(1))
    for match in re.finditer(r"(?<= )[tn]\d+(?= :|$)|(?<=: )[tn]\d+", text, re.M):
        for state in range(states):
            if match.group() != f"t{state}":
                yield f"{text[:match.start()]}t{state}{text[match.end():]}"
    for match in re.finditer(r"^(state (\d+)) (accept|reject)", text, re.M):
        yield f"{text[:match.end(1)]} {'reject' if match.group(3) == 'accept' else 'accept'}{text[match.end():]}"


def changes_of_numbers(text):
    """Each text with one number that is one higher."""
    for match in re.finditer(r"\b\d+\b", text):
        yield f"{text[:match.start()]}{int(match.group()) + 1}{text[match.end():]}"


# ---- what formulas mean, by the definition, on a word


def value(tree, word, i):
    kind, parts = tree.kind, tree.parts
    if kind == "name":
        return word[tree.value][i]
    if kind in ("prior", "next"):
        i += 1 if kind == "next" else -1
        return 0 <= i < len(word["p"]) and value(parts[0], word, i)
    if kind in ("p_true", "p_false"):
        return kind == "p_true"
    values = [value(part, word, i) for part in parts]
    return {"p_not": lambda x: not x, "p_and": lambda x, y: x and y, "p_or": lambda x, y: x or y, "p_implies": lambda x, y: not x or y,
            "p_iff": lambda x, y: x == y}[kind](*values)


def holds(tree, word, b, e):
    """Lists have two parts here."""
    kind, parts, inside = tree.kind, tree.parts, range(b, e + 1)
    if kind in ("slen", "scount", "sdur"):
        ends = range(b, e + (kind == "scount"))
        return forms.RELATIONS[tree.value[0]](e - b if kind == "slen" else sum(value(parts[0], word, i) for i in ends), tree.value[1])
    if kind in ("point", "run", "every", "unit"):
        true = [value(parts[0], word, i) for i in inside]
        return {"point": b == e and true[0], "run": b < e and all(true[:-1]), "every": all(true), "unit": e == b + 1 and true[0]}[kind]
    if kind in ("true", "false", "pt", "ext"):
        return {"true": True, "false": False, "pt": b == e, "ext": b < e}[kind]
    if kind in ("ex", "all"):
        choices = itertools.product((False, True), repeat=len(word["p"]))
        return {"ex": any, "all": all}[kind](holds(parts[0], {**word, tree.value: values}, b, e) for values in choices)
    if kind == "chop":
        return any(holds(parts[0], word, b, m) and holds(parts[1], word, m, e) for m in inside)
    if kind == "star":
        return b == e or any(holds(parts[0], word, b, m) and holds(tree, word, m, e) for m in range(b + 1, e + 1))
    if kind in ("diamond", "box"):
        return {"diamond": any, "box": all}[kind](holds(parts[0], word, x, y) for x in inside for y in range(x, e + 1))
    sides = [holds(part, word, b, e) for part in parts]
    return {"not": lambda x: not x, "and": lambda x, y: x and y, "or": lambda x, y: x or y, "implies": lambda x, y: not x or y,
            "iff": lambda x, y: x == y}[kind](*sides)


def drawn(draw, names, depth):
    """A formula over these names; those of one letter are declared."""
    def proposition():
        name = draw.choice(names)
        sign = draw.choice(["", "!", "", "-", "+"] if len(name) == 1 else ["", "!"])
        return draw.choice([f"{sign}{name}", f"({sign}{name} {draw.choice(['&&', '||', '=>', '<=>'])} {draw.choice(names)})"])

    if depth == 0:
        P, number = proposition(), f"{draw.choice(['=', '<', '<=', '>', '>='])} {draw.randrange(4)}"
        return draw.choice([f"<{P}>", f"[{P}]", f"[[{P}]]", f"{{{{{P}}}}}", "pt", "ext", f"slen {number}", f"scount {P} {number}", f"sdur {P} {number}"])
    kind, new = draw.choice(["!", "<>", "[]", "*", "ex", "all", "^", "^", "&&", "||", "=>", "<=>"]), f"r{depth}"
    if kind in ("ex", "all"):
        return f"({kind} {new}. {drawn(draw, names + [new], depth - 1)})"
    first = drawn(draw, names, depth - 1)
    if kind in ("!", "<>", "[]"):
        return f"{kind}({first})"
    return f"({first})*" if kind == "*" else f"({first} {kind} {drawn(draw, names, depth - 1)})"


@needs_program
class Right(WithFolder):
    def test_each_form(self):
        for kind, goal in FORMS.items():
            with self.subTest(kind):
                checked(f"var p, q; infer {goal};", inputs=1)

    def test_drawn_formulas(self):
        """Each is verified; and what is verified is the definition, on all behaviours of up to 3 instants."""
        draw = random.Random(67)
        for _ in range(15):
            text = f"var p, q; infer {drawn(draw, ['p', 'q'], 3)};"
            with self.subTest(text):
                check, goal = checked(text, inputs=draw.randrange(3)), parse(text).goal
                for length in (1, 2, 3):
                    for word in itertools.product(("00", "01", "10", "11"), repeat=length):
                        tracks = {name: [letter[i] == "1" for letter in word] for i, name in enumerate("pq")}
                        self.assertEqual(accepts(check.automaton, word), holds(goal, tracks, 0, length - 1), word)

    def test_macros(self):
        """No argument is captured, a quantified name hides, and what is not used is not looked at."""
        for goal, good in (("define F(a) as (ex q. [[q <=> a]]); infer F(!q);", True), ("define F(p) as <p>; infer F(q) <=> <q>;", True),
                           ("define F(a) as pt || ext; infer ex r. F(-r);", True), ("prop g(a) as -a; infer [[g(g(q)) <=> --q]];", True),
                           ("infer (ex q. <q>) <=> pt;", True), ("prop g(a) as -a; infer [[g(q) <=> +q]];", False)):
            check = checked("var q; " + goal)
            self.assertEqual(list(check.automaton.accept.values()) == [True], good, goal)

    def test_looks(self):
        """Those of one another, of one core by several texts, in the order of the text and not of arguments."""
        for goal in ("[[+-+p]]", "<-(p => q)> ^ [[-(!p || q)]]", "(true ^ <---p>) ^ ext", "[[-p => +q]] && <>(<+q> || <--p>)", "ex r. [[r <=> -p]] ^ <+q>"):
            checked(f"var p, q; infer {goal};", inputs=1)
        checked("var p, q; prop g(a, b) as b && a; define F(a) as [[a => -a]]; infer F(g(-p, +q)) || <-q>;")

    def test_units(self):
        """What is written for an automaton, run by a plain reader of flat statements, goes where the automaton goes and answers what it says, in
        all states for all letters; and a controller for all inputs, with outputs that keep to it."""
        for goal in (*FORMS.values(), "[[p => q]]", "[[q <=> -p]]", "<>({{p}} ^ <q>) => [[q]]"):
            check = checked(f"var p, q; infer {goal};")
            units = output_of("c", check.text), output_of("lustre", check.text)
            for (state, row), letter in itertools.product(check.rows.items(), ("00", "01", "10", "11")):
                place = diagrams.follow(row, {variable for variable in (0, 1) if letter[variable] == "1"})
                for unit in units:
                    self.assertEqual(stepped(unit, state, {"p": letter[0], "q": letter[1]}), (place, check.accept[place]), unit)
            kind, _, controller = output_of("synth", check.text, "--inputs", "1").partition("\n")
            states = [0] * (kind == "realisable")
            for state in states:  # which are found on the way
                for p in "01":
                    place, q = stepped(controller, state, {"p": p})
                    self.assertEqual(diagrams.follow(check.rows[state], [0] * (p == "1") + [1] * q), place)
                    self.assertTrue(check.accept[place])
                    states += [place] * (place not in states)

    def test_the_command(self):
        status, out, err = run("ask", "verify", RESPONSE, "--observer", "--inputs", "1")
        self.assertEqual((status, err), (0, ""))
        self.assertEqual([line.split()[0] for line in out.splitlines()], ["verified:"] * 8)
        self.assertIn("5 states", out)
        self.assertIn("the controller", out)
        self.assertIn("the strategy", run("ask", "verify", CROSSING, "--inputs", "1")[1])
        strict, loose = self.file("a.dc", "var p; infer <p>;"), self.file("b.dc", "var p; infer [[p]];")
        for pair in ((strict, loose), (loose, strict)):
            status, out, _ = run("ask", "verify", "--implies", *pair)
            self.assertEqual((status, out.splitlines()[-1]), (0, "verified: the answer to implies"))
        self.assertEqual(run("ask", "verify", strict, loose)[0], 2)
        self.assertEqual(run("ask", "verify", "--implies", strict, loose, loose)[0], 2)
        other = self.file("c.dc", "var q, p; infer [[q => !p]];")
        status, out, _ = run("ask", "verify", "--together", "--follows", loose, other, strict)
        self.assertEqual((status, out.splitlines()[-2:]), (0, ["verified: the answer to together", "verified: the answer to follows"]))
        self.assertIn("asked: lustre\n    var p;", run("ask", "verify", "--show", "--observer", strict)[2])

    def test_what_cannot_be_checked(self):
        names = ", ".join(f"x{number}" for number in range(16))
        for text, why in ((f"var {names}; infer ex y. [[{names.replace(', ', ' && ')} && y]];", "17 names"),
                          ("var p, q; infer scount p = 200 && scount q = 200;", "budget states 30000 at 16 step 2")):
            status, out, err = run("ask", "verify", self.file("a.dc", text))
            self.assertEqual((status, out), (3, ""))
            self.assertIn(why, err)
        for text, *words, why in (("var p; infer p;", "a.dc:1:14"), ("var p; infer <p>;", "--inputs", "2", "fault outputs")):
            status, _, err = run("ask", "verify", self.file("a.dc", text), *words)
            self.assertEqual(status, 3)
            self.assertIn(why, err)

    def test_a_difference(self):
        answer = "automaton 2\nvariables p\nstates 1\nstate 0 accept t0\naccess 0 start 0\nsuffix 0 empty\nsteps 0\nend\n"
        status, out, err = run("ask", "verify", self.file("a.dc", "var p; infer <p>;"), program=self.stub(answer))
        said = "different: the automaton of the file: after 0 the automaton is in state 0 and accepts, and its form does not\n"
        self.assertEqual((status, out, err), (1, said, ""))

    def test_the_status_of_an_automaton(self):
        text = "var p; infer <p>;"
        self.assertRaisesRegex(verify.Wrong, "the status of automaton", verify.Check, Changed("automaton", text, output_of("automaton", text), 0), text)


@needs_program
class Planted(unittest.TestCase):
    def told(self, text, ask, inputs=None):
        with self.assertRaises((verify.Wrong, Fault), msg=f"{getattr(ask, 'command', '')} {text}\n{getattr(ask, 'output', '')}") as caught:
            checked(text, ask, inputs)
        return str(caught.exception)

    def test_rows_of_each_form(self):
        """The automaton of the file, whose last form is each one in turn."""
        count = 0
        for kind, goal in FORMS.items():
            text = f"var p, q; infer {goal};"
            for changed in changes_of_rows(output_of("automaton", text)):
                self.told(text, Changed("automaton", text, changed))
                count += 1
        self.assertGreater(count, 400)

    def test_rows_of_a_part(self):
        """The program is wrong of a part alone: the part is named, with a word."""
        text, part = "var p, q;\ninfer\n  [p] ^ (<q> || ext);", "var q; infer <q>;\n"
        for changed in changes_of_rows(output_of("automaton", part)):
            self.assertIn(f"a part of line 3, asked for by\n  {part}", self.told(text, Changed("automaton", part, changed)))
        wrong = output_of("automaton", part).replace("state 2 accept", "state 2 reject")
        self.assertIn("after 1 the automaton is in state 2 and rejects", self.told(text, Changed("automaton", part, wrong)))
        wrong = output_of("automaton", "var q; infer <!q>;")
        self.assertIn("after 0 the automaton is in state 1 and accepts", self.told(text, Changed("automaton", part, wrong)))

    def test_a_program_that_is_wrong_everywhere(self):
        """It takes `[P]` for `[[P]]` in files and in parts alike, so all its answers fit together."""
        def confused(command, *texts, **more):
            return real(command, *(re.sub(r"\[(\w+)\]", r"[[\1]]", text) for text in texts), **more)

        self.assertIn("asked for by\n  var p; infer [p];", self.told("var p, q; infer [p] ^ <q>;", confused))

    def test_names(self):
        """A program that takes a file whose names are at fault, for any file."""
        for text in ("var p, p; infer <p>;", "var p; infer <q>;", "var p; define f(a) as <a>; infer f;", "var p; define f as <p>; infer [[f]];",
                     "var p; prop f as p; infer f;", "var p; define p as pt; infer pt;", "define f as g; define g as pt; infer f;", "define f as f; infer f;",
                     "define f(a, a) as <a>; infer pt;", "define f as pt; define f as ext; infer f;", "define f as pt; define g(f) as <f>; infer pt;",
                     "define f as ex f. <f>; infer f;", "var p; infer <p(p)>;", "var p; define f as <r>; infer ex r. f;", "var p; infer (ex r. <r>) ^ <r>;",
                     f"var {', '.join(f'x{number}' for number in range(17))}; infer pt;", f"var {'x' * 25}; infer pt;",
                     f"define f({', '.join('abcdefghi')}) as pt; infer pt;", "var p; infer ex q. [[+q]];", "define f(a) as [[-a]]; infer ex q. f(q);"):
            self.told(text, lambda *_, **__: real("automaton", "infer true;"))
        self.told("var p; infer ex q. [[+q]];", lambda *_, **__: real("automaton", "var p; infer <p>;"))

    def test_access_words(self):
        """They are determined."""
        for goal in ("<p>", "slen = 3", "[p] ^ <q>", "[[p]]"):
            text = f"var p, q; infer {goal};"
            output = output_of("automaton", text)
            for line in re.findall(r"^access .*\n", output, re.M):
                for changed in {line.replace(*pair) for pair in ((" 0", " 1"), (" 1", " 0"), ("start", "1"), ("empty", "start 00"))} - {line}:
                    self.told(text, Changed("automaton", text, output.replace(line, changed)))

    def test_numbers_of_states_and_nodes(self):
        """The same automaton with two numbers exchanged everywhere."""
        for goal, name, told in (("<p> ^ [q]", "t1 t2", "not in the order"), ("[p || q] ^ <q>", "n0 n1", "another form")):
            text, (one, other) = f"var p, q; infer {goal};", name.split()
            output, kind = output_of("automaton", text), {"t": "state|access", "n": "node"}[name[0]]
            swapped = re.sub(rf"\b({one}|{other})\b", lambda match: other if match[1] == one else one, output)
            if name[0] == "t":
                a, b = one[1:], other[1:]
                swapped = re.sub(rf"^(state|access) ({a}|{b})\b", lambda match: f"{match[1]} {b if match[2] == a else a}", swapped, flags=re.M)
                swapped = re.sub(rf"^(access \d+) ({a}|{b})\b", lambda match: f"{match[1]} {b if match[2] == a else a}", swapped, flags=re.M)
            lines, heads = swapped.splitlines(), tuple(word + " " for word in kind.split("|"))
            moved = sorted((line for line in lines if line.startswith(heads)), key=lambda line: (line.split()[0] != "state", line.split()[1]))
            swapped = "\n".join(moved.pop(0) if line.startswith(heads) else line for line in lines) + "\n"
            self.assertNotEqual(swapped, output)
            self.assertIn(told, self.told(text, Changed("automaton", text, swapped)))

    def test_steps(self):
        """Each number in the lines of steps, and a line more or less."""
        for text in ("var p, q;\ndefine f(a) as [a && !q] ^ <>{{q}};\ninfer (f(p) => [](ext || <p>)) && (all r. slen < 3 || <r <=> q>);",
                     "var p, q; infer [[-(p => q) || +-p]]* ^ (sdur p < 2);"):
            output = checked(text) and output_of("automaton", text)
            head, _, steps = output.partition("steps ")
            self.assertGreater(steps.count("\n"), 12)
            for changed in (*changes_of_numbers(steps), steps.replace("step 1 ", "step 2 "), re.sub("step 3 .*\n", "", steps), steps.replace("end", "step 99 at 0 states 1 nodes 0\nend")):
                self.told(text, Changed("automaton", text, f"{head}steps {changed}"))

    def test_suffixes(self):
        """They are judged as by a comparison of all words, letter by letter: all are told apart, and each suffix is needed when it comes."""
        judged = set()
        for goal in FORMS.values():
            output = output_of("automaton", f"var p, q; infer {goal};")
            for line in re.findall(r"^suffix [1-9].*\n", output, re.M):
                number = line.split()[1]
                for letter, rest in itertools.product(("00", "01", "10", "11"), range(int(number))):
                    judged.add(self.judged(output.replace(line, f"suffix {number} {letter} {rest}\n")))
                self.assertEqual(self.judged(output.replace(line, f"suffix {number} 00 {number}\n"), True), (False, False))
                self.assertEqual(self.judged(output.replace(line, f"{line}suffix {int(number) + 1} {line.split(maxsplit=2)[2]}"), True), (False, False))
        self.assertEqual(judged, {(True, True), (False, False)})

    def test_the_start_is_no_behaviour(self):
        """No letter leads to state 0, so that it rejects tells it from nothing. From it 0 and 1 both lead to state 1, from state 1 only 0 does."""
        for suffixes, right in (("suffix 0 empty\nsuffix 1 0 0\n", False), ("suffix 0 empty\nsuffix 1 0 0\nsuffix 2 1 0\n", True)):
            if right:
                printed.Printed("", START.format("reject", suffixes), {"p": 0}).check_suffixes()
                self.assertRaisesRegex(verify.Wrong, "its start accepts", printed.Printed, "", START.format("accept", suffixes), {"p": 0})
            else:
                self.assertRaisesRegex(verify.Wrong, "states 0 and 1 apart", printed.Printed("", START.format("reject", suffixes), {"p": 0}).check_suffixes)

    def judged(self, text, malformed=False):
        """What verify says of a text's words, and what `apart` does."""
        try:
            printed.Printed("", text, {"p": 0, "q": 1}).check_suffixes()
            return True, not malformed and apart(text)
        except verify.Wrong:
            return False, not malformed and apart(text)

    def test_texts_that_are_none(self):
        """Of rows that would be read in more ways than one, and of what is not there."""
        text = "var p, q; infer [[p && q]];"
        right = output_of("automaton", text)
        self.assertIn("node n0 q ? t0 : t1\nnode n1 p ? n0 : t1\n", right)
        for old, new in (("n0 q ? t0 : t1\nnode n1 p", "n0 p ? t0 : t1\nnode n1 q"), ("n0 q", "n0 p"), ("n1 p", "n1 q"), ("n0 q", "n0 r"), ("n0 q ? t0", "n0 q ? n1"), ("t0 : t1", "t0 : t2"), ("n1\nstate 1", "n2\nstate 1"),
                         ("states 2", "states 3"), ("node n1", "node n2"), ("state 1 reject t1\n", ""), ("variables p q", "variables q p"), ("end\n", "end"), ("suffix 0 empty\n", ""),
                         ("node n1", "node n1 p ? t0 : t0\nnode n1"), ("automaton 2", "automaton 1"), ("n0 q", "n0  q"), ("state 0", "state 00"), ("end\n", "end\n\n")):
            self.assertIn(old, right)
            self.told(text, Changed("automaton", text, right.replace(old, new, 1)))

    def test_verdicts(self):
        for goal in ("[p] ^ <q>", "<p> || ext || <!p>", "false"):
            text = f"var p, q; infer {goal};"
            status, answer = real("check", text)
            for output in (*changes_of_numbers(answer), answer.replace("not ", "", 1), answer[:-1], "valid\n" + answer):
                if output != answer:
                    self.assertIn("the answer to check", self.told(text, Changed("check", text, output)))
            self.told(text, Changed("check", text, answer, 1 - status))

    def test_implies(self):
        texts = "var p; infer [[p]];", "var p; infer <p>;"
        checks = [checked(text) for text in texts]
        checks[0].implies(checks[1])
        for output in ("implies\n", "does not imply\ncounterexample 2\n1\n0\n", "does not imply\ncounterexample 3\n1\n1\n1\n"):
            checks[0].ask = Changed("implies", texts[0], output)
            self.assertRaises(verify.Wrong, checks[0].implies, checks[1])

    def test_together_and_follows(self):
        """The lamp has been on for 3 instants: it must not be on, and must not be off."""
        texts = "var lamp; infer []({{!lamp}} ^ [lamp] ^ <!lamp> => slen >= 5);", "var q, lamp; infer []([[lamp]] => slen < 3);"
        joint = Joint([(check.automaton, check.names) for check in map(checked, texts)])
        stuck = "variables lamp q\npossible 1\n00\nstuck 4\n00\n10\n10\n10\n"
        self.assertEqual(joint.together(), (1, stuck))
        check_answer("together", joint.together(), real("together", *texts))
        for status, output in ((1, stuck.replace("lamp q", "q lamp")), (1, stuck.replace("10\n10\n10", "10\n10\n11")), (1, stuck.replace("possible 1\n00", "possible 1\n01")),
                               (0, "variables lamp q\npossible 1\n00\nnever stuck\n"), (0, stuck), (1, "variables lamp q\nimpossible\nstuck 0\n")):
            self.assertRaisesRegex(verify.Wrong, "the answer to together", check_answer, "together", joint.together(), (status, output))
        broken = "variables lamp q\ndoes not follow 3\n00\n10\n00\n"
        self.assertEqual(joint.follows(), (1, broken))
        check_answer("follows", joint.follows(), real("follows", *texts))
        self.assertEqual(Joint([(check.automaton, check.names) for check in map(checked, ("var p; infer slen >= 0;", texts[0]))]).follows(), (0, "variables p lamp\nfollows\n"))

    def test_stuck(self):
        for goal, found in (("slen <= 1", "stuck 2\n0\n0\n"), ("false", "stuck 0\n"), ("<p> ^ true", "never stuck\n")):
            text = f"var p; infer {goal};"
            check = checked(text)
            check.stuck()
            for status, output in ((0, "never stuck\n"), (1, "stuck 0\n"), (1, "stuck 2\n0\n0\n"), (1, "stuck 2\n0\n1\n"), (1, "stuck 1\n0\n")):
                if output != found:
                    check.ask = Changed("stuck", text, output, status)
                    self.assertRaises(verify.Wrong, check.stuck)

    def test_observers(self):
        """Each number, one higher; each line left out, or twice; names that are taken, not declared or of another kind."""
        text = "var p, q; infer [p] ^ <q> || slen = 2;"
        for command in ("c", "lustre"):
            output = output_of(command, text)
            lines = output.splitlines(True)
            left_out = ["".join([*lines[:place], *[lines[place]] * times, *lines[place + 1:]]) for place in range(len(lines)) for times in (0, 2)]
            for changed in (*changes_of_numbers(output), *left_out):
                self.assertIn(f"the answer to {command}", self.told(text, Changed(command, text, changed)))
        output = output_of("c", text)
        for old, new in (("v_p ?", "v_q ?"), (" == ", " != "), ("int observer_step(int v_p, int v_q)", "int observer_step(int v_q, int v_p)"), ("st = nx;", "st = n9;"),
                         ("  nx = 0;\n", "  nx = 0;\n  st = 0;\n"), ("if (st == 1) nx", "if (st == 1) st"), ("if (st == 1)", "if (st == 01)"), ("  st = nx;\n", ""),
                         ("n0", "if"), ("n0", "st"), ("n0", "n7"), ("int n1;", "int n0;"), ("int v_p", "int v_q"), ("observer_step", "observer_reset")):
            self.told(text, Changed("c", text, output.replace(old, new)))
        output = output_of("lustre", text)
        for old, new in (("v_p then", "v_q then"), ("n0: int", "n0: bool"), ("n1: int", "n0: int"), ("v_p: bool", "v_p: int"), ("if v_p", "if n0"), ("pre nx", "pre st"), ("0 -> ", "1 -> "),
                         ("n0", "ok"), ("returns (ok", "returns (nx")):
            self.told(text, Changed("lustre", text, output.replace(old, new)))

    def test_controllers(self):
        """Each output is forced: o has to be what i was one instant earlier."""
        text = "var i, o; infer [[o <=> -i]];"
        output = output_of("synth", text, "--inputs", "1")
        for changed in changes_of_numbers(output):
            self.assertIn("the answer to synth", self.told(text, Changed("synth", text, changed), 1))
        for changed in (output.replace("y = 1;", "y = 3;"), output.replace("realisable", "possible"), output.replace("return y", "return nx")):
            self.told(text, Changed("synth", text, changed), 1)
        self.told(text, Changed("synth", text, output, 1), 1)

    def test_least_outputs(self):
        """Controllers of other formulas keep to these too, and by outputs that are not the least."""
        for goal, other in (("[[i => o]]", "[[o]]"), ("[[i <=> o]] || [[o]]", "[[o]]"), ("true", "[[o]]"), ("[[o <=> +i]] || true", "[[o <=> i]]")):
            text, wrong = (f"var i, o; infer {it};" for it in (goal, other))
            checked(text, inputs=1)
            self.told(text, Changed("synth", text, output_of("synth", wrong, "--inputs", "1")), 1)

    def test_strategies(self):
        """The barrier that nothing tells of a train: state after state has one rank less, and one input that is right."""
        text = read_text(CROSSING)
        answer = output_of("synth", text, "--inputs", "1")
        self.assertEqual(answer.count("\nstate"), 4)
        for changed in changes_of_numbers(answer):
            self.assertIn("the answer to synth", self.told(text, Changed("synth", text, changed), 1))
        later = re.sub(r"(rank|bound) (\d+)", lambda match: f"{match[1]} {int(match[2]) + 1}", answer)
        lines = answer.splitlines(True)
        for changed in (later, "".join(lines[:-2] + lines[-1:]), "".join(lines[:2] + lines[2:-1][::-1] + lines[-1:])):
            self.told(text, Changed("synth", text, changed), 1)
        text = "var i, o; infer [[!i]];"
        sooner = "unrealisable\nbound 0\nstate 0 rank 0 input 1\nend\n"
        self.assertEqual(output_of("synth", text, "--inputs", "1"), sooner.replace("d 0", "d 1").replace("k 0", "k 1"))
        self.told(text, Changed("synth", text, sooner), 1)
        text = "var i, o; infer slen < 1;"  # it is broken whatever the input is, so the least one is right
        self.assertIn("rank 1 input 0", output_of("synth", text, "--inputs", "1"))
        self.told(text, Changed("synth", text, output_of("synth", text, "--inputs", "1").replace("input 0", "input 1")), 1)


def apart(text):
    """Whether the suffixes of a text tell all its access words apart, each some that none before it does, by following each word letter by letter."""
    automaton = diagrams.Automaton(0, dict(enumerate(rows_of(text))).get, [line.split()[2] == "accept" for line in re.findall("^state .*", text, re.M)].__getitem__)
    words, suffixes, told = {}, [], set()
    for line in re.findall("^access .*", text, re.M):
        _, state, before, *letter = line.split()
        words[state] = [] if before == "empty" else [*(() if before == "start" else words[before]), *letter]
    for line in re.findall("^suffix .*", text, re.M):
        letter, *rest = line.split()[2:]
        suffixes.append([letter] + suffixes[int(rest[0])] if rest else [])
        now = {(u, v) for u, v in itertools.combinations(words, 2) if words[u] + suffixes[-1] and words[v] + suffixes[-1] and
               accepts(automaton, words[u] + suffixes[-1]) != accepts(automaton, words[v] + suffixes[-1])}
        if now <= told:
            return False
        told |= now
    return len(told) == len(words) * (len(words) - 1) // 2


def rows_of(text):
    """The diagrams of the states in an automaton's text, whose variables are p and q."""
    nodes = {}

    def end(word):
        return nodes[word] if word in nodes else int(word[1:])

    for _, name, variable, _, high, _, low in map(str.split, re.findall("^node .*", text, re.M)):
        nodes[name] = diagrams.choice("pq".index(variable), end(high), end(low))
    return [end(line.split()[3]) for line in re.findall("^state .*", text, re.M)]


if __name__ == "__main__":
    unittest.main()
