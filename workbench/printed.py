"""The texts that an automaton determines, as `verify` reads and writes them: automata, and units in C and Lustre."""
import re
from itertools import chain
from typing import Any, Dict, List, Sequence

from diagrams import Automaton, Diagram, Wrong, choice, digits, follow, insist, numbered

# ---- texts that an automaton determines


class Printed:
    """The text of an automaton. Of it are read the rows, the suffixes and the lines of steps; then it is written again."""

    def __init__(self, what: str, text: str, numbers: Dict[str, int]) -> None:
        self.what, self.numbers = what, numbers
        self.suffixes: List[str] = []
        self.steps: List[str] = []
        accept: List[bool] = []
        rows: List[Diagram] = []
        try:
            states = re.findall(r"^states (\d+)$", text, re.M)[0]
            ends: Dict[str, Diagram] = {f"t{state}": state for state in range(int(states))}
            for head, *words in map(str.split, text.splitlines()):
                if head == "node":
                    ends[words[0]] = choice(numbers[words[1]], ends[words[3]], ends[words[5]])
                elif head == "state":
                    accept.append(words[1] == "accept")
                    rows.append(ends[words[2]])
                elif head in ("suffix", "step", "steps"):
                    (self.suffixes if head == "suffix" else self.steps).append(" ".join([head, *words]))
            self.automaton = Automaton(0, rows.__getitem__, accept.__getitem__)
        except (LookupError, TypeError, ValueError):
            raise Wrong(f"{what}: its text is of another form") from None
        came = self.automaton.came
        insist([it for it in came if it] == list(range(1, len(rows))), what, "its states are not in the order of words")
        insist(0 in came or not accept[0], what, "its start accepts, though no word leads there")
        insist(self.text(accept, rows) == text, what, "its text is of another form")

    def text(self, accept: Sequence[bool], rows: Sequence[Diagram]) -> str:
        names, came, nodes = dict(zip(self.numbers.values(), self.numbers)), self.automaton.came, numbered(rows)
        words: Dict[Any, str] = {**{state: f"t{state}" for state in range(len(rows))}, **nodes}
        lines = ["automaton 2", f"variables {' '.join(self.numbers) or '-'}", f"states {len(rows)}"]
        lines += [f"node {name} {names[it.variable]} ? {words[it.high]} : {words[it.low]}" for it, name in nodes.items()]
        lines += [f"state {it} {'accept' if accept[it] else 'reject'} {words[rows[it]]}" for it in range(len(rows))]
        lines += [] if 0 in came else ["access 0 empty"]
        lines += [f"access {it} {came[it][0] or 'start'} {digits(came[it][1], names)}" for it in sorted(came)]
        return "".join(line + "\n" for line in [*lines, *self.suffixes, *self.steps, "end"])

    def check_suffixes(self) -> None:
        """Each suffix tells access words apart that none before does, and all are told apart. A word has one letter or
        more: so a start to which none leads stands here twice, once as if it accepted."""
        fields: List[Dict[int, Any]] = [self.automaton.accept, self.automaton.rows]
        accept, rows = ([field[it] for it in sorted(field)] for field in fields)
        if 0 not in self.automaton.came:
            accept, rows = accept + [True], rows + rows[:1]
        groups: List[Sequence[int]] = [range(len(rows))]
        ends, left = [bytes(accept)], len(rows) - 1
        goes: Dict[str, List[int]] = {}
        form = "suffix (\\d+) (%s) (\\d+)" % ("[01]" * len(self.numbers) or "-")
        for number, line in enumerate(self.suffixes):
            match = re.fullmatch(form if number else "(suffix) 0 empty", line)
            insist(match and (not number or match[1] == str(number) and int(match[3]) < number), self.what,
                   f"suffix {number} is no letter before an earlier one")
            if number and match:
                letter = {variable for variable, digit in zip(self.numbers.values(), match[2]) if digit == "1"}
                goes[match[2]] = goes.get(match[2]) or [follow(row, letter) for row in rows]
                ends.append(bytes(map(ends[int(match[3])].__getitem__, goes[match[2]])))
            end, before = ends[number], left
            halves = [half for them in groups for half in ([it for it in them if end[it]], [it for it in them if not end[it]])]
            groups = [*filter(lambda half: len(half) > 1, halves)]
            left = sum(map(len, groups)) - len(groups)
            insist(left < before, self.what, f"suffix {number} tells nothing apart")
        pair = sorted(it % len(self.automaton.rows) for it in groups[0][:2]) if left else []
        insist(not left, self.what, f"no suffix tells states {' and '.join(map(str, pair))} apart")


def unit_in_c(kind: str, names: Sequence[str], returned: str, **rows: Dict[int, Diagram]) -> str:
    """In the state st each name is set to what its row of st is for the letter. A node is a name of its own."""
    parameters, declared = ", ".join(f"int v_{name}" for name in names) or "void", [*rows]
    nodes: List[str] = []
    cases: Dict[int, List[str]] = {}
    for (name, those), letter in zip(rows.items(), "no"):
        known = numbered(those.values(), letter)
        declared += known.values()
        nodes += [f"{node} = v_{names[it.variable]} ? {known.get(it.high, it.high)} : {known.get(it.low, it.low)};"
                  for it, node in known.items()]
        for state, row in those.items():
            cases.setdefault(state, []).append(f"if (st == {state}) {name} = {known.get(row, row)};")
    lines = [*[f"{name} = 0;" for name in rows], *nodes, *chain(*cases.values()), "st = nx;", f"return {returned};"]
    return (f"static int st;\n\nvoid {kind}_reset(void)\n{{\n  st = 0;\n}}\n\nint {kind}_step({parameters})\n{{\n  "
            + "\n  ".join(f"int {name};" for name in declared) + "\n\n  " + "\n  ".join(lines) + "\n}\n")


def tables_in_c(names: Sequence[str], accept: Dict[int, bool], rows: Dict[int, Diagram]) -> str:
    """Constant tables: a place below the number of states is a state, and any other a node, counted on from there."""
    nodes, states = [*numbered(rows.values())], len(rows)
    places: Dict[Diagram, int] = {**{state: state for state in rows}, **{node: states + number for number, node in enumerate(nodes)}}
    place = "unsigned short" if len(places) <= 65_535 else "unsigned long"
    arrays = [("unsigned char", "variable[nodes]", [node.variable for node in nodes]), (place, "high[nodes]", [places[node.high] for node in nodes]),
              (place, "low[nodes]", [places[node.low] for node in nodes])] if nodes else []
    arrays += [(place, "row[states]", [places[rows[state]] for state in rows]), ("unsigned char", "accept[states]", [int(accept[state]) for state in rows])]
    texts = [f"static const {integer} {head} = {{\n" + "".join(f"  {number},\n" for number in numbers) + "};\n\n" for integer, head, numbers in arrays]
    loop = "while (at >= states) at = letter[variable[at - states]] ? high[at - states] : low[at - states];"
    body = ["int letter[variables];"] * bool(nodes) + [f"{place} at;\n"] + [f"letter[{slot}] = v_{name};" for slot, name in enumerate(names) if nodes]
    body += ["at = row[st];", *[loop] * bool(nodes), "st = at;", "return accept[st];"]
    return (f"enum {{ states = {states}, nodes = {len(nodes)}, variables = {len(names)} }};\n\n" + "".join(texts)
            + f"static {place} st;\n\nvoid observer_reset(void)\n{{\n  st = 0;\n}}\n\n"
            + f"int observer_step({', '.join(f'int v_{name}' for name in names) or 'void'})\n{{\n" + "".join(f"  {line}\n" for line in body) + "}\n")


def unit_in_lustre(names: Sequence[str], returned: str, rows: Dict[int, Diagram]) -> str:
    known, inputs = numbered(rows.values()), "; ".join(f"v_{name}: bool" for name in names) or "tick: bool"
    lines = [f"{node} = if v_{names[it.variable]} then {known.get(it.high, it.high)} else {known.get(it.low, it.low)};"
             for it, node in known.items()]
    *cases, last = [known.get(row, row) for row in rows.values()]
    choices = "".join(f"if st = {state} then {case} else " for state, case in enumerate(cases))
    lines = ["st = 0 -> pre nx;", *lines, f"nx = {choices}{last};", f"ok = {returned};"]
    declared = "".join(f"  {name}: int;\n" for name in ["st", "nx", *known.values()])
    return f"node observer({inputs}) returns (ok: bool);\nvar\n{declared}let\n  " + "\n  ".join(lines) + "\ntel\n"
