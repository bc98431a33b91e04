"""The controller that `synth` writes in C, read as an automaton over its inputs with an answer for each state and letter."""
import re
from dataclasses import dataclass
from typing import Dict, List, Optional, Sequence, Tuple

from answers import Malformed
from automaton import Automaton, Choice, Diagram
from program import NO_PROGRAM, Program, Refusal


class Unrealisable(Exception):
    """No controller keeps to the requirement."""


@dataclass
class Controller:
    """`goes` has the states and their letters of the inputs, `answers` a row of outputs for each state: the first output is the highest bit."""

    goes: Automaton
    outputs: Sequence[str]
    answers: List[Diagram]
    text: str

    def answer(self, state: int, letter: str) -> int:
        diagram = self.answers[state]
        while isinstance(diagram, Choice):
            diagram = diagram.high if letter[diagram.variable] == "1" else diagram.low
        return diagram


def controller(program: Program, text: str, variables: Sequence[str], inputs: int) -> Controller:
    """The controller of a formula whose first variables are inputs."""
    answer = program.ask("synth", text, options=("--inputs", str(inputs)))
    if answer.status == 1:
        raise Unrealisable(f"no controller of {', '.join(variables[inputs:]) or 'no output'} keeps to it; ./ask explain synth says more")
    unit = answer.output.split("\n", 1)[1]
    try:
        return read_controller(unit, variables[:inputs], variables[inputs:])
    except Malformed as why:
        raise Refusal(NO_PROGRAM, f"the program gave no answer: {why}", answer.output) from None


NODE = re.compile(r"  ([no]\d+) = v_(\w+) \? (\w+) : (\w+);")
CASE = re.compile(r"  if \(st == (\d+)\) (nx|y) = (\w+);")


def read_controller(unit: str, inputs: Sequence[str], outputs: Sequence[str]) -> Controller:
    """The controller of a unit in C: each line that sets something is read, and any other one is as it is in every unit."""
    nodes: Dict[str, Choice] = {}
    rows: Dict[str, Dict[int, Diagram]] = {"nx": {}, "y": {}}
    try:
        for line in unit.split("  y = 0;\n", 1)[1].splitlines():
            node, case = NODE.fullmatch(line), CASE.fullmatch(line)
            if node:
                nodes[node[1]] = Choice(list(inputs).index(node[2]), end(node[3], nodes), end(node[4], nodes))
            elif case:
                rows[case[2]][int(case[1])] = end(case[3], nodes)
            elif line not in ("  st = nx;", "  return y;", "}"):
                raise ValueError
        states = 1 + max(rows["nx"])
        goes = Automaton(list(inputs), [True] * states, [rows["nx"].get(state, 0) for state in range(states)])
        answers = [rows["y"].get(state, 0) for state in range(states)]
    except (LookupError, ValueError):
        raise Malformed("the text of the controller is cut off, or has a line of another form") from None
    if any(target >= states for state in range(states) for target in goes.targets(state)):
        raise Malformed("the controller goes to a state that it has no line for")
    goes.access = shortest(goes)
    return Controller(goes, outputs, answers, unit)


def end(word: str, nodes: Dict[str, Choice]) -> Diagram:
    return int(word) if re.fullmatch(r"\d{1,9}", word) else nodes[word]


def shortest(goes: Automaton) -> List[Tuple[Optional[int], str]]:
    """For each state the state before it on a shortest way from the start, and the letter; a state that no way leads to has none."""
    found: Dict[int, Tuple[Optional[int], str]] = {0: (None, "")}
    todo = [0]
    for state in todo:
        for target, letter in goes.targets(state).items():
            if target not in found:
                found[target] = (state if state else None, letter)
                todo.append(target)
    return [found.get(state, (None, "")) for state in range(goes.states)]
