"""Checks a module in Verilog against the program: each letter from each state, and drawn behaviours, in the simulator Icarus."""
import os
import re
import shutil
import subprocess
from typing import Callable, List, Optional, Sequence

import rooms
from automaton import Automaton
from controllers import Controller
from program import NO_PROGRAM, Program, Refusal
from tables_check import Wrong, drawn_within, replayed
from verilog import Machine, bits, port
from waves import in_line

WALKED = 200_000  # states times letters

# Reads lines of: whether a state is put, whether this instant is the last of a behaviour, the state, the letter.
BENCH = """\
module bench;
  reg clk = 0, rst = 0, put;
  reg [{state}:0] state;
  reg [{letter}:0] letter;
  reg [{line}:0] lines [0:{last}];
  wire [{answer}:0] answer;
  integer at;
  {name} tested (.clk(clk), .rst(rst){inputs}, {outputs});
  initial begin
    $readmemb("{path}", lines);
    for (at = 0; at <= {last}; at = at + 1) begin
      {{put, rst, state, letter}} = lines[at];
      if (put) tested.state = state;
      #1 $display("%0d %0d", tested.next, answer);
      #1 clk = 1;
      #1 clk = 0;
    end
    $finish;
  end
endmodule
"""

# Prints the next state and the answer for each letter from each state of a controller, whose text is put above.
WALK_C = """
#include <stdio.h>

int main(void)
{{
  unsigned long state, letter;
  int answer;

  for (state = 0; state < {states}; state++) for (letter = 0; letter < (1ul << {width}); letter++) {{
    st = (int)state;
    answer = controller_step({arguments});
    printf("%d %d\\n", st, answer);
  }}
  return 0;
}}
"""


class Simulation:
    """A module of a file, compiled with a bench for each list of lines."""

    def __init__(self, path: str, name: str, machine: Machine, room: str) -> None:
        if not shutil.which("iverilog") or not shutil.which("vvp"):
            raise Refusal(NO_PROGRAM, "nothing was checked: the simulator iverilog is not there (Debian has it in the package iverilog)")
        self.path, self.name, self.machine, self.room = path, name, machine, room

    def answers(self, lines: Sequence[str]) -> List[str]:
        """For each line the next state and the answer, as two numbers."""
        stimuli, bench, compiled = (os.path.join(self.room, it) for it in ("stimuli", "bench.v", "compiled"))
        with open(stimuli, "w", encoding="ascii") as file:
            file.write("\n".join(lines) + "\n")
        with open(bench, "w", encoding="utf-8") as file:
            file.write(self.bench(stimuli, len(lines)))
        built = subprocess.run(["iverilog", "-g2005", "-s", "bench", "-o", compiled, bench, self.path], stdout=subprocess.PIPE, stderr=subprocess.STDOUT, check=False)
        if built.returncode:
            raise Wrong(f"iverilog refuses the module {self.name}:\n{built.stdout.decode(errors='replace')}")
        said = subprocess.run(["vvp", "-n", compiled], stdout=subprocess.PIPE, check=False).stdout.decode(errors="replace")
        found = [line for line in said.splitlines() if re.fullmatch(r"\S+ \S+", line)]
        if len(found) != len(lines):
            raise Wrong(f"the simulation ended after {len(found)} of {len(lines)} instants")
        return found

    def bench(self, stimuli: str, lines: int) -> str:
        width = max(1, len(self.machine.inputs))
        inputs = "".join(f", .{port(name)}(letter[{width - 1 - place}])" for place, name in enumerate(self.machine.inputs))
        count = len(self.machine.outputs)
        outputs = ", ".join(f".{port(name)}(answer[{count - 1 - place}])" for place, name in enumerate(self.machine.outputs)) or ".ok(answer)"
        state = bits(self.machine.states)
        return BENCH.format(state=state - 1, letter=width - 1, line=state + width + 1, last=lines - 1, answer=max(0, count - 1), name=self.name,
                            inputs=inputs, outputs=outputs, path=stimuli)


def letters(width: int) -> List[str]:
    return [format(number, f"0{width}b") for number in range(1 << width)] if width else ["-"]


def line_of(state: Optional[int], letter: str, last: bool, states: int) -> str:
    return f"{int(state is not None)}{int(last)}{state or 0:0{bits(states)}b}{letter.replace('-', '0')}"


def walk(simulation: Simulation, automaton: Automaton, answer: Callable[[int, str], int]) -> bool:
    """Compares each letter from each state, where these are not too many: whether it did."""
    width = len(automaton.variables)
    if automaton.states << width > WALKED:
        return False
    pairs = [(state, letter) for state in range(automaton.states) for letter in letters(width)]
    found = simulation.answers([line_of(state, letter, False, automaton.states) for state, letter in pairs])
    for (state, letter), said in zip(pairs, found):
        wanted = f"{automaton.step(state, letter)} {answer(state, letter)}"
        if said != wanted:
            raise Wrong(f"state {state}, letter {letter}: the module's next state and answer are {said}, and they should be {wanted}")
    return True


def drawn(simulation: Simulation, words: Sequence[Sequence[str]], wanted: Sequence[Sequence[int]]) -> int:
    """Compares the answer at each instant of behaviours; how many instants these have."""
    states = simulation.machine.states
    lines = [line_of(None, letter, at + 1 == len(word), states) for word in words for at, letter in enumerate(word)]
    found = simulation.answers(lines)
    instants = [(word, at, answer) for word, answers in zip(words, wanted) for at, answer in enumerate(answers)]
    for (word, at, answer), said in zip(instants, found):
        if said.split()[1] != str(answer):
            raise Wrong(f"instant {at} of {in_line(word[:at + 1])}: the module answers {said.split()[1]}, the program {answer}")
    return len(lines)


def verify_monitor(program: Program, text: str, automaton: Automaton, simulation: Simulation) -> None:
    """Says what was checked of a monitor; Wrong says where it differs."""
    path = simulation.path
    if walk(simulation, automaton, lambda state, letter: int(automaton.accept[automaton.step(state, letter)])):
        print(f"{path}: all {automaton.states} states go where the automaton goes, by all {1 << len(automaton.variables)} letters")
    words = drawn_within(automaton)
    wanted = replayed(program, program.observer(text), len(automaton.variables), words)
    instants = drawn(simulation, words, [[int(digit) for digit in answers] for answers in wanted])
    print(f"{path}: it answers as replay-c does at {instants} instants of {len(words)} drawn behaviours")


def verify_controller(found: Controller, simulation: Simulation) -> None:
    """Says what was checked of a controller; Wrong says where it differs."""
    path, goes = simulation.path, found.goes
    if walk(simulation, goes, found.answer):
        print(f"{path}: all {goes.states} states go where the text of synth goes, by all {1 << len(goes.variables)} letters")
        if walk_compiled(found, simulation.room):
            print("  so does that text, compiled")
    words = drawn_within(goes)
    wanted = [[found.answer(goes.run(word[:at]), letter) for at, letter in enumerate(word)] for word in words]
    instants = drawn(simulation, words, wanted)
    print(f"{path}: it answers as the text of synth does at {instants} instants of {len(words)} drawn behaviours")


def walk_compiled(found: Controller, room: str) -> bool:
    """Compares what was read of the text of synth with that text compiled, by each letter from each state; False where there is no compiler."""
    compiler = next((it for it in ("cc", "gcc", "clang") if shutil.which(it)), None)
    if compiler is None:
        return False
    source, binary = os.path.join(room, "walk.c"), os.path.join(room, "walk")
    width = len(found.goes.variables)
    arguments = ", ".join(f"(int)(letter >> {width - 1 - place} & 1ul)" for place in range(width))
    with open(source, "w", encoding="ascii") as file:
        file.write(found.text + WALK_C.format(states=found.goes.states, width=width, arguments=arguments))
    built = subprocess.run([compiler, "-o", binary, source], stdout=subprocess.PIPE, stderr=subprocess.STDOUT, check=False)
    if built.returncode:
        raise Wrong(f"{compiler} refuses the text of synth:\n{built.stdout.decode(errors='replace')}")
    said = subprocess.run([binary], stdout=subprocess.PIPE, check=False).stdout.decode().splitlines()
    pairs = [(state, letter) for state in range(found.goes.states) for letter in letters(width)]
    if said != [f"{found.goes.step(state, letter)} {found.answer(state, letter)}" for state, letter in pairs]:
        raise Wrong("the text of synth, compiled, goes or answers otherwise than it was read")
    return True


def verify(path: str, name: str, machine: Machine, check: Callable[[Simulation], None]) -> int:
    """Status 0, or where the module is wrong 1."""
    with open(path, "rb"):  # where it can't be read, that is an error of its own
        pass
    try:
        with rooms.room() as room:
            check(Simulation(path, name, machine, room))
        return 0
    except Wrong as wrong:
        print(f"{path}: wrong: {wrong}")
        return 1
