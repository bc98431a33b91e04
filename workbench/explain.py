"""The command `explain`: runs dcvalid on the same words and says its answer as a person reads it. The exit status is the program's."""
import argparse
import os
import re
import subprocess
import sys
from typing import Dict, List, Sequence, TextIO, Tuple

import faults
import hints
import limits
import rooms
from answers import words_of
from automaton import Automaton
from commands import PROGRAM
from expand import place_of
from operands import Question
from program import NO_PROGRAM, SCRIPT, Answer, Program, Refusal, place_of_file
from spots import shown
from waves import heading, instants, spoken_runs, table, waves

REPLAYS = {"an observer in Lustre": "replay-lustre", "an observer in C": "replay-c", "an observer in tables": "replay-tables"}
HELP = """usage: explain [--table] [--show] COMMAND ..

Runs dcvalid COMMAND .. and says its answer in more words: behaviours as waves (--table: as digits), a fault with its line, what may
stand there and the one change that leaves no fault, a step over the budget with its part of the text. The status is dcvalid's.
--show writes the files that the program is asked about on standard error."""


class Explainer:
    def __init__(self, question: Question, program: Program, digits: bool) -> None:
        self.question, self.program, self.digits = question, program, digits

    def drawn(self, variables: Sequence[str], word: Sequence[str]) -> List[str]:
        lines = table(variables, word) if self.digits else waves(variables, word)
        return [f"  {line}" if line else "" for line in lines]

    # ---- answers

    def answer(self, answer: Answer) -> List[str]:
        """The lines for an answer of status 0 or 1."""
        command, output = self.question.command, answer.output
        if command.startswith("replay-"):
            instants_there = len(self.question.text(1).splitlines())
            if len(output.split()) != instants_there:
                raise Refusal(NO_PROGRAM, f"the program gave no answer: {len(output.split())} lines for {instants(instants_there)}", output)
            return self.replayed(output)
        if command == "sweep":
            return counts(output)
        if command == "synth" and answer.status == 1:
            return self.played(output)
        if command == "synth":
            said = "realisable: the functions below keep to the requirement for ever, whatever the inputs are"
            return [said, *output.splitlines()[1:]]
        if command in ("lustre", "c", "tables", "all"):  # programs, and texts between lines that name them
            return output.splitlines()
        if output.startswith("automaton "):
            return output.splitlines() + (self.parts(output) if command == "automaton" else [])
        return self.report(output)

    def report(self, output: str) -> List[str]:
        """A report of check, stuck, implies, certify, together or follows."""
        lines, words = [], words_of(output)
        compared, joint = "does not imply" in output.split("\n")[:1], re.match("variables (.*)\n", output)
        variables = joint.group(1).split() if joint else self.question.variables()
        for line in output.splitlines():
            lines += [said.format(*match.groups()) for pattern, said in (SET_SENTENCES if joint else SENTENCES) for match in [re.fullmatch(pattern, line)] if match]
        for kind, word in words.items():
            if not word:
                continue
            does = (SET_DOES if joint else DOES)["outside" if compared else kind]
            lines += ["", heading(f"A shortest behaviour that {does}", word), *self.drawn(variables, word)]
        return lines

    def replayed(self, output: str) -> List[str]:
        """What an observer answers, in runs; or a line for each instant."""
        answers = output.split()
        said = {"1": "the behaviour so far is accepted", "0": "it is not"}
        if self.digits:
            return [f"  instant {instant}: {said[answer]}" for instant, answer in enumerate(answers)]
        return [f"  {spoken_runs(answers)}", "  (1: the behaviour so far is accepted, 0: it is not)"] if answers else []

    def played(self, output: str) -> List[str]:
        """A strategy that beats every controller, played out: the inputs make its moves, and the outputs hold out as long as they can."""
        bound = int(output.split("\n")[1].split(" ")[1])
        found = re.findall(r"^state (\d+) rank (\d+) input (\S+)$", output, re.M)
        moves = {int(state): (int(rank), move.strip("-")) for state, rank, move in found}
        options = argparse.ArgumentParser(add_help=False)
        options.add_argument("--inputs")
        words = list(self.question.words)
        words[self.question.places[0]] = "automaton"
        _, words = options.parse_known_args(words)
        automaton = self.program.read_automaton(self.program.run(words).output)
        return [f"unrealisable: whatever a controller does, the requirement is broken within {instants(bound)}",
                "", "A play in which the outputs hold out as long as they can:",
                *self.drawn(self.question.variables(), play(automaton, moves)), "Each answer to that breaks the requirement."]

    def parts(self, output: str) -> List[str]:
        """The parts of a requirement by what they took, the largest first."""
        steps = [tuple(map(int, match)) for match in re.findall(r"^step (\d+) at (\d+) states (\d+) nodes (\d+)$", output, re.M)]
        if not steps:
            return []
        text, whole = self.question.text(), self.question.wholes.get(0)
        few = f", 12 of {len(steps)}" if len(steps) > 12 else ""
        lines = ["", f"The parts of the requirement by what they took, the largest first{few}:",
                 "  {:>7}  {:>7}  {:>5}  {:<8}  {}".format("states", "nodes", "step", "where", "begins with")]
        for step, place, states, nodes in sorted(steps, key=lambda it: (-it[2], -it[3], it[0]))[:12]:
            part = re.sub(r"[ \t\r]*(//.*)?$", "", text[place:].split("\n")[0])
            part = part if len(part) <= 60 else part[:57] + "..."
            where = whole.where(place) if whole else place_of(text, place)
            lines.append(f"  {states:7}  {nodes:7}  {step:5}  {where:<8}  {shown(part)}")
        return lines

    # ---- refusals

    def refusal(self, answer: Answer) -> List[str]:
        """The lines for a status of 3 or more; what had been answered before a trace's fault stands in front."""
        message, status = answer.error.strip(), answer.status
        lines = [message]
        if status in (3, 4):
            number = place_of_file(message)
            whole = self.question.wholes.get(number)
            lines = (faults.refused(whole, message, self.program) if whole else None) or faults.described(self.question.shown[number], self.question.text(number), message, self.program)
        elif status == 5:
            lines += self.unread(message)
        elif status in (9, 10):
            lines += self.no_text(message, status)
        else:
            lines += hints.of_message(message)
        if status == 8:
            lines += faults.wrong_kind(self.question.text(1), "a trace")
        return lines

    def unread(self, message: str) -> List[str]:
        """Which file could not be opened, or not be read to its end: the program does not say it, so both are tried here."""
        failed = []
        for named, path in zip(self.question.shown, self.question.paths):
            try:
                with open(path, "rb") as file:
                    if message == "fault read":
                        while file.read(1 << 20):
                            pass
            except OSError as error:
                failed.append((named, error.strerror))
        name, reason = (failed or [(" or ".join(self.question.shown), "it could be opened here")])[0]
        if message == "fault open":
            return [f"The file {name} could not be opened: is the name right, and may it be read? ({reason})"]
        return [f"The file {name} could not be read to its end: it is a directory, or the disk failed. ({reason})"]

    def no_text(self, message: str, status: int) -> List[str]:
        """A text that is no observer, or no automaton."""
        what, right = ("observer", tuple(REPLAYS)) if status == 9 else ("automaton", ("the text of an automaton",))
        match = re.match(r"fault \w+ (\w+) at (\d+)", message)
        if match is None:
            return hints.of_message(message)
        kind, place = match.group(1), int(match.group(2))
        text = self.question.text()
        line = text.count("\n", 0, place) + 1
        said = {
            "syntax": f"No text of an {what} goes on with byte {place}, counted from 0 (line {line}).",
            "names": f"The name at byte {place} of the observer (line {line}) breaks a rule of names: it is declared twice, or not at all, or has no "
                     "value there.",
            "table": f"The word at byte {place} (line {line}) breaks a rule: lines are numbered from 0 in each section, there are as many as is said, and "
                     "what a word names is there.",
        }
        other = faults.named_file(text)
        command = self.question.command
        if other in right and status == 9 and kind == "syntax":
            return [said[kind]] + ([f"  This is {other}, which {REPLAYS[other]} runs."] if REPLAYS[other] != command else [])
        if command == "replay-tables" and kind == "names":
            return [f"The number or the parameter at byte {place} of the observer (line {line}) breaks a rule of tables."]
        return [said[kind], *faults.wrong_kind(text, *right)]


def play(automaton: Automaton, moves: Dict[int, Tuple[int, str]]) -> List[str]:
    """The letters of the play; in the last one the outputs are question marks, since each of them breaks the requirement."""
    word: List[str] = []
    state = 0
    while True:
        move = moves[state][1]
        places = {letter: automaton.step(state, letter) for letter in automaton.letters() if letter.startswith(move)}
        kept = [letter for letter, place in places.items() if automaton.accept[place]]
        if not kept:
            return word + [move + "?" * (len(automaton.variables) - len(move))]
        word.append(max(kept, key=lambda letter: moves[places[letter]][0]))
        state = places[word[-1]]


DOES = {"counterexample": "breaks it", "example": "meets it", "outside": "meets the first and breaks the second",
        "stuck": "keeps to it at each instant, and that no next instant continues"}

SET_DOES = {"possible": "meets all of them", "stuck": "keeps to all of them at each instant, and that no next instant continues",
            "does not follow": "meets all the others and breaks the first"}

SET_SENTENCES = (
    (r"possible \d+", "possible: some behaviour meets all the requirements"),
    ("impossible", "impossible: no behaviour meets all the requirements"),
    ("never stuck", "never stuck: whatever has kept to all of them so far can go on"),
    ("stuck 0", "stuck at once: no behaviour of one instant meets all of them"),
    (r"stuck [1-9]\d*", "stuck: some behaviour keeps to all of them so far, and no next instant keeps to all"),
    ("follows", "follows: each behaviour that meets all the others meets the first requirement"),
    (r"does not follow \d+", "does not follow: some behaviour meets all the others and breaks the first requirement"),
)

SENTENCES = (
    ("valid", "valid: each behaviour meets the requirement"),
    ("not valid", "not valid: some behaviour breaks the requirement"),
    ("satisfiable", "satisfiable: some behaviour meets it"),
    ("not satisfiable", "not satisfiable: no behaviour meets it"),
    ("implies", "implies: each behaviour that meets the first requirement meets the second"),
    ("does not imply", "does not imply: some behaviour meets the first requirement and breaks the second"),
    ("never stuck", "never stuck: whatever has kept to the requirement so far can go on"),
    ("stuck 0", "stuck at once: no behaviour of one instant meets the requirement"),
    (r"stuck [1-9]\d*", "stuck: some behaviour keeps to the requirement so far, and no next instant keeps to it"),
    (r"certified (\d+)", "certified: no automaton with fewer than these {0} states accepts the same, as its words show"),
    (r"refused access (\d+)", "refused: the access word of state {0} leads to another state"),
    (r"refused pair (\d+) (\d+)", "refused: no suffix tells state {0} from state {1}"),
)


def counts(output: str) -> List[str]:
    """What is counted over drawn formulas."""
    said = {
        "formulas": "{0} formula{1} over x, y and z, drawn one after another", "valid": "{0} of them valid: each behaviour satisfies such a formula",
        "satisfiable": "{0} satisfiable: some behaviour satisfies such a formula",
        "over": f"{{0}} over the limits: a step has more than {limits.DEFAULT_STATES} states or {limits.NODES} nodes, and nothing else is said of such a formula",
        "states": "{0} states in the minimal automata of all others together",
    }
    found = [line.split() for line in output.splitlines()]
    return [said[name].format(number, "" if number == "1" else "s") for name, number in found if name in said]


def out(lines: Sequence[str], stream: TextIO) -> None:
    for line in lines:
        print(line, file=stream)


def main(words: List[str], program: Program) -> int:
    if not words or words[0] in ("-h", "--help"):
        print(HELP)
        return 0 if words else 2
    digits, program.show = "--table" in words, "--show" in words
    words = [word for word in words if word not in ("--table", "--show")]
    with rooms.room() as room:
        question = Question(words, room)
        if not program.is_there() and needs_no_build(question):
            return subprocess.run([SCRIPT, *question.words], check=False).returncode
        program.command()  # built first, so that its messages are seen
        program.shown(question.command, [question.text(number) for number in range(len(question.paths))], [])
        answer = program.run(question.words)
        say(Explainer(question, program, digits), answer)
    return answer.status


def needs_no_build(question: Question) -> bool:
    """Whether the words are none that a build is worth: no command, words of the script alone, or a file that is not there."""
    unread = question.command != "sweep" and not all(map(os.path.exists, question.paths))
    return question.words[0].startswith("--") or question.command not in {command.name for command in PROGRAM} or unread


def say(explainer: Explainer, answer: Answer) -> None:
    """Prints what an answer or a refusal of the program says; what is neither is printed as it is."""
    if answer.status in (0, 1):
        out(explainer.answer(answer), sys.stdout)
        print(answer.error, end="", file=sys.stderr)
    elif 3 <= answer.status <= 10:
        out(explainer.replayed(answer.output) if explainer.question.command.startswith("replay-") else [], sys.stdout)
        sys.stdout.flush()
        out(explainer.refusal(answer), sys.stderr)
    else:
        print(answer.output, end="")
        print(answer.error, end="", file=sys.stderr)
