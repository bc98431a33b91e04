"""The program, asked questions: it is run on files or on texts, its answers are typed, and what it refuses is an exception."""
import os
import re
import shutil
import signal
import subprocess
import sys
import threading
from contextlib import contextmanager
from dataclasses import dataclass
from typing import TYPE_CHECKING, Iterator, List, NamedTuple, Optional, Sequence, Set, TextIO

import rooms
from answers import SHAPES, Malformed, Word, check_shape, words_of
from automaton import Automaton, read_automaton

if TYPE_CHECKING:
    from concurrent.futures import ThreadPoolExecutor
    from kept import Kept

ROOT = os.path.dirname(os.path.dirname(os.path.abspath(__file__)))
SCRIPT = os.path.join(ROOT, "dcvalid")
BUILT = os.path.join(ROOT, "crates", "dcvalid", "out", "dcvalid")
NO_PROGRAM = 125  # the status where there is no program, or what it did is no answer
LIMITS = ("size", "depth", "slots", "many", "length", "nest", "outputs", "declarations", "names")  # faults that a larger text has, and no other spelling


class Refusal(Exception):
    """The program gave no answer: its status (2 to 10, or 125), its line on standard error, what it had printed, and the texts it was asked about."""

    def __init__(self, status: int, message: str, output: str = "", texts: Sequence[str] = ()) -> None:
        super().__init__(message)
        self.status, self.message, self.output, self.texts = status, message, output, texts

    @property
    def fault(self) -> Optional["Fault"]:
        return fault_of(self.message)

    @property
    def over_budget(self) -> bool:
        return self.status == 4

    @property
    def over_limits(self) -> bool:
        """Whether the question is larger than the program takes; else a fault is one of spelling."""
        return self.over_budget or self.status == 3 and (self.message.split() + ["", ""])[1] in LIMITS


class Fault(NamedTuple):
    """A fault of a file: its kind, its place in bytes, and `first`, `second` or `file N` where there were several files."""

    kind: str
    place: int
    which: Optional[str]


class Answer(NamedTuple):
    status: int
    output: str
    error: str


@dataclass(frozen=True)
class Together:
    example: Optional[Word]  # a shortest behaviour that satisfies all
    stuck: Optional[Word]  # a shortest one that kept to all and cannot go on: an empty one where there is no first instant, None where all can


@dataclass(frozen=True)
class Verdict:
    valid: bool
    satisfiable: bool
    counterexample: Optional[Word]  # a shortest behaviour that breaks the formula
    example: Optional[Word]  # a shortest behaviour that satisfies it


def fault_of(message: str) -> Optional[Fault]:
    """The fault that a line of the program names, or None."""
    match = re.match(r"fault (\w+) at (\d+)(?: in (first|second|file \d+))?$", message.strip().split("\n")[0])
    return Fault(match.group(1), int(match.group(2)), match.group(3)) if match else None


def place_of_file(message: str) -> int:
    """Which of the files, counted from 0, a line of the program names; the first where it names none."""
    match = re.search(r" in (?:second|file (\d+))$", message)
    return int(match.group(1) or 2) - 1 if match else 0


class Program:
    """`path` or DCVALID names another program than the repository's, which is built without its proofs where it is not there."""

    def __init__(self, path: Optional[str] = None, show: bool = False) -> None:
        named = path or os.environ.get("DCVALID")
        self.path = shutil.which(named) or named if named else None
        self.show = show
        self.runs = 0
        self.stopped = False
        self.kept: Optional["Kept"] = None  # the answers that are kept
        self.running: Set["subprocess.Popen[bytes]"] = set()
        self.lock = threading.Lock()

    def is_there(self) -> bool:
        """Whether there is a program that can be asked without a build."""
        return self.path is not None or os.access(BUILT, os.X_OK)

    def command(self) -> str:
        """The path of the program. The first call builds the repository's own, and lets its messages through."""
        if self.path is None:
            if subprocess.run([SCRIPT, "--build"], stdout=subprocess.DEVNULL, check=False).returncode == NO_PROGRAM:
                raise Refusal(NO_PROGRAM, "")
            self.path = BUILT if os.access(BUILT, os.X_OK) else SCRIPT
        return self.path

    def run(self, words: Sequence[str], text: Optional[str] = None) -> Answer:
        """Runs the program on these words; the text is on its standard input, which they name /dev/stdin. Of status 0 and 1 the
        answer has its shape, 2 to 10 are the program's refusals, and with anything else it gave no answer."""
        status, output, error = self.ended([self.command(), *words], None if text is None else text.encode("latin-1"))
        if status < 0:
            raise Refusal(NO_PROGRAM, f"the program was ended by {name_of_signal(-status)} before it answered", output)
        if status == NO_PROGRAM:
            raise Refusal(NO_PROGRAM, error.strip())
        if status > 10:
            raise Refusal(NO_PROGRAM, f"the program ended with status {status}, which is none of its own", output)
        command = next((word for word in words if word in SHAPES), None)
        if status < 2 and command:
            try:
                check_shape(command, status, output)
            except Malformed as why:
                raise Refusal(NO_PROGRAM, f"the program gave no answer: {why}", output) from None
        return Answer(status, output, error)

    def ended(self, words: List[str], data: Optional[bytes]) -> Answer:
        """The status, the output and the errors of a run, which is killed where this one is stopped."""
        with self.lock:
            if self.stopped:
                raise Refusal(NO_PROGRAM, "the program is asked no more")
            self.runs += 1
            try:
                process = subprocess.Popen(words, stdin=None if data is None else subprocess.PIPE, stdout=subprocess.PIPE, stderr=subprocess.PIPE)
            except OSError as error:
                raise Refusal(NO_PROGRAM, f"the program {words[0]} could not be run: {error.strerror}") from None
            self.running.add(process)
        with process:
            try:
                output, said = process.communicate(data)
            except BaseException:
                process.kill()
                raise
            finally:
                with self.lock:
                    self.running.discard(process)
        return Answer(process.returncode, output.decode("latin-1"), said.decode("latin-1"))

    def stop(self) -> None:
        """Ends what runs; nothing is asked after it."""
        with self.lock:
            self.stopped = True
            for process in self.running:
                process.kill()

    @contextmanager
    def side_by_side(self, jobs: int) -> Iterator["ThreadPoolExecutor"]:
        """A pool for questions. Where what it is used for is broken off, they are too; after a refusal others may be asked."""
        from concurrent.futures import ThreadPoolExecutor  # it is slow to load, and most commands need none
        pool = ThreadPoolExecutor(jobs)
        try:
            yield pool
        except BaseException as error:
            self.stop()
            pool.shutdown()
            self.stopped = not isinstance(error, Exception)
            raise
        finally:
            pool.shutdown()

    def ask(self, command: str, *texts: str, options: Sequence[str] = ()) -> Answer:
        """The answer of a command about one or more texts. Status 0 and 1 are answers; any other raises Refusal."""
        self.shown(command, texts, options)
        kept = self.kept.answer(command, texts, options) if self.kept else None
        answer = Answer(*kept) if kept else self.answered(command, texts, options)
        if self.kept and not kept:
            self.kept.keep(command, texts, options, *answer)
        if answer.status > 1:
            raise Refusal(answer.status, answer.error.strip(), answer.output, texts)
        return answer

    def answered(self, command: str, texts: Sequence[str], options: Sequence[str]) -> Answer:
        """A run on these texts: one is on standard input, and more are in files."""
        if len(texts) == 1:
            answer = self.run([command, "/dev/stdin", *options], texts[0])
        else:
            with rooms.room() as room:
                paths = [os.path.join(room, str(number)) for number in range(len(texts))]
                for path, text in zip(paths, texts):
                    with open(path, "w", encoding="latin-1", newline="") as file:
                        file.write(text)
                answer = self.run([command, *paths, *options])
        return answer

    def shown(self, command: str, texts: Sequence[str], options: Sequence[str]) -> None:
        """With --show, what is asked, on standard error: at once, since questions may be asked side by side."""
        if self.show:
            lines = [" ".join(["asked:", command, *options])] + [f"    {line}" for text in texts for line in text.splitlines()]
            sys.stderr.write("".join(line + "\n" for line in lines))

    # ---- questions

    def check(self, text: str, options: Sequence[str] = ()) -> Verdict:
        report = self.ask("check", text, options=options).output
        lines, words = report.split("\n"), words_of(report)
        return Verdict(lines[0] == "valid", lines[1] == "satisfiable", words.get("counterexample"), words.get("example"))

    def automaton_text(self, text: str, options: Sequence[str] = ()) -> str:
        return self.ask("automaton", text, options=options).output

    def automaton(self, text: str, options: Sequence[str] = ()) -> Automaton:
        return self.read_automaton(self.automaton_text(text, options))

    def read_automaton(self, answer: str) -> Automaton:
        """The automaton of an answer, which is read whole."""
        try:
            return read_automaton(answer)
        except Malformed as why:
            raise Refusal(NO_PROGRAM, f"the program gave no answer: {why}", answer) from None

    def implies(self, first: str, second: str, options: Sequence[str] = ()) -> Optional[Word]:
        """None where the first formula implies the second, else a shortest behaviour that satisfies the first alone."""
        answer = self.ask("implies", first, second, options=options)
        return None if answer.status == 0 else words_of(answer.output)["counterexample"]

    def stuck(self, text: str, options: Sequence[str] = ()) -> Optional[Word]:
        """None where what has kept to the formula so far can always go on, else a shortest behaviour that cannot: an empty one where there is no first instant."""
        answer = self.ask("stuck", text, options=options)
        return None if answer.status == 0 else words_of(answer.output)["stuck"]

    def together(self, texts: Sequence[str], options: Sequence[str] = ()) -> Together:
        """Whether requirements, joined by the names of their variables, can be satisfied together and always go on."""
        words = words_of(self.ask("together", *texts, options=options).output)
        return Together(words.get("possible"), words.get("stuck"))

    def follows(self, first: str, others: Sequence[str], options: Sequence[str] = ()) -> Optional[Word]:
        """None where the first formula follows from the others, else a shortest behaviour that satisfies all of these and not the first."""
        return words_of(self.ask("follows", first, *others, options=options).output).get("does not follow")

    def observer(self, text: str, language: str = "c", options: Sequence[str] = ()) -> str:
        return self.ask(language, text, options=options).output

    def replay(self, observer: str, word: Sequence[str], language: str = "c") -> List[bool]:
        """What an observer answers at each instant of a word."""
        return [digit == "1" for digit in self.digits(observer, "".join(letter + "\n" for letter in word), len(word), language)]

    def digits(self, observer: str, trace: str, count: int, language: str) -> str:
        """The same as digits, of a trace of so many lines."""
        found = self.ask(f"replay-{language}", observer, trace).output.replace("\n", "")
        if len(found) != count:
            raise Refusal(NO_PROGRAM, f"the program gave no answer: {len(found)} lines for {count} instants")
        return found

    def fault(self, text: str) -> Optional[Fault]:
        """The fault of a formula file, or None where it has none. Only its reading is waited for: the budget is the least."""
        answer = self.run(["check", "/dev/stdin", "--states", "1", "--nodes", "1"], text)
        if answer.status == 3:
            return fault_of(answer.error) or Fault(answer.error.strip(), 0, None)
        if answer.status > 4 or answer.status == 4 and not answer.error.startswith("budget "):
            raise Refusal(answer.status, answer.error.strip(), answer.output, (text,))
        if answer.status == 2:
            raise Refusal(NO_PROGRAM, "the program takes no check with --states and --nodes")
        return None


def name_of_signal(number: int) -> str:
    try:
        return signal.Signals(number).name
    except ValueError:
        return f"the signal {number}"


def complain(line: str, stream: Optional[TextIO] = None) -> None:
    """A line on standard error; where nobody reads it, that is no failure."""
    try:
        print(line, file=stream or sys.stderr, flush=True)
    except (OSError, ValueError):
        pass
