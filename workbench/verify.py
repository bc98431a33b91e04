"""`verify`: the program's answers found again from the definitions, to be read in place of its proofs and its compiler.

Each part of a formula is an automaton, made of those of its operands. The program prints an automaton of the part; a
search over pairs of states compares both, and then what was printed stands for the part: so how it is asked for needs no
trust. All else that the program says is a function of the file's automaton, but for the suffixes, which are checked. Of
the other scripts the parser is used, and what runs the program and reads its status.
"""
import argparse
import operator
import sys
from functools import partial
from itertools import count, groupby, zip_longest
from typing import Callable, Dict, Iterator, List, Optional, Sequence, Tuple

from diagrams import Automaton, Cannot, Diagram, Letter, Wrong, digits, ends_of, insist, joined, merged
from expand import Text, line_of
from forms import Formula
from language import Fault, Tree
from printed import Printed, tables_in_c, unit_in_c, unit_in_lustre
from program import NO_PROGRAM, Program, Refusal
from verify_sets import Joint, check_answer

# ---- the program's answers about a file, of which `ask` asks the program


Ask = Callable[..., Tuple[int, str]]  # the status and the output of a command about texts


class Check:
    """The automaton of a file, checked with all parts of its formula."""

    def __init__(self, ask: Ask, text: str, whole: Optional[Text] = None) -> None:
        self.ask, self.text, self.pairs = ask, text, 0
        self.known: Dict[Tree, Automaton] = {}
        counts: Dict[Tree, str] = {}
        lines: List[str] = []
        status, output = ask("automaton", text)
        formula = Formula(text)
        self.names = formula.names
        for number, (form, start) in enumerate(formula.steps):
            if form not in self.known:
                exact, counts[form] = formula.automaton(form, self.known)
                numbers, answer, what = dict(zip(self.names, count())), output, "the automaton of the file"
                if number + 1 < len(formula.steps):
                    question, numbers = formula.question(form)
                    answer = ask("automaton", question, part=True)[1]
                    line = whole.line(start) if whole else f"line {line_of(text, start)}"
                    what = f"the automaton of a part of {line}, asked for by\n  {question.strip()}\n"
                printed = Printed(what, answer, numbers)
                self.compare(exact, printed)
                printed.check_suffixes()
                self.known[form] = printed.automaton
            lines.append(f"step {number} at {start} {counts[form]}")
        for said, right in zip_longest(printed.steps, [f"steps {len(lines)}", *lines]):
            insist(said == right, f"the lines of steps: it is {right}, and the program's {said}")
        self.automaton, self.accept = printed.automaton, printed.automaton.accept
        self.rows = {state: self.automaton.rows[state] for state in sorted(self.accept)}
        wanted = int(not all(self.accept[it] for it in self.automaton.came))
        insist(status == wanted, f"the status of automaton: it is {wanted}, and the program's {status}")

    def compare(self, exact: Automaton, printed: Printed) -> None:
        both = joined(operator.ne, exact, printed.automaton)
        word, pair = both.least()
        self.pairs += len(both.rows)
        if word:
            letters = [digits(letter, printed.numbers.values()) for letter in word]
            runs = [(it, len(list(those))) for it, those in groupby(letters)]
            line = " ".join(letter + (f" x{length}" if length > 1 else "") for letter, length in runs)
            accepts = "accepts" if printed.automaton.accept[pair[1]] else "rejects"
            raise Wrong(f"{printed.what}: after {line} the automaton is in state {pair[1]} and {accepts}, "
                        "and its form does not")

    def answered(self, command: str, status: int, text: str, *texts: str, options: Sequence[str] = ()) -> None:
        found = self.ask(command, self.text, *texts, options=options)
        insist(found == (status, text), f"the answer to {command}: it is, with status {status},\n{text}and the program's, "
                                        f"with status {found[0]},\n{found[1]}")

    def report(self, heading: str, word: Sequence[Letter]) -> str:
        lines = [f"{heading} {len(word)}", *[digits(letter, range(len(self.names))) for letter in word]] if word else []
        return "".join(line + "\n" for line in lines)

    def verdict(self) -> None:
        bad, good = joined(operator.not_, self.automaton).least()[0], joined(bool, self.automaton).least()[0]
        text = f"{'not ' * bool(bad)}valid\n{'not ' * (not good)}satisfiable\n"
        self.answered("check", int(bool(bad)), text + self.report("counterexample", bad) + self.report("example", good))

    def implies(self, other: "Check") -> None:
        insist(self.names == other.names, "the answer to implies: the files have different variables")
        word, _ = joined(lambda x, y: x and not y, self.automaton, other.automaton).least()
        text = "does not imply\n" + self.report("counterexample", word) if word else "implies\n"
        self.answered("implies", int(bool(word)), text, other.text)

    def stuck(self) -> None:
        """A shortest word that keeps to the requirement and that no letter continues, by a search over the states that accept."""
        words: Dict[Optional[int], List[Letter]] = {None: []}
        todo: List[Optional[int]] = [None]
        for state in todo:
            row = self.rows[self.automaton.start if state is None else state]
            further = {it: letter for it, letter in ends_of(row).items() if self.accept[it]}
            if not further:
                return self.answered("stuck", 1, self.report("stuck", words[state]) or "stuck 0\n")
            new = {it: words[state] + [letter] for it, letter in further.items() if it not in words}
            words.update(new)
            todo += new
        self.answered("stuck", 0, "never stuck\n")

    def observers(self) -> None:
        status = int(not all(self.accept[it] for it in self.automaton.came))
        returned = " || ".join(f"nx == {it}" for it in self.rows if self.accept[it]) or "0"
        self.answered("c", status, unit_in_c("observer", self.names, returned, nx=self.rows))
        returned = " or ".join(f"(nx = {it})" for it in self.rows if self.accept[it]) or "false"
        self.answered("lustre", status, unit_in_lustre(self.names, returned, self.rows))
        self.answered("tables", status, tables_in_c(self.names, self.accept, self.rows))

    def ranks(self, inputs: int) -> Dict[int, Tuple[int, Letter]]:
        """In how many letters the inputs break it from each state, whatever the outputs are; and the least input for it."""
        lost = {state for state in self.rows if not self.accept[state]}
        found: Dict[int, Tuple[int, Letter]] = {}
        moves = {state: [(letter, {*ends_of(rest)}) for (rest,), letter in ends_of(merged((row,), last=inputs)).items()]
                 for state, row in self.rows.items()}
        for rank in count(1):
            new = {state: (rank, letter) for state, options in moves.items() if state not in found
                   for letter, places in reversed(options) if places <= lost}
            if not new:
                return found
            found.update(new)
            lost |= new.keys()
        raise AssertionError("the ranks have no end")

    def synth(self, inputs: int) -> str:
        """A strategy, by the ranks; or in each state without one the least output that leads to a state without one."""
        ranks, options = self.ranks(inputs), ("--inputs", str(inputs))
        kept = {state for state in self.rows if state not in ranks and self.accept[state]}
        if 0 in ranks:
            moves = [f"state {state} rank {rank} input {digits(letter, range(inputs))}\n"
                     for state, (rank, letter) in sorted(ranks.items()) if state == 0 or self.accept[state]]
            self.answered("synth", 1, f"unrealisable\nbound {ranks[0][0]}\n{''.join(moves)}end\n", options=options)
            return "strategy: the inputs beat each controller within its bound"

        def choose(rest: Diagram) -> Tuple[int, int]:
            state, letter = next(it for it in ends_of(rest).items() if it[0] in kept)
            return state, int("0" + digits(letter, range(inputs, len(self.names))).strip("-"), 2)

        both = {state: merged((self.rows[state],), choose, inputs) for state in sorted(kept | {0})}
        nx, y = [{state: merged((it,), operator.itemgetter(place)) for state, it in both.items()} for place in (0, 1)]
        text = unit_in_c("controller", self.names[:inputs], "y", nx=nx, y=y)
        self.answered("synth", 0, "realisable\n" + text, options=options)
        return "controller: it keeps to the requirement for all inputs"


# ---- the command


def add_arguments(parser: argparse.ArgumentParser) -> None:
    parser.epilog = "Status 0: what was asked is verified. 1: there is a difference. 3: it cannot be checked, and why."
    parser.add_argument("file", metavar="FILE")
    parser.add_argument("others", metavar="FILE", nargs="*", help="with --implies the second formula, with --together and --follows the others")
    parser.add_argument("--implies", action="store_true", help="checks the answer of implies too, to both files")
    parser.add_argument("--together", action="store_true", help="checks the answer of together too, to all files")
    parser.add_argument("--follows", action="store_true", help="checks the answer of follows too, to all files")
    parser.add_argument("--stuck", action="store_true", help="checks the answer of stuck too")
    parser.add_argument("--observer", action="store_true", help="checks the observers of c, lustre and tables too")
    parser.add_argument("--inputs", type=int, metavar="N", help="checks the answer of synth too, with so many inputs")


def asked(program: Program, command: str, *texts: str, options: Sequence[str] = (), part: bool = False) -> Tuple[int, str]:
    """The status and the output of the program; why it refuses what the user asks is told as by other commands."""
    try:
        answer = program.ask(command, *texts, options=options)
    except Refusal as refusal:
        if refusal.status == NO_PROGRAM or not part and not refusal.over_budget:
            raise
        raise Cannot(f"the program refuses a part: {refusal.message}\n  {texts[0].strip()[:400]}" if part else f"over the budget: {refusal.message}") from None
    return answer.status, answer.output


def verified(options: argparse.Namespace, ask: Ask) -> Iterator[str]:
    """What is verified, each line when it is."""
    checks: List[Check] = []
    for path, shown in ((options.file, options.shown), *((other, other) for other in options.others)):
        whole = Text(path, shown)
        check = Check(ask, whole.text, whole)
        checks.append(check)
        yield f"the automaton of {shown}, {len(check.rows)} states, by {len(check.known)} parts and {check.pairs} pairs of states"
        yield "no automaton has fewer states"
        yield "how its states are numbered, and the lines of steps"
        check.verdict()
        yield "the verdict, and that no behaviours are shorter or before those shown"
    if options.implies:
        checks[0].implies(checks[1])
        yield "the answer to implies"
    if options.together or options.follows:
        joint = Joint([(check.automaton, check.names) for check in checks])
        for command in ["together"] * options.together + ["follows"] * options.follows:
            check_answer(command, getattr(joint, command)(), ask(command, *[check.text for check in checks]))
            yield f"the answer to {command}"
    if options.stuck:
        checks[0].stuck()
        yield "the answer to stuck"
    if options.observer:
        checks[0].observers()
        yield from (f"the observer in {language}, in all its states and for all letters" for language in ("C", "Lustre", "tables"))
    if options.inputs is not None:
        yield "the " + checks[0].synth(options.inputs)


def run(options: argparse.Namespace, program: Program) -> int:
    if options.implies and len(options.others) != 1 or options.others and not (options.implies or options.together or options.follows):
        print("ask verify: --implies takes two files, --together and --follows any number, and the others one", file=sys.stderr)
        return 2
    try:
        for line in verified(options, partial(asked, program)):
            print("verified:", line)
        return 0
    except (Wrong, Fault) as wrong:
        print("different:", *(["the program takes this text, and the parser does not:"] if isinstance(wrong, Fault) else []), wrong)
        return 1
    except Cannot as cannot:
        print(f"cannot be verified: {cannot}", file=sys.stderr)
        return 3
