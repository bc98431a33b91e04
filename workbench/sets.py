"""`set`: several requirements together: each alone, pairs, groups that share names, a smallest part that is to blame, what follows from the others."""
import argparse
import operator
import os
import sys
import time
from collections import defaultdict
from concurrent.futures import ThreadPoolExecutor
from dataclasses import dataclass, field
from itertools import accumulate
from typing import Callable, Dict, FrozenSet, List, Optional, Sequence, Set, Tuple, TypeVar

import expand
import limits
from asked import LEAST_TUPLES, Finding, Members, Questions, Unanswered
from grouping import grouped
from joined import Requirement, named, read_requirement
from kept import Kept, Planned
from nearby import near_names, strange_names
from program import Program
from progress import Progress
from sets_report import print_report, sentence, write_junit
from signals import Signal, listed
from sources import load

Got = TypeVar("Got")
Pair = Tuple[Requirement, Requirement]
SOUND = ("stuck", "unrealisable")  # what one may be alone and still be asked about with others


@dataclass
class Answers:
    """All that is told of a set."""

    requirements: List[Requirement]
    inputs: Tuple[str, ...]
    alone: Dict[Requirement, Optional[Finding]] = field(default_factory=dict)  # of each requirement its finding or None
    findings: List[Finding] = field(default_factory=list)  # of several together
    implied: List[Tuple[Members, Requirement]] = field(default_factory=list)  # (left requirements, right one)
    unasked: List[Tuple[Members, str, str]] = field(default_factory=list)  # (requirements, what, why)
    pairs: List[Pair] = field(default_factory=list)
    groups: List[List[Requirement]] = field(default_factory=list)
    late: Set[Requirement] = field(default_factory=set)  # those that are judged at the end alone
    near: List[str] = field(default_factory=list)  # names that are near each other
    strange: List[str] = field(default_factory=list)  # names that are no signals
    signals: Sequence[Signal] = ()  # those of the list

    @property
    def is_well(self) -> bool:
        return not self.findings and not self.strange and not any(self.alone.values())


class Survey:
    """The whole examination of a set."""

    def __init__(self, requirements: List[Requirement], questions: Questions, pool: ThreadPoolExecutor, inputs: Tuple[str, ...]) -> None:
        self.questions, self.pool, self.progress = questions, pool, Progress()
        self.answers = Answers(requirements, inputs)
        self.order = {it: place for place, it in enumerate(requirements)}
        self.bad: Set[FrozenSet[Requirement]] = set()  # pairs that are not well together, or could not be asked about

    def ask(self, requirements: Sequence[Requirement], what: str, question: Callable[[], Got]) -> Optional[Got]:
        """The answer, or None where it can't be had, which is noted."""
        try:
            return question()
        except Unanswered as unanswered:
            self.answers.unasked.append((tuple(requirements), what, str(unanswered)))
            return None

    def each(self, what: str, question: Callable[..., Got], items: Sequence[object]) -> List[Got]:
        """The answers for all items, which are asked side by side."""
        def counted(item: object) -> Got:
            answer = question(item)
            self.progress.step()
            return answer

        self.progress.begin(what, len(items))
        return list(self.pool.map(counted, items))

    def note(self, finding: Finding) -> None:
        self.answers.findings.append(finding)
        self.progress.found([sentence(finding, self.answers.inputs)])

    def run(self) -> Answers:
        answers = self.answers
        good = [it for it in answers.requirements if it.fault is None]
        for it in answers.requirements:
            answers.alone[it] = Finding("fault", (it,)) if it.fault is not None else None
        answers.alone.update(zip(good, self.each("alone", self.one, good)))
        refused = {members[0] for members, what, _ in answers.unasked if what == "alone"}
        sound = [it for it in good if it not in refused and (answers.alone[it] or Finding("stuck")).kind in SOUND]
        answers.pairs = self.pairs(sound)
        if not self.waits():
            self.each("pairs", self.pair, answers.pairs)
        if not self.waits():
            self.group(sound)
            self.each("what follows in groups", self.following, [group for group in answers.groups if len(group) > 2])
        answers.late = self.questions.late
        answers.unasked += self.questions.unasked
        self.sort()
        return answers

    def waits(self) -> bool:
        """Whether questions are asked elsewhere on whose answers it depends what else is asked."""
        kept = self.questions.program.kept
        return isinstance(kept, Planned) and bool(kept.planned)

    def sort(self) -> None:
        """The answers in the order of the requirements, whatever came first."""
        def places(members: Sequence[Requirement]) -> Tuple[int, List[int]]:
            return len(members), [self.order[it] for it in members]

        answers = self.answers
        answers.findings.sort(key=lambda it: places(it.members))
        answers.implied.sort(key=lambda it: (places(it[0]), self.order[it[1]]))
        answers.unasked.sort(key=lambda it: (places(it[0]), it[1]))
        answers.groups.sort(key=lambda it: self.order[it[0]])

    def one(self, requirement: Requirement) -> Optional[Finding]:
        finding = self.ask((requirement,), "alone", lambda: self.questions.of([requirement]))
        if finding:
            self.progress.found([sentence(finding, self.answers.inputs)])
        return finding

    # ---- pairs

    def pairs(self, requirements: Sequence[Requirement]) -> List[Pair]:
        """Those that share names."""
        by_name: Dict[str, List[Requirement]] = defaultdict(list)
        for it in requirements:
            for name in it.variables:
                by_name[name].append(it)
        found = {(one, other) for those in by_name.values() for place, one in enumerate(those) for other in those[place + 1:]}
        return sorted(found, key=lambda pair: (self.order[pair[0]], self.order[pair[1]]))

    def pair(self, pair: Pair) -> None:
        """What is not well with both together; that one implies the other is noted."""
        before = len(self.answers.unasked)
        finding = self.ask(pair, "together", lambda: self.questions.of(pair))
        if finding:
            self.note(finding)
        if finding and finding.kind != "unrealisable" or any(members == pair for members, _, _ in self.answers.unasked[before:]):
            self.bad.add(frozenset(pair))
        for left, right in (pair, pair[::-1]):
            if (finding is None or finding.kind != "impossible") and self.implies(pair, left, right):
                self.answers.implied.append(((left,), right))

    def implies(self, pair: Pair, left: Requirement, right: Requirement) -> Optional[bool]:
        return self.ask(pair, "implication", lambda: self.questions.follows([left], right))

    # ---- groups

    def group(self, requirements: Sequence[Requirement]) -> None:
        """Groups that are well, in rounds: those that are planned are asked about side by side, and who was left out joins the next."""
        todo = list(requirements)
        while todo:
            planned = grouped(todo, self.order, self.bad)
            self.answers.unasked += [(tuple(self.in_order(group)), "with others", why) for group, why in planned if why]
            asked = self.each("groups", self.grown, [group for group, _ in planned])
            self.answers.groups += [kept for kept, _ in asked]
            left = {it for _, dropped in asked for it in dropped}
            todo = [it for it in todo if it in left]

    def sure(self, group: Sequence[Requirement]) -> int:
        """How many of a group, from its first on, can be asked about whatever their behaviours reach; two are asked about as a pair."""
        states = [self.questions.automata[it].states for it in group]
        return max(2, sum(1 for members, product in enumerate(accumulate(states, operator.mul), 1) if product <= self.questions.limit(max(2, members))))

    def grown(self, group: List[Requirement]) -> Tuple[List[Requirement], List[Requirement]]:
        """The group as far as all is well with it and can be asked, and who had to leave it. Beyond those that can be asked about in any
        case it grows by one at a time, until its search reaches too many combinations of states."""
        size = self.sure(group)
        kept, rest, well = group[:size], group[size:], group[:2]  # pairs are well
        dropped: List[Requirement] = []
        while kept != well or rest:
            if kept == well:
                kept.append(rest.pop(0))
            finding, is_refused = self.blamed(kept)
            if is_refused and self.waits():
                return self.in_order(kept + rest), []
            if is_refused:
                dropped, rest = dropped + [kept.pop()] + rest, []
            elif finding is None:
                well = list(kept)
            elif finding.kind == "unrealisable":
                break
            else:
                last = next(it for it in reversed(kept) if it in finding.members)
                kept.remove(last)
                dropped.append(last)
            well = list(kept) if len(kept) <= 2 else well
        return self.in_order(kept), dropped + rest

    def blamed(self, group: Sequence[Requirement]) -> Tuple[Optional[Finding], bool]:
        """What is not well with a group, of a smallest part; and whether the question was refused."""
        try:
            finding = self.questions.of(self.in_order(group))
        except Unanswered as unanswered:
            self.answers.unasked.append(((*self.in_order(group[:-1]), group[-1]), "together", str(unanswered)))
            return None, True
        if finding is not None:
            finding = self.smallest(finding)
            self.note(finding)
        return finding, False

    def in_order(self, group: Sequence[Requirement]) -> List[Requirement]:
        return sorted(group, key=self.order.__getitem__)

    def smallest(self, finding: Finding) -> Finding:
        """The finding of a smallest part that still has one: one requirement after another is left out."""
        for it in finding.members:
            fewer = [other for other in finding.members if other is not it]
            try:
                smaller = self.questions.of(fewer) if len(fewer) > 1 else None
            except Unanswered:
                smaller = None
            if smaller is not None:
                finding = smaller
        return finding

    def following(self, group: List[Requirement]) -> None:
        """Which requirements of a group follow from others together, and from no single one; each with a smallest part that implies it."""
        told = {right for _, right in self.answers.implied}
        for it in group:
            left = [other for other in group if other is not it]
            if it in told or not self.follows(group, left, it):
                continue
            for other in list(left):
                fewer = [one for one in left if one is not other]
                if fewer and self.follows(fewer + [it], fewer, it):
                    left = fewer
            self.answers.implied.append((tuple(left), it))

    def follows(self, members: Sequence[Requirement], left: Sequence[Requirement], it: Requirement) -> Optional[bool]:
        return self.ask(members, f"what implies {it.name}", lambda: self.questions.follows(left, it))


# ---- the command


def add_arguments(parser: argparse.ArgumentParser) -> None:
    parser.epilog = "Status 1 where something is not well. The files may have constants, use and numbers as arguments, as expand takes them."
    parser.add_argument("files", metavar="FILE", nargs="+")
    parser.add_argument("--inputs", metavar="NAMES", default="", help="the inputs, as a,b: asks too whether a controller of the other names exists")
    parser.add_argument("--signals", metavar="LIST", help="the signals that there are, a line for each, as watch reads them: other names are reported")
    parser.add_argument("--jobs", metavar="N", type=int, default=os.cpu_count() or 2, help="how many questions are asked at a time")
    parser.add_argument("--tuples", metavar="N", type=int, default=limits.DEFAULT_TUPLES, help="the most combinations of states that the search over a pair may reach, 1 to "
                        f"{limits.TUPLES} ({limits.DEFAULT_TUPLES} where it is not given); with each further member of a group a fifth, and at least {LEAST_TUPLES}")
    parser.add_argument("--all", action="store_true", help="lists each question that was not asked, too")
    parser.add_argument("--cache", metavar="FOLDER", help="keeps answers there, and asks no question again of the same texts and program")
    parser.add_argument("--plan", metavar="FOLDER", help="asks nothing: writes each open question there, and a list of jobs that answer them")
    parser.add_argument("--take", metavar="FOLDER", help="takes the answers of the jobs, and asks the rest")
    parser.add_argument("--junit", metavar="OUT", help="writes what is told as a report of tests in JUnit's XML")


def unknown_inputs(inputs: Sequence[str], requirements: Sequence[Requirement]) -> List[str]:
    return [name for name in inputs if not any(name in it.variables for it in requirements)]


def run(options: argparse.Namespace, program: Program) -> int:
    start = time.time()
    program.command()  # built first, since without a program no fault is found
    requirements = [read_requirement(name, path, lambda path: expand.read(lambda: load(path, path), program)) for name, path in named(options.files)]
    inputs = tuple(name for name in options.inputs.split(",") if name)
    strange = unknown_inputs(inputs, requirements)
    folders = [folder for folder in (options.cache, options.plan, options.take) if folder]
    if strange or len(folders) > 1:
        print(f"ask set: no file has a variable {strange[0]}" if strange else "ask set: --cache, --plan and --take are one without the others", file=sys.stderr)
        return 2
    signals = listed(options.signals)
    if folders:
        program.kept = Kept(folders[0], program.command()) if options.cache else Planned(folders[0], program.command(), asks=not options.plan)
    tuples = min(max(options.tuples, 1), limits.TUPLES)
    with program.side_by_side(max(1, options.jobs)) as pool:
        answers = Survey(requirements, Questions(program, inputs, tuples), pool, inputs).run()
    if isinstance(program.kept, Planned) and program.kept.planned:
        print(f"{options.plan}: {len(program.kept.planned)} open questions are written, a job for each in {os.path.join(options.plan, 'jobs')}; "
              f"{program.kept.found} are answered")
        return 0
    answers.near = list(near_names(requirements))
    answers.signals = signals
    answers.strange = list(strange_names(requirements, [it.name for it in signals])) if options.signals else []
    print_report(answers, program, time.time() - start, options.all)
    if options.junit:
        write_junit(answers, options.junit)
    return 0 if answers.is_well else 1
