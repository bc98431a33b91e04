"""`report`: one page in HTML about one or many requirements, for a review meeting. It needs no network and has no scripts."""
import argparse
import os
import sys
from concurrent.futures import ThreadPoolExecutor
from typing import Dict, Iterable, List, Optional, Sequence, Tuple

import expand
import faults
from asked import Finding, Questions, Unanswered
from glossary import glossary
from joined import Requirement, named, read_requirement
from language import read_text
from nearby import near_names, strange_names
from printer import print_pdf
from program import Program, Refusal
from questions import THREADS
from questions import Requirement as Asked
from report_chapter import Chapter
from report_page import Apart, anchors, page
from review import Review, reviewed, telling
from revision import revision
from sets import Answers, Survey, unknown_inputs
from shapes import SourceFault
from signals import listed
from sources import load
from streams import is_stream, write_text

ALONE = {"alone": "whether it gets stuck"}  # the question that is left of one requirement whose verdict is known
WITH = {"impossible": "No behaviour satisfies it together with", "no first instant": "No first instant keeps to it and to",
        "stuck": "It gets stuck together with", "unrealisable": "No controller keeps to it together with"}


class Report:
    """What is asked of requirements for a report: `questions` and `sections` are pools, of which the second waits for the first."""

    def __init__(self, options: argparse.Namespace, program: Program, questions: ThreadPoolExecutor, sections: ThreadPoolExecutor) -> None:
        self.options, self.program, self.pool, self.sections = options, program, questions, sections
        self.requirements = [read_requirement(name, path, self.expanded) for name, path in named(options.files)]
        self.inputs = tuple(name for name in options.inputs.split(",") if name)
        self.asked = Questions(program, self.inputs)

    def expanded(self, path: str) -> Tuple[Optional[str], Optional[List[str]]]:
        return expand.read(lambda: load(path, path), self.program)

    def answers(self) -> Answers:
        """The answers of `set`."""
        found = Survey(self.requirements, self.asked, self.pool, self.inputs).run()
        found.near = list(near_names(self.requirements))
        if self.options.signals:
            found.strange = list(strange_names(self.requirements, [it.name for it in listed(self.options.signals)]))
        return found

    def chapters(self, answers: Answers) -> List[Chapter]:
        """A chapter for each requirement, with links to those that it has to do with."""
        found = [self.chapter(it, anchor, answers) for it, anchor in zip(self.requirements, anchors(self.requirements))]
        by_requirement = {it.it: it for it in found}

        def links(those: Iterable[Requirement]) -> str:
            return " and ".join(by_requirement[it].link for it in those)

        for it in found:
            it.related += [f"{WITH[finding.kind]} {links(other for other in finding.members if other is not it.it)}." for finding in it.together]
            it.related += [f"It implies {links([right])}." for left, right in answers.implied if left == (it.it,)]
            it.related += [f"It follows from {links(left)}." for left, right in answers.implied if right is it.it]
        return found

    def chapter(self, it: Requirement, anchor: str, answers: Answers) -> Chapter:
        try:
            source = read_text(it.path)
        except OSError:  # the fault of the requirement says so
            source = ""
        unasked = list(dict.fromkeys(f"{ALONE.get(what, what)}: {why}" for members, what, why in answers.unasked if members == (it,)))
        chapter = Chapter(it, anchor, source, glossary(source, self.options.signals), answers.alone[it],
                          [finding for finding in answers.findings if it in finding.members], it in answers.late, unasked)
        if it.fault is not None:
            chapter.refusal = [*it.fault, *self.repaired(it.path)]
        else:
            try:
                chapter.review = self.review(it.path)
            except Refusal as refusal:
                if not refusal.over_limits:
                    raise
                chapter.refusal = faults.explained(refusal, it.path, it.path, self.program)[0]
        return chapter

    def repaired(self, path: str) -> List[str]:
        """What may stand at the fault of a file, and the change after which no fault is left; of a source nothing."""
        try:
            whole = expand.Text(path, path)
            fault = self.program.fault(whole.text) if whole.expansion is None else None
        except (OSError, SourceFault):
            return []
        return faults.repaired(self.program, whole.text, fault) if fault else []

    def review(self, path: str) -> Review:
        """The answers of `review`, or with --brief the example alone."""
        requirement = Asked(self.program, expand.Text(path, path), self.pool)
        return Review(requirement, telling(requirement), [], [], []) if self.options.brief else reviewed(requirement, self.sections)

    def apart(self, answers: Answers) -> Dict[Finding, Apart]:
        """For what no behaviour satisfies together: of each requirement a shortest behaviour that satisfies the others."""
        return {finding: [(it, *found) for it in finding.members for found in self.others(finding, it)]
                for finding in answers.findings if finding.kind == "impossible"}

    def others(self, finding: Finding, it: Requirement) -> List[Tuple[Sequence[Requirement], Sequence[str]]]:
        rest = [other for other in finding.members if other is not it]
        try:
            example = self.asked.asked(lambda: self.program.together([other.text for other in rest])).example
        except Unanswered:
            return []
        return [(rest, example)] if example else []


def add_arguments(parser: argparse.ArgumentParser) -> None:
    parser.epilog = ("Status 1 where something is not well, as with set. Without --date the same files give the same bytes. "
                     "The files may have constants, use and numbers as arguments, as expand takes them.")
    parser.add_argument("files", metavar="FILE", nargs="+")
    parser.add_argument("--out", metavar="PAGE", required=True, help="the page that is written")
    parser.add_argument("--pdf", metavar="OUT", help="prints it as PDF too, where a Chromium is installed")
    parser.add_argument("--title", metavar="TEXT", help="the heading of the page")
    parser.add_argument("--date", metavar="TEXT", default="", help="a date below the heading")
    parser.add_argument("--inputs", metavar="NAMES", default="", help="the inputs, as a,b: asks too whether a controller of the other names exists")
    parser.add_argument("--signals", metavar="LIST", help="the names that there are, with their meanings: other names are reported")
    parser.add_argument("--brief", action="store_true", help="leaves out boundaries, near misses and what does not matter, which take most of the time")
    parser.add_argument("--jobs", metavar="N", type=int, default=THREADS, help="how many questions are asked at a time")


def run(options: argparse.Namespace, program: Program) -> int:
    stream = next((path for path in options.files if is_stream(path)), None)
    if stream is not None:
        print(f"ask report: {stream} can be read once only; a report takes files", file=sys.stderr)
        return 5
    os.environ["COLUMNS"] = "100"  # messages on the page are not as wide as a terminal
    program.command()  # built first, since without a program no fault is found
    with program.side_by_side(max(1, options.jobs)) as questions, program.side_by_side(THREADS) as sections:
        report = Report(options, program, questions, sections)
        strange = unknown_inputs(report.inputs, report.requirements)
        if strange:
            print(f"ask report: no file has a variable {strange[0]}", file=sys.stderr)
            return 2
        answers = report.answers()
        chapters = report.chapters(answers)
        apart = report.apart(answers)
    title = options.title or (chapters[0].title if len(chapters) == 1 else f"{len(chapters)} requirements")
    write_text(options.out, page(title, options.date, revision(program), chapters, answers, apart))
    print(f"written: {options.out}: {len(chapters)} requirement{'s' * (len(chapters) != 1)}: {'all is well' if answers.is_well else 'not all is well'}"
          + (f"; not asked: {len(answers.unasked)}" if answers.unasked else ""))
    if options.pdf:
        print_pdf(os.path.abspath(options.out), os.path.abspath(options.pdf))
        print(f"written: {options.pdf}")
    return 0 if answers.is_well else 1
