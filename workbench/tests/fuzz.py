#!/usr/bin/env python3
"""Drawn formulas against a naive evaluator: each command of the workbench is judged on each. It ends with `N passed, N failed`.

    workbench/tests/fuzz.py COUNT SEED        300 1 where they are not given
"""
import argparse
import itertools
import os
import random
import re
import sys
import tempfile
from concurrent.futures import ProcessPoolExecutor
from typing import Callable, Dict, List, Sequence, Tuple

HERE = os.path.dirname(os.path.abspath(__file__))
sys.path[:0] = [HERE, os.path.dirname(HERE)]
import exports  # noqa: E402
import interchange  # noqa: E402
import navigation  # noqa: E402
import omega  # noqa: E402
import suite  # noqa: E402
from analysis import Analysis  # noqa: E402
from asked import Questions  # noqa: E402
from confirmed import Confirmation  # noqa: E402
from documents import Document  # noqa: E402
from expand import Text  # noqa: E402
from expansion import Expansion  # noqa: E402
from joined import read_requirement  # noqa: E402
from language import Tree, parse, to_text  # noqa: E402
from layout import formatted  # noqa: E402
from logs import rows_of  # noqa: E402
from monitors import Heading, Monitor  # noqa: E402
from operands import Question  # noqa: E402
from explain import Explainer  # noqa: E402
from pictures import GAP, HIGH, vcd  # noqa: E402
from program import Program  # noqa: E402
from questions import Requirement  # noqa: E402
from report import Report  # noqa: E402
from report_page import page  # noqa: E402
from review import neighbours  # noqa: E402
from sources import Source  # noqa: E402
from tables import tables_of  # noqa: E402
from test_verify import drawn, holds  # noqa: E402
from verify import Check, asked  # noqa: E402
from single import Watch, pieces  # noqa: E402
from waves import check_columns, columns  # noqa: E402

LETTERS = ("00", "01", "10", "11")
PICTURE_TOP = 26 + GAP / 2  # of the first wave of a picture without a title
Word = Tuple[str, ...]
SHORT: List[Word] = [word for length in (1, 2, 3) for word in itertools.product(LETTERS, repeat=length)]


class Case:
    """Two drawn formulas, which words satisfy them by the definition, and a longer word."""

    def __init__(self, seed: int, program: Program) -> None:
        draw = random.Random(seed)
        self.seed, self.program = seed, program
        self.goals = [parse(f"var p, q; infer {drawn(draw, ['p', 'q'], draw.choice((1, 2, 2, 3)))};").goal for _ in range(2)]
        self.texts = [f"var p, q;\ninfer {to_text(goal)};\n" for goal in self.goals]
        self.good = [{word for word in SHORT if satisfies(goal, word)} for goal in self.goals]
        self.word = tuple(draw.choice(LETTERS) for _ in range(6))


def satisfies(goal: Tree, word: Sequence[str]) -> bool:
    """By the definition, without an automaton."""
    tracks = {name: [letter[place] == "1" for letter in word] for place, name in enumerate("pq")}
    return bool(holds(goal, tracks, 0, len(word) - 1))


def is_least(found: Sequence[str], wanted: Callable[[Word], bool]) -> None:
    """Among the words that are wanted none is shorter or before it; and it is one."""
    first = next((word for word in SHORT if wanted(word)), None)
    assert first == tuple(found) if first or len(found) <= 3 else True, (first, found)


# ---- the judges, each of a command


def judge_check(case: Case) -> None:
    verdict, good = case.program.check(case.texts[0]), case.good[0]
    assert verdict.valid == (verdict.counterexample is None) and verdict.satisfiable == (verdict.example is not None)
    assert not verdict.valid or len(good) == len(SHORT)
    assert verdict.satisfiable or not good
    for word, wanted in ((verdict.counterexample, lambda it: it not in good), (verdict.example, lambda it: it in good)):
        if word is not None:
            is_least(word, wanted)
            assert satisfies(case.goals[0], word) == (word is verdict.example)


def judge_implies(case: Case) -> None:
    word = case.program.implies(*case.texts)
    assert word is not None or case.good[0] <= case.good[1]
    if word is not None:
        assert satisfies(case.goals[0], word) and not satisfies(case.goals[1], word)
        is_least(word, lambda it: it in case.good[0] and it not in case.good[1])


def judge_stuck(case: Case) -> None:
    def keeps(word: Sequence[str]) -> bool:
        return all(satisfies(case.goals[0], word[:length]) for length in range(1, len(word) + 1))

    def ends(word: Sequence[str]) -> bool:
        return keeps(word) and not any(keeps((*word, letter)) for letter in LETTERS)

    word = case.program.stuck(case.texts[0])
    first = () if ends(()) else next((it for it in SHORT if len(it) < 3 and ends(it)), None)
    assert first is None or word is not None and first == tuple(word), (first, word)
    assert word is None or ends(word)


def judge_automaton(case: Case) -> None:
    automaton = case.program.automaton(case.texts[0])
    assert {word for word in SHORT if automaton.accepts(word)} == case.good[0]
    tables = tables_of(automaton)
    for word in [*SHORT, case.word]:
        state = 0
        for letter in word:
            state = tables.step(state, letter)
        assert tables.accept(state) == automaton.accepts(word) == satisfies(case.goals[0], word)


def judge_export(case: Case) -> None:
    """What JSON and HOA say of short behaviours, and of a longer one."""
    automaton = case.program.automaton(case.texts[0])
    texts = interchange.as_json(automaton, "a"), omega.hoa(automaton, "a")
    for word in [*SHORT, case.word]:
        assert exports.json_accepts(texts[0], word) == exports.hoa_accepts(texts[1], word) == satisfies(case.goals[0], word)


def judge_serve(case: Case) -> None:
    """The verdict of a language server; and the text is the same requirement when it was formatted and a name was changed."""
    document = Document("file:///drawn.dc", case.texts[0].replace(" && ", "&&"), 1)
    analysis = Analysis(document, case.program, lambda _: None, 3600)
    analysis.run()
    verdict, summary = case.program.check(case.texts[0]), analysis.summary() or ""
    assert summary.startswith("valid:" if verdict.valid else "not valid:" if verdict.satisfiable else "no behaviour"), summary
    assert f"; {case.program.automaton(case.texts[0]).states} state" in summary and not analysis.fixes
    text = formatted(document.raw) or ""
    for edit in navigation.rename(Document("", text, 1), {"position": {"line": 0, "character": 4}, "newName": "other_p"})["documentChanges"][0]["edits"][::-1]:
        text = Document("", text, 1).changed({"range": edit["range"], "text": edit["newText"]}, 1).raw
    assert case.program.check(text) == verdict, text


def judge_tests(case: Case) -> None:
    automaton = case.program.automaton(case.texts[0])
    words = suite.words_of(automaton)
    traces = suite.without_prefixes(words)
    assert all(any(trace[:len(word)] == word for trace in traces) for word in words[:50])
    for word in words[:40]:
        if len(word) <= 6:
            assert suite.answers_of(automaton, word)[-1] == satisfies(case.goals[0], word)


def judge_watch(case: Case) -> None:
    """From a dump in pieces of 3 rows, and from a CSV file in one."""
    broken = [length for length in range(1, 7) if not satisfies(case.goals[0], case.word[:length])]
    with tempfile.TemporaryDirectory() as room:
        for name, text in (("a.vcd", vcd("pq", case.word)), ("a.csv", "q,p\n" + "".join(f"{letter[1]},{letter[0]}\n" for letter in case.word))):
            path = os.path.join(room, name)
            with open(path, "w", encoding="ascii") as file:
                file.write(text)
            rows, size = rows_of(path, ["p", "q"], {}, period=1 if name == "a.vcd" else None), 3 if name == "a.vcd" else 6
            monitor = Monitor(Heading(name, path, "", "", "pq", {}), case.texts[0], case.program.automaton(case.texts[0]), [])
            watch = Watch(monitor, Confirmation(case.program, room, True, size))
            for part in pieces(rows, size):
                watch.piece(part)
            assert [at + 1 for at, _, _ in watch.violations] == broken and watch.count == 6, name


def judge_draw(case: Case) -> None:
    word = [letter for letter in case.word for _ in range(case.seed % 9 + 1)]
    check_columns(word, columns(word))


def judge_expand(case: Case) -> None:
    """Constants in the place of numbers, and the goal as a macro with a number."""
    text = case.texts[0]
    numbers = sorted({tree.value[1] for tree in case.goals[0].walk() if tree.kind in ("slen", "scount", "sdur")})
    constants = "".join(f"const k{number} = {number};\n" for number in numbers)
    source = text
    for number in numbers:
        for relation in ("=", "<", "<=", ">", ">="):
            source = source.replace(f"{relation} {number}", f"{relation} k{number} + 0")
    assert Expansion(Source("", "drawn", constants + source)).text == text
    assert Expansion(Source("", "drawn", text)).text == text


def judge_review(case: Case) -> None:
    """What tells a part from its neighbour does so, by the definition."""
    with tempfile.TemporaryDirectory() as room:
        path = os.path.join(room, "a.dc")
        with open(path, "w", encoding="ascii") as file:
            file.write(case.texts[0])
        requirement = Requirement(case.program, Text(path, path))
    for it in list(neighbours(requirement))[:4]:
        other = parse(it.text).goal
        assert other != case.goals[0]
        here, there = requirement.difference(requirement.text, it.text), requirement.difference(it.text, requirement.text)
        for word, good, bad in ((here, case.goals[0], other), (there, other, case.goals[0])):
            if isinstance(word, list) and len(word) <= 6:
                assert satisfies(good, word) and not satisfies(bad, word)
            elif word == "same":
                assert not any(satisfies(good, short) and not satisfies(bad, short) for short in SHORT[:20])


def judge_set(case: Case) -> None:
    pair = [read_requirement(str(number), "", lambda _, text=text: (text, None)) for number, text in enumerate(case.texts)]
    questions = Questions(case.program, ())
    both = case.good[0] & case.good[1]
    for it in pair:
        questions.of([it])
    questions.late.clear()  # all is asked, whatever each is alone
    questions.stuck.clear()
    finding = questions.of(pair)
    assert not both or finding is None or finding.kind != "impossible"
    if finding is not None and finding.kind == "stuck":
        assert all(satisfies(goal, finding.word[:length]) for goal in case.goals for length in range(1, len(finding.word) + 1))
    assert questions.follows([pair[0]], pair[1]) == (case.program.implies(*case.texts) is None)


def waves_of(page: str, caption: str) -> List[str]:
    """The word that the pictures below a caption show, read from their lines and the numbers above; nothing where there is no such caption."""
    letters: List[str] = []
    for row in re.findall(r"<svg.*?</svg>", page.partition(caption)[2].partition("</figure>")[0], re.S):
        counts = [int(many or 1) for many in re.findall(r'class="note"[^>]*>(?:(\d+) more|\d+)<', row)]
        waves: Dict[int, List[Tuple[float, bool]]] = {}
        for place, y in re.findall(r"M([\d.]+) ([\d.]+)H", row):
            wave, level = divmod(float(y) - PICTURE_TOP, HIGH + GAP)
            waves.setdefault(int(wave), []).append((float(place), level == 0))
        columns_of = zip(*("".join("01"[high] for _, high in sorted(waves[wave])) for wave in sorted(waves)))
        letters += ["".join(column) for count, column in zip(counts, columns_of) for _ in range(count)]
    return letters


def judge_report(case: Case) -> None:
    """The behaviours on the page, read from their pictures, do what is said of them by the definition."""
    with tempfile.TemporaryDirectory() as room:
        path = os.path.join(room, "a.dc")
        with open(path, "w", encoding="ascii") as file:
            file.write(case.texts[0])
        options = argparse.Namespace(files=[path], inputs="", signals=None, brief=True)
        with case.program.side_by_side(1) as questions, case.program.side_by_side(1) as sections:
            report = Report(options, case.program, questions, sections)
            answers = report.answers()
            text = page("drawn", "", "nobody", report.chapters(answers), answers, {})
    verdict = case.program.check(case.texts[0])
    for caption, known, wanted in (("that breaks it", verdict.counterexample, False), ("that keeps to it", verdict.example, True)):
        word = waves_of(text, caption)
        assert bool(word) == bool(known)
        assert not word or len(word) > 6 or satisfies(case.goals[0], word) == wanted


def judge_verify(case: Case) -> None:
    check = Check(lambda command, *texts, options=(), part=False: asked(case.program, command, *texts, options=options, part=part), case.texts[0])
    check.verdict()
    check.stuck()


def judge_explain(case: Case) -> None:
    with tempfile.TemporaryDirectory() as room:
        path = os.path.join(room, "a.dc")
        with open(path, "w", encoding="ascii") as file:
            file.write(case.texts[0])
        question = Question(["check", path], room)
        answer = case.program.run(question.words)
        lines = Explainer(question, case.program, True).answer(answer)
    assert lines[0].startswith("valid") == (answer.status == 0)
    drawn_word = ["".join(line.split()[1:]) for line in lines if line.strip()[:1].isdigit()]
    verdict = case.program.check(case.texts[0])
    assert drawn_word == [*(verdict.counterexample or ()), *(verdict.example or ())]


JUDGES: Dict[str, Callable[[Case], None]] = {name[6:]: judge for name, judge in list(globals().items()) if name.startswith("judge_")}


def judged(seed: int) -> List[str]:
    """A line for each command that fails on what this seed draws."""
    case, failed = Case(seed, Program()), []
    for name, judge in JUDGES.items():
        try:
            judge(case)
        except Exception as error:  # pylint: disable=broad-except
            failed.append(f"seed {seed}, {name}: {type(error).__name__}: {error}\n  {case.texts[0].strip()}\n  {case.texts[1].strip()}")
    return failed


def fuzz(count: int, seed: int) -> Tuple[int, List[str]]:
    """How many judgements passed, and the lines of those that failed."""
    with ProcessPoolExecutor(os.cpu_count() or 2) as pool:
        failed = [line for lines in pool.map(judged, range(seed, seed + count), chunksize=5) for line in lines]
    return count * len(JUDGES) - len(failed), failed


def main(words: Sequence[str]) -> int:
    count, seed = [int(word) for word in words] if len(words) == 2 else (300, 1)
    passed, failed = fuzz(count, seed)
    for line in failed[:20]:
        print(line)
    print(f"{passed} passed, {len(failed)} failed")
    return 1 if failed else 0


if __name__ == "__main__":
    sys.exit(main(sys.argv[1:]))
