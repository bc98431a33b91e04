#!/usr/bin/env python3
"""Counts how the work of a command grows where a shortcut of the code keeps it small. By hand, half a minute:

    DCVALID=PROGRAM tests/work.py

The contracts of these shortcuts allow "no" as an answer always, which changes no result and costs time alone. So each is tried on an input and on one twice as
large, and the quotient of the instructions that callgrind counts has to stay below a bound. Without the shortcut the quotient is beyond it. Nothing is timed.
"""
import os
import re
import subprocess
import sys
import tempfile
from typing import Callable, List, NamedTuple

from tested import tested


class Case(NamedTuple):
    shortcut: str
    command: str
    text: Callable[[int], str]  # of this size
    size: int
    most: float  # the greatest quotient
    without: float  # the quotient without the shortcut, as it was measured


def chop(size: int) -> str:
    return f"var a, b, c, d;\nprop parity as a <=> b <=> c <=> d;\ninfer true ^ (slen = {size} && [[parity]]);\n"


def exists(size: int) -> str:
    return f"var a;\ninfer ex t. ((scount t = {size} || scount t = 2) && true ^ <t && a> ^ true);\n"


def early(size: int) -> str:
    return f"var p, q;\ninfer (scount p >= {size} || [[q]]) && (scount q >= {size} || [[p]]);\n"


def steady(size: int) -> str:
    """An automaton's text in which no state accepts, with so many suffixes."""
    states = 2000
    lines = ["automaton 1", "variables p", f"states {states}", *(f"state {number} reject t{min(number + 1, states - 1)}" for number in range(states))]
    lines += ["access 0 empty", "access 1 start 0", *(f"access {number} {number - 1} 0" for number in range(2, states)), "suffix 0 empty"]
    half = size // 2
    lines += [f"suffix {number} 0 0" for number in range(1, half + 1)] + [f"suffix {half + number} 0 {number}" for number in range(1, half + 1)]
    return "\n".join([*lines, "end", ""])


CASES = [
    Case("the row of a large set is made from that of a smaller one, in a chop", "check", chop, 200, 2.8, 3.6),
    Case("the same, in a quantifier", "check", exists, 50, 5.5, 7.2),
    Case("a verdict that ends early", "check", early, 30, 2.4, 3.3),
    Case("nothing is tried after a suffix that is the same at all states", "certify", steady, 2000, 1.5, 1.9),
]


def instructions(words: List[str]) -> int:
    with tempfile.NamedTemporaryFile() as output:
        done = subprocess.run(["valgrind", "--tool=callgrind", f"--callgrind-out-file={output.name}", *words], capture_output=True, text=True, check=False)
    found = re.search(r"Collected : (\d+)", done.stderr)
    if found is None:
        raise SystemExit(f"tests/work.py: {' '.join(words)} was not counted: {done.stderr[-400:]}")
    return int(found[1])


def quotient(path: str, case: Case) -> float:
    counts = []
    with tempfile.TemporaryDirectory() as folder:
        for size in (case.size, 2 * case.size):
            file = os.path.join(folder, "text")
            with open(file, "w", encoding="ascii") as text:
                text.write(case.text(size))
            counts.append(instructions([path, case.command, file]))
    return counts[1] / counts[0]


def main() -> int:
    path, failed = tested(), 0
    for case in CASES:
        found = quotient(path, case)
        failed += found > case.most
        print(f"{'passed' if found <= case.most else 'FAILED'}: {case.shortcut}: {found:.2f}, at most {case.most} ({case.without} without it)")
    print(f"{len(CASES) - failed} passed, {failed} failed")
    return 1 if failed else 0


if __name__ == "__main__":
    sys.exit(main())
