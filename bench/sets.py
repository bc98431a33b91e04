#!/usr/bin/env python3
"""Measures `together` and `follows` on the sets of examples/sets, with tuples as they are counted, three runs of each:

    bench/sets.py            every set
    bench/sets.py NAME ..    these

The columns are the tuples that the answer needs (the least --tuples with it), the least wall time and processor time, the most memory, and the answer.
PROGRAM names the program.

    pair            openings 300 instants apart, and calls answered in 900: never stuck
    contradiction   openings 900 instants apart, and an opening within 300 of a call: stuck
    three           the pair, and a lamp
    follows         openings 300 instants apart, from openings 900 instants apart and calls answered in 900
    over            all five files, more tuples than the default

The last figures: 1 December 2026, an unproved build, an Intel Xeon at 2.5 GHz with a load of 5 on its four processors; `over` was run once.

  pair                 270001   0.26 s   0.24 s    20.7 MB  never stuck
  contradiction         45751   0.02 s   0.02 s     5.7 MB  stuck 301
  three                807303   0.96 s   0.95 s    58.6 MB  never stuck
  follows             1082104   1.65 s   1.30 s    74.2 MB  follows
  over           over 5000000  17.20 s  13.18 s   516.9 MB  budget tuples 5000000
"""
import os
import sys
import tempfile
from typing import Dict, Sequence, Tuple

import measured
from beside_mona import first, program

FOLDER = os.path.join(os.path.dirname(os.path.dirname(os.path.abspath(__file__))), "examples", "sets")
PAIR = ("openings_apart_300", "answered_in_900")
SETS: Dict[str, Tuple[str, Sequence[str]]] = {
    "pair": ("together", PAIR),
    "contradiction": ("together", ("openings_apart_900", "opened_in_300")),
    "three": ("together", (*PAIR, "lamp_at_most_2")),
    "follows": ("follows", ("openings_apart_300", "openings_apart_900", "answered_in_900")),
    "over": ("together", ("openings_apart_900", "opened_in_300", *PAIR, "lamp_at_most_2")),
}
MOST = 5_000_000  # tuples, by default


def tuples(words: Sequence[str]) -> int:
    """The least limit with which there is an answer, or one more than the default."""
    refused, answered = 0, MOST + 1
    while answered - refused > 1:
        limit = (refused + answered) // 2
        if measured.run([*words, "--tuples", str(limit)]).status == 4:
            refused = limit
        else:
            answered = limit
    return answered


def main(names: Sequence[str]) -> None:
    for name in names or SETS:
        command, files = SETS[name]
        words = [program(), command, *(os.path.join(FOLDER, f"{file}.dc") for file in files)]
        with tempfile.TemporaryDirectory() as room:
            output, errors = os.path.join(room, "out"), os.path.join(room, "err")
            run = measured.least(words, 3, output, errors)
            needed = tuples(words) if run.status < 2 else f"over {MOST}"
            print(f"{name:14} {needed:>12} {run.wall / 1e6:6.2f} s {run.cpu / 1e6:6.2f} s {run.memory / 1e3:7.1f} MB  {answer(output, errors)}")


def answer(output: str, errors: str) -> str:
    """The last heading of the report, or the line of the refusal."""
    with open(output) as file:
        headings = [line.strip() for line in file if line[0].isalpha()]
    return headings[-1] if headings else first(errors, ".*")


if __name__ == "__main__":
    main(sys.argv[1:])
