#!/usr/bin/env python3
"""Writes a set of drawn requirements into a folder, to measure `./ask set` with it:

    bench/drawn_sets.py FILES NAMES SEED FOLDER
    time ./ask set FOLDER/*.dc --tuples 300000

Each file calls one of the patterns, over three to six of so many names in all, with numbers from 2 to 200. The last figures are in docs/SETS.md.
"""
import os
import random
import sys
from typing import List

HERE = os.path.dirname(os.path.dirname(os.path.abspath(__file__)))
sys.path.insert(0, os.path.join(HERE, "workbench"))

import library  # noqa: E402  pylint: disable=wrong-import-position


def proposition(draw: random.Random, names: List[str]) -> str:
    one, other = draw.choice(names), draw.choice(names)
    return draw.choice([one, f"!{one}", f"{one} && {other}", f"{one} || !{other}"])


def requirement(draw: random.Random, names: List[str], pattern: library.Pattern) -> str:
    """A file that calls the pattern: a proposition for each of its variables, and a number for each other parameter."""
    own = sorted(draw.sample(names, draw.randint(3, 6)))
    arguments = [proposition(draw, own) if it in pattern.variables else str(draw.randint(2, 200)) for it in pattern.parameters]
    return f'use "{HERE}/patterns/{pattern.name}.dc";\nvar {", ".join(own)};\ninfer {pattern.name}({", ".join(arguments)});\n'


def main() -> int:
    if len(sys.argv) != 5 or not all(word.isdigit() for word in sys.argv[1:4]) or int(sys.argv[2]) < 6:
        print("usage: bench/drawn_sets.py FILES NAMES SEED FOLDER, with six names or more", file=sys.stderr)
        return 2
    count, names, seed = map(int, sys.argv[1:4])
    draw, patterns = random.Random(seed), library.patterns()
    os.makedirs(sys.argv[4], exist_ok=True)
    for number in range(count):
        with open(os.path.join(sys.argv[4], f"r{number:04}.dc"), "w", encoding="ascii") as file:
            file.write(requirement(draw, [f"s{name:03}" for name in range(names)], draw.choice(patterns)))
    return 0


if __name__ == "__main__":
    sys.exit(main())
