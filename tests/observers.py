#!/usr/bin/env python3
"""Compiles the C observer of each example file and runs it, by hand:

    tests/observers.py [FILE ..]

gcc, and clang where it is there, take each observer inside a program of this script's, with `-std=c99 -Wall -Wextra -Werror -pedantic`. (They
do not warn of a parameter that nothing reads: a variable may be one.) What it returns at each instant of the counterexample, of the example and of
1,000 drawn behaviours is compared with what the formula means, by the evaluator of `least_words.py`, which tries intervals and shares no code with
dcvalid. Where that takes long, drawn behaviours are short.
"""
import os
import random
import shutil
import subprocess
import sys
import tempfile

here = os.path.dirname(os.path.abspath(__file__))
sys.path.insert(0, here)
from least_words import Evaluator, parse, read_text
from tested import tested

FLAGS = ["-std=c99", "-Wall", "-Wextra", "-Werror", "-pedantic", "-Wno-unused-parameter"]
DRAWN, LONGEST = 1000, 9

MAIN = """#include <stdio.h>

{observer}
int main(void)
{{
  int letter[{room}];
  int instants, behaviours, i, k;

  if (scanf("%d", &behaviours) != 1) return 1;
  while (behaviours-- > 0) {{
    if (scanf("%d", &instants) != 1) return 1;
    observer_reset();
    while (instants-- > 0) {{
      for (k = 0; k < {width}; k++) if (scanf("%1d", &letter[k]) != 1) return 1;
      i = observer_step({arguments});
      putchar(i ? '1' : '0');
    }}
    putchar('\\n');
  }}
  return 0;
}}
"""


def run(*words, **more):
    return subprocess.run(words, capture_output=True, text=True, **more)


def shown(verdict, heading):
    """The behaviour after a heading of the verdict, as its lines, and none where it is not there."""
    lines = verdict.split("\n")
    for place, line in enumerate(lines):
        if line.startswith(heading + " "):
            return lines[place + 1:place + 1 + int(line.split()[1])]
    return None


def answers(compiler, observer, width, behaviours, folder):
    source, program = os.path.join(folder, "watch.c"), os.path.join(folder, "watch")
    with open(source, "w") as file:
        file.write(MAIN.format(observer=observer, room=max(width, 1), width=width, arguments=", ".join(f"letter[{k}]" for k in range(width))))
    built = run(compiler, *FLAGS, "-o", program, source)
    if built.returncode:
        sys.exit(f"{compiler} refuses the observer:\n{built.stderr}")
    given = f"{len(behaviours)}\n" + "".join(f"{len(word)}\n{''.join(line.strip('-') for line in word)}\n" for word in behaviours)
    return run(program, input=given).stdout.split()


def judge(path, folder):
    program = tested(os.environ.get("PROGRAM"))
    file = parse(read_text(path))
    goal, width = Evaluator(file).goal, len(file.variables)
    verdict, observer = run(program, "check", path).stdout, run(program, "c", path).stdout
    behaviours, wanted = [], []
    for heading, answer in (("counterexample", "0"), ("example", "1")):
        word = shown(verdict, heading)
        if word:
            behaviours.append(word)
            wanted.append((len(word) - 1, answer))
    drawn = random.Random(path)
    for _ in range(DRAWN):
        word = ["".join(drawn.choice("01") for _ in range(width)) or "-" for _ in range(drawn.randint(1, LONGEST))]
        tracks = tuple(tuple(line[k] == "1" for line in word) for k in range(width))
        behaviours.append(word)
        wanted.append((len(word) - 1, "1" if goal(tracks, 0, len(word) - 1) else "0"))
    for compiler in filter(shutil.which, ("gcc", "clang")):
        got = answers(compiler, observer, width, behaviours, folder)
        for word, line, (last, answer) in zip(behaviours, got, wanted, strict=True):
            if line[last] != answer:
                sys.exit(f"{path} by {compiler}: {answer} is wanted at the end of {' '.join(word)}, and the observer returned {line}")
    print(f"{os.path.basename(path)}: {len(behaviours)} behaviours, {sum(answer == '1' for _, answer in wanted)} of them satisfy it")


if __name__ == "__main__":
    examples = os.path.join(here, "..", "examples")
    with tempfile.TemporaryDirectory() as folder:
        for path in sys.argv[1:] or sorted(os.path.join(examples, name) for name in os.listdir(examples) if name.endswith(".dc")):
            judge(path, folder)
