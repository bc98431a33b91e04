#!/usr/bin/env python3
"""Measures `dcvalid check` on short texts that take much memory or time, each once:

    bench/sizes.py            every text
    bench/sizes.py NAME ..    these

A run may take 100 s of processor time and 2 GB of address space. The columns are the processor time, the most memory, and the answer. PROGRAM names the program.

    dense               a chop whose sets have half of 29,900 states
    gap                 a chop after a gap: the sets of a window, before a parity of sixteen variables
    joins               a count of a parity, joined with atoms that look at some of its variables
    waiting N           N large operands that all wait for the innermost one

The last figures: 2 December 2026, an unproved build, an Intel Xeon at 2.5 GHz with a load of 6 on its four processors, before all others.

  dense            56 bytes     2.4 s     60.2 MB  not valid
  gap             211 bytes     1.2 s     61.3 MB  not valid
  joins           311 bytes     1.6 s     58.5 MB  not valid
  waiting 20     2485 bytes    19.3 s   1007.0 MB  fault memory

The day before, with rows of sets by all their states and sets as lists: 4.4 s and 1,711 MB, 80.6 s and 600 MB, 4.5 s and 64 MB, 50.0 s.
"""
import os
import random
import resource
import signal
import string
import sys
import tempfile
from typing import Dict, Sequence

import measured
from beside_mona import first, program

NAMES = list(string.ascii_lowercase[:16])
SECONDS, BYTES = 100, 2 << 30
PARITY = " <=> ".join(NAMES)


def declared(text: str) -> str:
    return f"var {', '.join(NAMES)};\n{text}"


def waiting(levels: int) -> str:
    """A conjunction of counts that nests to the right: each left operand has a proposition of its own over all variables."""
    drawn, lines = random.Random(7), []
    for level in range(levels):
        high = NAMES[8:]
        drawn.shuffle(high)
        parts = [" && ".join("!" * (drawn.random() < 0.5) + name for name in pair) for pair in zip(NAMES, high)]
        lines.append(f"prop p{level} as {' || '.join(parts)};\n")
    return declared("".join(lines) + "infer " + "".join(f"scount p{level} >= 1900 && (" for level in range(levels)) + "false" + ")" * levels + ";\n")


TEXTS: Dict[str, str] = {
    "dense": "infer true ^ (slen = 9999 ^ slen = 9999 ^ slen = 9900);\n",
    "gap": declared(f"prop x as {PARITY};\ninfer (slen = 0 || slen >= 5) ^ (slen = 9999 && [[x]]);\n"),
    "joins": declared(f"infer scount ({PARITY}) = 9999 || " + " || ".join(f"<{one} && {other}>" for one, other in zip(NAMES[:12], NAMES[1:13])) + ";\n"),
    "waiting 20": waiting(20), "waiting 80": waiting(80)}


def main(names: Sequence[str]) -> None:
    if not set(names) <= set(TEXTS):
        sys.exit(f"usage: bench/sizes.py [NAME ..], where each NAME is one of: {', '.join(TEXTS)}")
    words = [program(), "check"]
    for limit, most in ((resource.RLIMIT_CPU, SECONDS), (resource.RLIMIT_AS, BYTES)):
        resource.setrlimit(limit, (most, resource.getrlimit(limit)[1]))
    with tempfile.TemporaryDirectory() as folder:
        file, output, errors = (os.path.join(folder, name) for name in ("file", "output", "errors"))
        for name in names or TEXTS:
            with open(file, "w", encoding="ascii") as out:
                out.write(TEXTS[name])
            run = measured.run([*words, file], output, errors)
            said = f"stopped after {SECONDS} s" if run.status == -signal.SIGXCPU else first(output, ".*") or first(errors, ".*") or f"status {run.status}"
            print(f"{name:<12} {len(TEXTS[name]):>6} bytes {run.cpu / 1e6:>7.1f} s {run.memory / 1024:>8.1f} MB  {said}", flush=True)


if __name__ == "__main__":
    main(sys.argv[1:])
