#!/usr/bin/env python3
"""Lists each line of the program's crates that makes an `AllocError` or a fault `Memory` of its own, rather than hand on one that came in.

    tests/causes.py

A line hands one on where it, or the line before it in the same arm, matches a fault `Memory` (or an `AllocError`), or where it stands in a `From` of one.
What is left takes more than any memory holds (`docs/DECISIONS.md`), and is named here with what it would take; a line that is not named is a defect.
"""
import os
import re
import subprocess
import sys

ROOT = os.path.dirname(os.path.dirname(os.path.abspath(__file__)))

MAKES = re.compile(r"(Err|ok_or)\((AllocError|\w+::Memory)\)|map_err\(\|_\| (AllocError|\w+::Memory)\)")
HANDS_ON = re.compile(r"Memory\)? =>|OutOfMemory\)? =>|Memory( \{[^}]*\})? =>|Err\(AllocError\) =>|\.map_err\(\|_: AllocError\|")

# file and line, with what it would take
NAMED = {
    ("dcv_refinement/src/numbers.rt", "Err(_) => Err(AllocError),"): "a list of 2^32 entries",
    ("dcv_io/src/text.rt", "if failed { Err(AllocError) } else { Ok(bytes) }"): "nothing: a push of this text was refused memory before",
    ("dcv_atoms/src/atom.rt", "return Err(AtomFault::Memory);"): "a step over more than 32 slots, or a measure of 2^32 - 1, which no text has",
    ("dcv_atoms/src/atom.rt", "None => Err(AtomFault::Memory),"): "2^32 - 1 nodes of the classes of letters of one atom",
    ("dcv_atoms/src/functions.rt", "Err(_) => Err(AtomFault::Memory),"): "2^32 - 1 nodes of what the operands of one proposition are joined to",
    ("dcv_atoms/src/rounds.rt", "return Err(ApplyFault::Memory);"): "2^32 - 1 operands of one proposition",
    ("dcv_c_read/src/observer.rt", "return Err(AllocError);"): "an observer's text of 4 GB",
    ("dcv_lustre_read/src/observer.rt", "return Err(AllocError);"): "an observer's text of 4 GB",
    ("dcv_c_read/src/scope.rt", "return Err(ObsFault::Memory);"): "2^32 names in one unit",
    ("dcv_lustre_read/src/scope.rt", "return Err(ObsFault::Memory);"): "2^32 names in one node",
    ("dcv_replay/src/of_node.rt", "return Err(AllocError);"): "2^31 names in one observer",
    ("dcv_replay/src/selecting.rt", "return Err(AllocError);"): "2^32 names in one observer",
    ("dcv_shelf/src/shelf.rt", "return Err(AllocError);"): "1,000,000,000 tables on one shelf",
    ("dcv_shelf/src/stored.rt", "return Err(AllocError);"): "1,073,741,824 nodes on one shelf",
    ("dcv_stuck/src/sink.rt", "return Err(AllocError);"): "an automaton of 2^32 - 1 states",
}


def sources():
    names = subprocess.run(["git", "ls-files", "crates/*/src/*.rt"], cwd=ROOT, capture_output=True, text=True).stdout.split()
    for name in names:
        crate = name.split("/")[1]
        if not crate.endswith("_tests") and crate not in ("dcv_tables", "dcv_rows"):
            yield name.removeprefix("crates/")


def main():
    found = 0
    for name in sources():
        lines = open(f"{ROOT}/crates/{name}").read().splitlines()
        for number, line in enumerate(lines):
            text = line.strip()
            if text.startswith("//") or not MAKES.search(text):
                continue
            before = lines[number - 1].strip() if number else ""
            if HANDS_ON.search(text) or before.endswith("=> {") and HANDS_ON.search(before) or (name, text) in NAMED:
                continue
            found += 1
            print(f"{name}:{number + 1}: {text}")
    print(f"{found} lines make one of their own, and {len(NAMED)} more are named with their reason")
    return found != 0


if __name__ == "__main__":
    sys.exit(main())
