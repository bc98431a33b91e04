#!/usr/bin/env python3
"""Measures `./ask export` at 5, 102, 1,002 and 9,000 states: the size of each text, its time, and the time and the cells of Yosys. It prints rows of a table.

    DCVALID=PROGRAM bench/export.py [SECONDS]        Yosys has so many seconds for each module, 600 where it is not given

The requirement is examples/response.dc with another number. Times are processor time of a command and its children, so that other work on the machine
matters less. It needs yosys and iverilog, which Debian has in packages of these names.
"""
import os
import re
import sys
import tempfile
from typing import List, Sequence

import measured

ROOT = os.path.dirname(os.path.dirname(os.path.abspath(__file__)))
NUMBERS = (3, 100, 1000, 8998)


def timed(words: Sequence[str], out: str, seconds: float = 3600) -> str:
    """Runs a command with its output in a file: the processor time, or a word where it did not end well. `timeout` ends its children too."""
    run = measured.run(["timeout", str(seconds), *words], out)
    return f"{run.cpu / 1e6:.1f} s" if run.status == 0 else {124: f"over {seconds:.0f} s", 127: "not there"}.get(run.status, f"status {run.status}")


def row(room: str, number: int, seconds: float) -> List[str]:
    path, out = os.path.join(room, "response.dc"), os.path.join(room, "out")
    with open(os.path.join(ROOT, "examples", "response.dc")) as source, open(path, "w") as file:
        file.write(source.read().replace("slen >= 3", f"slen >= {number}"))
    ask = [os.path.join(ROOT, "ask"), "export", path, "--to"]
    cells, states = [], 0
    for to in ("hoa", "json"):
        took = timed([*ask, to], out)
        cells.append(f"{os.path.getsize(out):,} bytes, {took}")
        states = states or len(re.findall(r"^State: ", open(out).read(), re.M)) - 2
    for form in ("cases", "tables"):
        module, stat = os.path.join(room, f"{form}.v"), os.path.join(room, "stat")
        took = timed([*ask, "verilog", "--form", form, "--module", "measured"], module)
        checked = timed([*ask, "verilog", "--module", "measured", "--verify", module], out)
        script = f"read_verilog {module}; synth -flatten -top measured; tee -o {stat} stat"
        synthesised = timed(["yosys", "-q", "-p", script], out, seconds)
        found = re.findall(r"Number of cells: +(\d+)", open(stat).read()) if synthesised.endswith(" s") and synthesised[0] != "o" else []
        cells += [f"{os.path.getsize(module):,} bytes, {took}", checked, synthesised + (f", {int(found[-1]):,} cells" if found else "")]
    return [f"{states:,}", *cells]


def main(words: Sequence[str]) -> int:
    if words and not re.fullmatch(r"[0-9]+(\.[0-9]+)?", words[0]):
        sys.exit("usage: bench/export.py [SECONDS]")
    seconds = float(words[0]) if words else 600
    print("| States | HOA | JSON | Cases | Check of these | Yosys | Tables | Check of these | Yosys |\n" + "|---" * 9 + "|")
    with tempfile.TemporaryDirectory() as room:
        for number in NUMBERS:
            print("| " + " | ".join(row(room, number, seconds)) + " |", flush=True)
    return 0


if __name__ == "__main__":
    sys.exit(main(sys.argv[1:]))
