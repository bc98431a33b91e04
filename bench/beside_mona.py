#!/usr/bin/env python3
"""Measures `dcvalid check` and MONA (Debian's package `mona`) in turn, on the cases of bench/families.py:

    bench/beside_mona.py            every case
    bench/beside_mona.py CASE ..    these, as bench/beside_mona.py 'past 12'

Each time is the least of so many runs (RUNS, 5 by default) in milliseconds, start and end of the process included: the processor time of both with their
quotient, and the wall time of both. Then the memory of one run of each in MB. What is valid for one must be valid for the other. Where MONA takes over a
minute there is no quotient. The last lines have the geometric means. PROGRAM names the program.

The last figures: 2 December 2026, MONA 1.4-18, an unproved build of `dcvalid` (`bench/unproved.py`), an Intel Xeon at 2.5 GHz; the least of six runs,
before all others, with a load of 6 on its four processors. The program of the day before had 0.150 in the geometric mean and 0.71 at most, with nothing
beside it. A run of a millisecond or two is mostly the start of a process, which is 0.4 ms.

  case                    ms      MONA  times   wall ms      MONA        MB    MONA  times  answer
  arbiter 2 4            0.7       2.1   0.34       0.9       2.3       2.1     4.5   0.46  not valid
  arbiter 3 4            0.9       2.3   0.38       1.0       2.5       2.0     4.6   0.44  not valid
  arbiter 4 4            1.4       4.2   0.34       1.6       4.3       2.1     4.9   0.44  not valid
  arbiter 5 6           11.1     176.6   0.06      12.6     179.6       4.5    42.0   0.11  not valid
  arbiter 6 5           43.4     442.5   0.10      44.0     444.9      10.9    81.7   0.13  not valid
  arbiter 8 3           83.5     368.6   0.23      84.0     369.3      20.2    82.1   0.25  not valid
  chain 1500             0.8     810.1   0.00       1.0     822.0       2.0     6.3   0.31  not valid
  chain 200              0.6      15.4   0.04       0.8      15.5       2.0     4.6   0.43  not valid
  chain 700              0.7     169.5   0.00       1.0     171.9       1.9     5.4   0.35  not valid
  count 4                0.6       2.2   0.26       1.1       5.6       2.0     4.4   0.45  not valid
  count 6                0.5       3.8   0.12       0.6       3.9       2.0     4.7   0.44  not valid
  count 8                0.6      16.9   0.04       0.9      17.9       2.0     5.0   0.41  not valid
  handshake 14           1.8       7.2   0.25       2.0       7.4       2.2     4.8   0.47  valid
  handshake 25           2.9      13.9   0.21       3.3      14.1       2.5     4.8   0.51  valid
  handshake 40           4.7      27.5   0.17       5.0      27.8       3.5     5.8   0.60  valid
  layers 120             7.2      62.4   0.11       7.5      62.9       3.0    12.7   0.24  not valid
  layers 30              3.6      12.4   0.29       3.8      12.6       2.3     5.7   0.41  not valid
  layers 60              5.6      23.9   0.23       6.0      25.2       2.5     7.2   0.34  not valid
  mixture 12            12.8      41.8   0.31      13.7      43.7       5.8    15.7   0.37  not valid
  mixture 6              1.0       2.8   0.35       1.1       2.9       2.0     4.6   0.44  not valid
  mixture 9              3.5      27.3   0.13       3.8      27.6       3.1    13.8   0.22  not valid
  past 12                5.0      10.2   0.49       5.2      10.7       3.7     6.3   0.58  not valid
  past 6                 0.5       1.5   0.35       0.7       1.6       2.0     4.4   0.47  not valid
  past 9                 1.1       2.7   0.40       1.6       5.5       2.3     4.6   0.50  not valid
  quantified 4           0.6       2.2   0.29       1.8       5.2       1.9     4.5   0.43  not valid
  quantified 6           0.5       3.9   0.13       0.6       4.1       2.0     4.6   0.42  not valid
  quantified 8           0.7      16.1   0.04       0.9      16.4       2.1     5.2   0.40  not valid
  response 11            5.8      11.8   0.49       6.0      12.1       3.8     7.5   0.50  not valid
  response 13           24.4      72.6   0.34      24.8      73.1       9.6    16.9   0.57  not valid
  response 8             1.3       3.0   0.44       2.1       5.6       2.2     5.0   0.44  not valid
  separation 100         0.9      10.5   0.09       1.1      10.9       2.1     4.6   0.47  not valid
  separation 300         1.4      73.4   0.02       1.7      74.0       2.2     4.6   0.48  not valid
  separation 600         2.1     311.3   0.01       2.4     313.0       2.3     5.1   0.45  not valid
  geometric mean of the processor times: 0.123, the greatest 0.49
  geometric mean of the wall times: 0.134, the greatest 0.50

Instructions of one run (callgrind, millions), which no other load disturbs, of an unproved build: on 27 November 2026, before the minimiser divided by
hashes; on 29 November; on 1 December, with a verdict that is not minimised, rows of large sets that are made from those of smaller ones, and arenas that grow
fourfold; with a last operator that is explored no further than its verdict needs; on 2 December, with classes of letters, a memo of two operands in lists, and a
bound slot by slot (now); and MONA's.

  arbiter 5 6          610     367     229      83      74     629
  arbiter 6 5         1636    1073     701     702     275    1312
  arbiter 8 3         1482    1202     905     505     457     891
  chain 700            4.1     3.9     1.2     1.2     1.1    2514
  count 8              0.4     0.4     0.4     0.4     0.4     159
  handshake 40        52.4    51.9      42      42      36     398
  layers 120           103      73      71      71      71     879
  mixture 12           342     285     196     102      92     202
  past 12              181     126      80      80      47     103
  quantified 8         0.8     0.7     0.7     0.7     0.7     160
  response 13          608     435     387     388     255     421
  separation 300      13.3    12.7    10.3    10.4     9.5    1234
  15 macros that double their number of conjunctions (`m14`): 574 and 187
Maps of the memo that grow fourfold too took 0.4 % less, and up to a quarter more memory.
"""
import math
import os
import re
import subprocess
import sys
import tempfile
from typing import Dict, List, Tuple

import families
import measured
import to_mona

HERE = os.path.dirname(os.path.abspath(__file__))
BUILT = os.path.join(HERE, "..", "crates", "dcvalid", "out", "dcvalid")
ROW = "{:<16} {:>9} {:>9} {:>6}  {:>8} {:>9}   {:>7} {:>7} {:>6}  {}"
SAYS = {"valid": ("is valid",), "not valid": ("is unsatisfiable", "counter-example")}


def program() -> str:
    """The program, which is proved unless PROGRAM names it: without proofs it may have checks in it, which cost time."""
    if not os.environ.get("PROGRAM") and subprocess.run([os.path.join(HERE, "..", "dcvalid"), "--require-proof", "--build"], check=False).returncode:
        sys.exit(1)
    return os.environ.get("PROGRAM") or BUILT


def first(path: str, pattern: str) -> str:
    with open(path, encoding="latin-1") as file:
        found = re.search(pattern, file.read(), re.M)
    return found.group() if found else ""


def measure(case: str, ours: List[str], mona: List[str], output: str) -> Tuple[float, float]:
    """A line of the table: the quotients of processor time and wall time, or 1 where MONA takes too long."""
    runs: Dict[str, List[measured.Run]] = {"ours": [measured.run(ours, output)]}
    answer = first(output, ".*")
    runs["mona"] = [measured.run(mona, output, seconds=60)]
    theirs = first(output, "is valid|is unsatisfiable|counter-example")
    ended = runs["mona"][0].status == 0
    if ended and theirs not in SAYS[answer]:
        sys.exit(f"{case}: {answer} here, {theirs or 'no answer'} by MONA")
    for _ in range(int(os.environ.get("RUNS", 5)) - 1):
        runs["ours"].append(measured.run(ours))
        if ended:
            runs["mona"].append(measured.run(mona))
    cpu, wall = ([min(getattr(run, kind) for run in runs[who]) / 1000 for who in runs] for kind in ("cpu", "wall"))
    kept = [measured.memory(words, runs[who][0].memory, 60) / 1024 for who, words in (("ours", ours), ("mona", mona))]
    quotients = [f"{one / other:.2f}" if ended else "-" for one, other in (cpu, kept)]
    print(ROW.format(case, f"{cpu[0]:.1f}", f"{cpu[1]:.1f}", quotients[0], f"{wall[0]:.1f}", f"{wall[1]:.1f}",
                     f"{kept[0]:.1f}", f"{kept[1]:.1f}", quotients[1], answer), flush=True)
    return (cpu[0] / cpu[1], wall[0] / wall[1]) if ended else (0, 0)


def main(cases: List[str]) -> None:
    if not {case.split(" ")[0] for case in cases} <= set(families.FAMILIES):
        sys.exit(f"usage: bench/beside_mona.py [CASE ..], where each CASE is a family and its sizes; the families are: {', '.join(families.FAMILIES)}")
    ours, found = program(), []
    print(ROW.format("case", "ms", "MONA", "times", "wall ms", "MONA", "MB", "MONA", "times", "answer"))
    with tempfile.TemporaryDirectory() as folder:
        file, question, output = (os.path.join(folder, name) for name in ("file", "question", "output"))
        for case in cases or sorted(families.CASES):
            name, *sizes = case.split()
            text = families.FAMILIES[name](*map(int, sizes))
            for path, written in ((file, text), (question, to_mona.Question().of_file(to_mona.parse(text)))):
                with open(path, "w", encoding="ascii") as out:
                    out.write(written)
            found.append(measure(case, [ours, "check", file], ["mona", "-q", question], output))
    for title, quotients in zip(("processor", "wall"), zip(*found)):
        logs = [math.log(it) for it in quotients if it]
        print(f"geometric mean of the {title} times: {math.exp(sum(logs) / len(logs)):.3f}, the greatest {max(quotients):.2f}" if logs else "")


if __name__ == "__main__":
    main(sys.argv[1:])
