#!/usr/bin/env python3
"""The costs of proofs: a table of the processor seconds of each crate, and the figures that follow from it. By hand:

    tests/gate_costs.py watch CLONE   samples the checks of a gate that runs in CLONE, until it ends, and puts their seconds into the table
    tests/gate_costs.py               prints the figures, and each claim of a page that is more than a tenth away from its figure

The table is tests/costs.txt, with a line for each crate: its name, and the seconds of its proof, of its tests and of its edits. ./dcvalid reads
it to report how far a proof is. Only checks that a gate makes from nothing are put into it: what is kept from earlier runs costs nothing. A proof's
seconds after a `~` are an estimate, until a gate that proves the crate is watched. Lines `measured NAME NUMBER` have the figures that no crate has.
"""
import os
import re
import sys
import time
from pathlib import Path
from typing import Dict, Iterator, List, Tuple

ROOT = os.path.dirname(os.path.dirname(os.path.abspath(__file__)))
TABLE = os.path.join(ROOT, "tests", "costs.txt")
KINDS = ("proof", "tests", "edits")
TICKS = os.sysconf("SC_CLK_TCK")


def read_table():
    """The seconds of each crate by kind, and whether those of its proof are an estimate."""
    costs = {}
    for name, *seconds in lines_of_table():
        if name != "measured":
            costs[name] = dict(zip(KINDS, (int(each.lstrip("~")) for each in seconds)))
            costs[name]["estimate"] = seconds[0].startswith("~")
    return costs


def lines_of_table() -> List[List[str]]:
    with open(TABLE, encoding="ascii") as file:
        return [line.split() for line in file if line.strip() and not line.startswith("#")]


def measured() -> Dict[str, int]:
    """The figures that no crate has, as they were measured last."""
    return {line[1]: int(line[2]) for line in lines_of_table() if line[0] == "measured"}


def read_crates():
    """The crates of crates.txt, each with those of them that it uses."""
    needs = {}
    with open(os.path.join(ROOT, "crates.txt"), encoding="utf-8") as file:
        for line in file:
            name, colon, rest = line.split("#")[0].partition(":")
            if colon:
                needs[name.split()[0]] = rest.split()
    return {name: [dep for dep in deps if dep in needs] for name, deps in needs.items()}


def write_table(costs):
    kept = measured()
    with open(TABLE, "w", encoding="ascii") as file:
        file.write("# processor seconds of each crate: proof, tests, edits (tests/gate_costs.py; ~ before a proof's is an estimate)\n")
        for name in read_crates():
            row = costs.get(name, {})
            mark = "~" if row.get("estimate") else ""
            file.write(f"{name} {mark}{' '.join(str(round(row.get(kind, 0))) for kind in KINDS)}\n")
        file.writelines(f"measured {name} {number}\n" for name, number in kept.items())


# ---- a gate that runs

def words_of(process):
    with open(f"/proc/{process}/cmdline", "rb") as file:
        return [word.decode("latin-1") for word in file.read().split(b"\0")]


def look(clone, checks):
    """Notes the processor seconds that each check of the gate has taken so far, by its process; returns whether the gate is there."""
    is_there = False
    for process in filter(str.isdigit, os.listdir("/proc")):
        try:
            words, folder = words_of(process), os.readlink(f"/proc/{process}/cwd")
            is_there |= "ci" in words and any(word.endswith("/rt") for word in words) and folder == clone
            if os.path.basename(words[0]) != "rattle" or "--crate-name" not in words:
                continue
            with open(f"/proc/{process}/stat", encoding="latin-1") as file:
                fields = file.read().rpartition(")")[2].split()
        except OSError:
            continue
        is_edit = "rt-edit-" in folder
        if is_edit or folder.startswith(f"{clone}/"):
            kind = "edits" if is_edit else "tests" if "--test" in words else "proof"
            name = words[words.index("--crate-name") + 1]
            checks[process, fields[19]] = (name, kind, sum(map(int, fields[11:15])) / TICKS)
    return is_there


def watch(clone):
    """The seconds of a gate's checks by crate and kind, once it has ended."""
    checks = {}
    while look(os.path.realpath(clone), checks):
        time.sleep(1)
    costs = {}
    for name, kind, seconds in checks.values():
        row = costs.setdefault(name, {})
        row[kind] = row.get(kind, 0) + seconds
    return costs


# ---- what follows from the table

def clock(costs, needs, processors):
    """The seconds that a gate takes, where each processor takes the check that is ready and has the longest chain after it."""
    tasks = {(name, "proof"): needs[name] for name in needs}
    for name in needs:
        for kind in ("tests", "edits"):
            if costs.get(name, {}).get(kind):
                tasks[name, kind] = needs[name] + [name] * (kind == "edits")
    above = {name: [other for other in needs if name in needs[other]] for name in needs}
    chains = {}

    def chain(name):
        if name not in chains:
            chains[name] = costs.get(name, {}).get("proof", 0) + max(map(chain, above[name]), default=0)
        return chains[name]

    def rank(task):
        return chain(task[0]) if task[1] == "proof" else costs[task[0]][task[1]]

    now, done, running = 0, set(), []
    while tasks or running:
        ready = [task for task, waits in tasks.items() if all(dep in done for dep in waits)]
        for task in sorted(ready, key=rank, reverse=True)[: processors - len(running)]:
            del tasks[task]
            running.append((now + costs.get(task[0], {}).get(task[1], 0), task))
        running.sort()
        now, (name, kind) = running.pop(0)
        if kind == "proof":
            done.add(name)
    return now


def crates_of(program: str, needs: Dict[str, List[str]]) -> List[str]:
    """A crate and those below it."""
    found, todo = {program}, [program]
    while todo:
        for dep in needs[todo.pop()]:
            if dep not in found:
                found.add(dep)
                todo.append(dep)
    return sorted(found)


def figures() -> Dict[str, float]:
    """Each figure by its name: minutes of `gate` and `proof`, of processor time or of clock on 4 and on 2 processors, and what was measured."""
    costs, needs = read_table(), read_crates()
    names = crates_of("dcvalid", needs)
    proofs = {name: {"proof": costs.get(name, {}).get("proof", 0)} for name in names}
    found: Dict[str, float] = {kind: sum(costs.get(name, {}).get(kind, 0) for name in needs) / 60 for kind in KINDS}
    found = {f"gate {kind}": minutes for kind, minutes in found.items()}
    found["gate processor"] = sum(found.values())
    found["proof processor"] = sum(row["proof"] for row in proofs.values()) / 60
    for processors in (4, 2):
        found[f"gate {processors}"] = clock(costs, needs, processors) / 60
        found[f"proof {processors}"] = clock(proofs, {name: needs[name] for name in names}, processors) / 60
    return {**found, **measured()}


# ---- what pages claim

HOURS = {"half an hour": 30, "an hour": 60, "an hour and a quarter": 75, "an hour and a half": 90}
QUARTER = 15  # minutes: an amount in words is right to half of that
AMOUNT = rf"(\d+|{'|'.join(sorted(HOURS, key=len, reverse=True))})"
ON = re.compile(rf"\b{AMOUNT}(?: minutes)? on (four|two)\b")
PROCESSOR = re.compile(r"\b(\d+) (?:processor minutes|minutes of processor time)")
BUILD = re.compile(r"\b(?:(\d+) to )?(\d+) s(?:econds)?\b")
DISK = re.compile(r"\b(\d+) GB of disk")


def claims(line: str) -> Iterator[Tuple[str, float]]:
    """The figures that a line of a page names, with its numbers: of the gate where it is named, and otherwise of a proof of the program."""
    kind = "gate" if re.search(r"gate|\.ci/run", line) else "proof" if re.search(r"prov|proof|first call", line) else None
    if kind is None:
        return
    for amount, processors in ON.findall(line):
        yield f"{kind} {'4' if processors == 'four' else '2'}", HOURS.get(amount) or int(amount)
    for amount in PROCESSOR.findall(line):
        yield f"{kind} processor", int(amount)
    for amount in DISK.findall(line):
        yield "disk_gigabytes", int(amount)
    if "first call" in line or "builds the program without its proofs" in line:
        for least, most in BUILD.findall(line):
            yield "unproved_seconds", (int(least or most) + int(most)) / 2


def differing() -> Tuple[List[str], int]:
    """The claims of pages that are wrong, most by more than a tenth of their figure, and how many claims there are."""
    known, wrong, count, seen = figures(), [], 0, set()
    for page in (Path(ROOT, "README.md"), Path(ROOT, "CONTRIBUTING.md"), *sorted(Path(ROOT, "docs").glob("*.md"))):
        for number, line in enumerate(page.read_text(encoding="utf-8").split("\n") if page.exists() else (), 1):
            for name, claimed in claims(line):
                count += 1
                seen.add((page.name, name))
                if abs(claimed - known[name]) > (QUARTER / 2 if claimed in HOURS.values() else known[name] / 10):
                    wrong.append(f"{page.name}:{number}: {name} is {known[name]:.0f}, and not {claimed:g}")
    wrong += [f"README.md names no figure of {name}" for name in ("proof 4", "gate 4") if ("README.md", name) not in seen]
    return wrong, count


def report() -> int:
    """Prints the figures and the claims that differ; the status."""
    for name, number in figures().items():
        print(f"{name}: {number:.0f}")
    print(f"minutes of proofs that are estimates: {sum(row['proof'] for row in read_table().values() if row['estimate']) / 60:.0f}")
    wrong, count = differing()
    print("\n".join([*wrong, f"{count} claims of pages, {len(wrong)} differ"]))
    return 1 if wrong else 0


def main():
    words = sys.argv[1:]
    if words[:1] == ["watch"] and len(words) == 2:
        costs = read_table()
        for name, row in watch(words[1]).items():
            costs.setdefault(name, {}).update({"estimate": False} if "proof" in row else {}, **row)
        write_table(costs)
    elif words:
        sys.exit(__doc__)
    return report()


if __name__ == "__main__":
    sys.exit(main())
