"""Which program answers: its version and revision, and whether it is proved."""
import os
import subprocess
from typing import List

from kept import checksum_of
from program import BUILT, ROOT, SCRIPT, Program

RECORD = os.path.join(ROOT, "VERSION")  # where the workbench is installed, of all installed files


def revision(program: Program) -> str:
    """One phrase: the repository's own program is known by ./dcvalid --version, an installed one by its record, another one by its checksum."""
    path = program.command()
    if path in (BUILT, SCRIPT):
        return spoken(subprocess.run([SCRIPT, "--version"], stdout=subprocess.PIPE, check=False).stdout.decode("utf-8", "replace").splitlines())
    checksum = checksum_of(path)
    with open(RECORD, encoding="utf-8", errors="replace") as file:
        record = file.read().splitlines()
    if any(line.split()[:1] == [checksum] for line in record):
        return spoken(record)
    return f"the program {os.path.basename(path)} (SHA-256 {checksum[:16]}..), of which it is not known here whether it is proved"


def spoken(lines: List[str]) -> str:
    return ", ".join(line for line in lines if line.startswith(("dcvalid ", "revision: ", "kit: ", "proved: ")))
