#!/usr/bin/env python3
"""Checks the pages: habits of writing, lines, tables, links, names of files, and the output of the commands that they show. By hand:

    DCVALID=PROGRAM tests/pages.py [PAGE ..]      every page, or these

A page is README.md, CONTRIBUTING.md, a page of docs/, or the README.md of a crate. In a fence of `console` each line after `$ ` is run, and its output is
compared with the lines below it, of which `..` stands for any number; in a fence of `sh` each command has to end with 0 or 1. The commands of a page run in one
folder, with DCVALID, or the built program, as ./dcvalid. Fences of other kinds are not run: `text`, `c`, and `bash` for commands that prove or install. Without
names it also checks the sections of pages that other texts name, and that each crate has a page. Status 1 if anything is listed.
"""
import os
import re
import shutil
import subprocess
import sys
import tempfile
from pathlib import Path
from typing import Iterator, List, Tuple

ROOT = Path(__file__).resolve().parent.parent
PROGRAM = os.environ.get("DCVALID") or str(ROOT / "crates/dcvalid/out/dcvalid")
MOST_LINES, MOST_CELL, SECONDS = 400, 100, 300
LINES_A_WHAT = 20  # a page has one noun clause with "what" in so many lines, and three in any case
Line = Tuple[int, str]

# What a search finds, and what to write instead.
HABITS = [(re.compile(pattern), instead) for pattern, instead in (
    (r"\b[Ww]hat (it takes|they take|is held|is asked|was asked|is told|is taken|wins|one asks|stands|goes|comes|each|was|were|had)\b", "a noun: cost, contents, request"),
    (r"\b[Ss]tands?\b(?! for\b)|\b[Ss]tood\b", "is, is defined in, is listed in"),
    (r"\b([Tt]ell|[Tt]ells|[Tt]old|[Tt]elling)\b", "report, print, return, expose, distinguish"),
    (r"(?<![Tt]here )\b(is|are|was|were) (no|none)\b(?! (\w+er|more)\b)", "is not a"),
    (r"\bby custom\b", "by default"),
    (r"(?<!nothing )(?<!something )(?<!someone )(?<!anything )(?<!everything )(?<!-)\b[Ee]lse\b", "otherwise"),
    (r"\b[Bb]ehind\b", "after"),
    (r"\b(for|to|of) who\b", "for readers who"),
    (r"\bas (large|long|many|small) as (it|they|there|you) (may|might|can)\b|\bso (many|much|often)\b", "the number, or the limit"),
    (r"\bwant of memory\b|\bmemory can be wanting\b", "running out of memory"),
    (r"\btruths\b", "truth values"),
    (r"\bnone of (an?|its own|their)\b", "not a valid"),
    (r"\b([Mm]akes?|[Mm]ade) minimal\b", "minimise"),
    (r"^Of (an?|the|any|two|such) [^,]* that ", "For"),
    (r"\b[Nn]or is it that\b|\b[Nn]ever are both\b", "a plain sentence"),
    (r"\bwords (that )?are taken\b|\barguments which are taken\b", "valid arguments"),
)]

ABBREVIATION = re.compile(r"(?:\b[A-Z]|\be\.g|\bi\.e|\.\.)\.$|\.\.$")


def pages(names: List[str]) -> List[Path]:
    if names:
        return [Path(name).resolve() for name in names]
    return [page for page in (ROOT / "README.md", ROOT / "CONTRIBUTING.md", *sorted(ROOT.glob("docs/*.md")), *sorted(ROOT.glob("crates/*/README.md"))) if page.exists()]


def without_fences(text: str) -> List[Line]:
    """The numbered lines outside all fences."""
    lines, inside = [], False
    for number, line in enumerate(text.split("\n"), 1):
        if re.match(r"\s*```", line):
            inside = not inside
        elif not inside:
            lines.append((number, line))
    return lines


def plain(line: str) -> str:
    """A line with its code as one word, and its links as their text."""
    line = re.sub(r"`[^`]*`", "`x`", line)
    return re.sub(r"!?\[([^\]]*)\]\([^)]*\)", r"\1", line)


def habits(lines: List[Line]) -> Iterator[Line]:
    for number, line in lines:
        for pattern, instead in HABITS:
            for found in pattern.finditer(plain(line)):
                yield number, f"'{found.group()}': write {instead}"


def whats(lines: List[Line]) -> Iterator[Line]:
    found = [number for number, line in lines for _ in re.finditer(r"\bwhat\b", plain(line), re.I) if not line.rstrip().endswith("?")]
    if len(found) > max(3, len(lines) // LINES_A_WHAT):
        yield found[0], f"{len(found)} times \"what\": name the thing"


def sentences(line: str) -> int:
    """How many sentences a line has; a bold beginning is part of the first."""
    count, start = 1, 0
    line = re.sub(r"^\s*([-*]|\d+\.) ", "", line)
    for end in re.finditer(r"[.?!][)\"'*_`]*\s+(?=[A-Z`*\[(\"])", line):
        head = line[start:end.end()].rstrip()
        if head.count("`") % 2 == 0 and not ABBREVIATION.search(head) and head.count("(") <= head.count(")") and not (head.endswith("**") and head.count("**") == 2):
            count, start = count + 1, end.end()
    return count


def is_prose(line: str) -> bool:
    return bool(line.strip()) and not line.startswith(("|", "#", "    ", "<", "!["))


def broken_lines(lines: List[Line]) -> Iterator[Line]:
    """Lines with two sentences, unless each line is a whole paragraph, and sentences that go over two lines."""
    before, last = "", 0
    numbers = {number for number, line in lines if is_prose(line)}
    of_sentences = any(number - 1 in numbers and not re.match(r"\s*([-*]|\d+\.) ", line) for number, line in lines if number in numbers)
    for number, line in lines:
        if is_prose(line) or re.match(r"\s+\S", line):
            if of_sentences and sentences(line) > 1:
                yield number, "two sentences in one line"
            begins = re.match(r"\s*([-*]|\d+\.) ", line)
            if before and last == number - 1 and not begins and not re.search(r"[.:?!;][)\"'*_`]*$|^</?\w+>$", before):
                yield number, "a sentence goes on from the line before"
            before, last = line.rstrip(), number
        else:
            before = ""


def tables(lines: List[Line]) -> Iterator[Line]:
    for number, line in lines:
        if line.startswith("|"):
            bare = re.sub(r"!?\[([^\]]*)\]\([^)]*\)", r"\1", line.replace("\\|", "/"))
            for cell in bare.strip().strip("|").split("|"):
                if len(cell.strip()) > MOST_CELL:
                    yield number, f"a cell of {len(cell.strip())} characters: make it a list"


def anchor(heading: str) -> str:
    return re.sub(r"[^\w\- ]", "", heading.strip().lower()).replace(" ", "-")


def headings(path: Path) -> List[str]:
    return [line.lstrip("#").strip() for _, line in without_fences(path.read_text(encoding="utf-8")) if line.startswith("#")]


def links(page: Path, lines: List[Line]) -> Iterator[Line]:
    for number, line in lines:
        for target in re.findall(r"\]\(([^)\s]+)\)", line):
            if re.match(r"\w+:", target):
                continue
            name, _, part = target.partition("#")
            path = (page.parent / name) if name else page
            if not path.exists():
                yield number, f"there is no {target}"
            elif part and part not in map(anchor, headings(path)):
                yield number, f"{name or page.name} has no section {part}"


def sections(text: str) -> Iterator[Line]:
    """Sections that a text names after a page, as `docs/LANGUAGE.md, "The budget"`."""
    for found in re.finditer(r"(\w+\.md)[`\])]*(?:\([^)]*\))?,((?: (?:and )?\"[^\"\n]+\",?)+)", text):
        page = ROOT / "docs" / found.group(1) if (ROOT / "docs" / found.group(1)).exists() else ROOT / found.group(1)
        number = text.count("\n", 0, found.start()) + 1
        for section in re.findall(r'"([^"]+?)[,.]?"', found.group(2)):
            if not page.exists() or section not in headings(page):
                yield number, f"{found.group(1)} has no section \"{section}\""


def paths(lines: List[Line]) -> Iterator[Line]:
    """Files and folders between backticks that are nowhere."""
    for number, line in lines:
        for name in re.findall(r"`((?:docs|tests|bench|crates|examples|patterns|workbench|dcv_\w+)/[\w./-]*)", line):
            name = name.rstrip("./")
            if re.search(r"NAME|MODULE|\bdcv_x\b|\.\.|_$|/out\b", name):
                continue
            bare = ROOT / name if (ROOT / name.split("/")[0]).exists() else ROOT / "crates" / name
            if not any(Path(f"{bare}{ending}").exists() for ending in ("", ".antt", ".rt", ".edit", ".rows", ".py")):
                yield number, f"there is no {name}"


def fences(text: str) -> Iterator[Tuple[int, str, List[str]]]:
    kind, first, body = None, 0, []
    for number, line in enumerate(text.split("\n"), 1):
        fence = re.match(r"\s*```(\w*)", line)
        if fence and kind is None:
            kind, first, body = fence.group(1), number, []
        elif fence:
            yield first, kind, body
            kind = None
        elif kind is not None:
            body.append(line)


def run(commands: List[str], room: str) -> List[Tuple[int, str]]:
    """The status and output of each command, in one shell, until one does not return."""
    mark = "=-=-=mark=-=-="
    script = "".join(f"{command}\nstatus=$?; printf '%s\\n' '{mark}'$status; (exit $status)\n" for command in commands)
    environment = {**os.environ, "DCVALID": os.path.abspath(PROGRAM), "LC_ALL": "C.UTF-8", "PYTHONDONTWRITEBYTECODE": "1"}
    try:
        came = subprocess.run(["bash", "-c", script], cwd=room, env=environment, stdin=subprocess.DEVNULL, stdout=subprocess.PIPE, stderr=subprocess.STDOUT, timeout=SECONDS)
        parts = re.split(rf"{re.escape(mark)}(\d+)\n", came.stdout.decode("utf-8", "replace"))
    except subprocess.TimeoutExpired:
        parts = [""]
    return [(int(status), output) for output, status in zip(parts[0::2], parts[1::2])]


def fits(wanted: List[str], came: List[str]) -> bool:
    """Whether the lines are these, `..` being any number of lines."""
    if not wanted:
        return not came
    if wanted[0] == "..":
        return any(fits(wanted[1:], came[at:]) for at in range(len(came) + 1))
    return bool(came) and wanted[0].rstrip() == came[0].rstrip() and fits(wanted[1:], came[1:])


def shown(body: List[str]) -> List[Tuple[str, List[str]]]:
    """Each command of a console with the lines below it."""
    pairs: List[Tuple[str, List[str]]] = []
    for line in body:
        if line.startswith("$ "):
            pairs.append((line[2:], []))
        elif pairs:
            pairs[-1][1].append(line)
    return pairs


def commands_of(body: List[str]) -> List[str]:
    """The commands of a script, lines that go on joined."""
    found, open_ended = [], ""
    for line in body:
        open_ended += line + "\n"
        if subprocess.run(["bash", "-n", "-c", open_ended], capture_output=True).returncode == 0 and not line.endswith("\\"):
            found, open_ended = found + [open_ended.rstrip("\n")], ""
    return [command for command in found if re.sub(r"#.*", "", command).strip()]


def judge(kind: str, first: int, body: List[str], room: str) -> Iterator[Line]:
    pairs = shown(body) if kind == "console" else [(command, []) for command in commands_of(body)]
    results = run([command for command, _ in pairs], room)
    if len(results) < len(pairs):
        yield first, f"does not return: {pairs[len(results)][0]}"
    for (command, wanted), (status, output) in zip(pairs, results):
        lines = output.rstrip("\n").split("\n") if output.strip() else []
        if kind == "console" and not fits(wanted, lines):
            yield first, f"{command}: writes\n" + "\n".join("      " + line for line in lines[:12])
        if kind == "sh" and status > 1:
            yield first, f"{command}: status {status}\n      " + "\n      ".join(lines[-3:])


def furnish(room: str) -> None:
    for entry in ROOT.iterdir():
        if entry.name not in ("dcvalid", ".git"):
            os.symlink(entry, os.path.join(room, entry.name))
    os.symlink(os.path.abspath(PROGRAM), os.path.join(room, "dcvalid"))


def commands(text: str) -> Iterator[Line]:
    found = [fence for fence in fences(text) if fence[1] in ("console", "sh")]
    if found and not os.access(PROGRAM, os.X_OK):
        yield found[0][0], "the commands were not run: set DCVALID"
        return
    room = tempfile.mkdtemp(prefix="pages.")
    try:
        furnish(room)
        for first, kind, body in found:
            yield from judge(kind, first, body, room)
    finally:
        shutil.rmtree(room)


def crates() -> Iterator[str]:
    """Crates without a page, or without a line in the list of all."""
    listed = (ROOT / "docs/CRATES.md").read_text(encoding="utf-8")
    for folder in sorted(path for path in ROOT.glob("crates/*") if path.is_dir()):
        if not (folder / "README.md").exists():
            yield f"crates/{folder.name}: there is no README.md"
        if f"[`{folder.name}`]" not in listed:
            yield f"docs/CRATES.md: {folder.name} is left out"


def look_at(page: Path) -> Iterator[Line]:
    text = page.read_text(encoding="utf-8")
    lines = without_fences(text)
    if text.count("\n") > MOST_LINES:
        yield text.count("\n"), f"more than {MOST_LINES} lines"
    for check in (habits, whats, broken_lines, tables, paths):
        yield from check(lines)
    yield from links(page, lines)
    yield from sections(text)
    yield from commands(text)


def other_texts() -> List[Path]:
    """The texts beside the pages that may name a section of one."""
    names = subprocess.run(["git", "ls-files", "-z", "dcvalid", "workbench", "tests", "patterns", "crates/*/NOTES.md"], cwd=ROOT, stdout=subprocess.PIPE, encoding="utf-8").stdout
    return [ROOT / name for name in names.split("\0")[:-1] if name != "tests/pages.py" and (ROOT / name).is_file()]


def main(names: List[str]) -> int:
    found = [f"{os.path.relpath(page, ROOT)}:{number}: {text}" for page in pages(names) for number, text in sorted(look_at(page))]
    if not names:
        found += [f"{os.path.relpath(path, ROOT)}:{number}: {text}" for path in other_texts() for number, text in sections(path.read_text(encoding="utf-8", errors="replace"))]
        found += crates()
    print("\n".join(found + [f"{len(pages(names))} pages: " + (f"{len(found)} places" if found else "nothing to list")]))
    return 1 if found else 0


if __name__ == "__main__":
    sys.exit(main(sys.argv[1:]))
