#!/usr/bin/env python3
"""Runs the rows of files in crates/dcv_rows/data with the program as a process, over real files, by hand while rows are written:

    DCVALID=PROGRAM tests/rows.py FILE ..

The head of `runs.rows` says how a row is written. The gate runs them by `dcv_rows`, over files and streams in memory or, where a row says so, of the
system. Rows with failing calls or short reads and writes are skipped here.
"""
import os
import subprocess
import sys
import tempfile

from tested import tested

EXAMPLES = os.path.realpath(os.path.join(os.path.dirname(os.path.abspath(__file__)), "..", "examples"))
TEXTS = ("f:", "g:", "out:", "err:")
IN_MEMORY = ("reads ", "writes ", "failing ")


def rows_of(path):
    """Each title of the file with its lines. The file has no line without an end."""
    rows = []
    for line in open(path).read().removesuffix("\n").split("\n"):
        if line.startswith("## "):
            rows.append((line[3:], []))
        elif line and line != "#" and not line.startswith("# "):
            if not rows:
                rows.append(("before the first row", ["no title"]))
            rows[-1][1].append(line)
    return rows


def piece(line):
    """The bytes of a piece."""
    count = 1
    if line.startswith("*"):
        count, line = line[1:].split(" ", 1)
    if line[0] not in "^>|":
        raise ValueError
    text = bytes.fromhex(line[1:]) if line[0] == "^" else line[1:].encode()
    return (text + b"\n" if line[0] == "|" else text) * int(count)


def read(lines):
    """The words, the status, the texts by their names, each a list of bytes with a gap between every two, and the words whose report is the second file."""
    words, status, texts, current, before = None, None, {}, None, None
    for line in lines:
        if line.startswith("$") and words is None:
            words = line[1:].split()
        elif line == "real":
            pass
        elif line.startswith("g from ") and before is None:
            before = line[7:].split()
        elif line.startswith("status ") and status is None:
            status = int(line[7:])
        elif line in TEXTS and line not in texts:
            current = texts[line] = [b""]
        elif line == ".." and any(current is texts.get(name) for name in ("out:", "err:")) and current and len(current) == 1:
            current.append(b"")
        elif current is not None:
            current[-1] += piece(line)
        else:
            raise ValueError
    if words is None or status is None:
        raise ValueError
    return words, status, texts, before


def fits(wanted, came):
    if len(wanted) == 1:
        return came == wanted[0]
    return len(came) > len(wanted[0] + wanted[1]) and came.startswith(wanted[0]) and came.endswith(wanted[1])


def holds(lines, program):
    try:
        words, status, texts, before = read(lines)
    except (ValueError, IndexError):
        return False, "malformed"
    with tempfile.TemporaryDirectory() as room:
        for name in "fg":
            if name + ":" in texts:
                open(f"{room}/{name}", "wb").write(texts[name + ":"][0])
        os.symlink(EXAMPLES, os.path.join(room, "examples"))
        if before is not None:
            with open(f"{room}/g", "wb") as made:
                subprocess.run([program, *before], cwd=room, stdout=made, stderr=subprocess.DEVNULL, stdin=subprocess.DEVNULL)
        ran = subprocess.run([program, *words], cwd=room, capture_output=True, stdin=subprocess.DEVNULL)
    held = ran.returncode == status and fits(texts.get("out:", [b""]), ran.stdout) and fits(texts.get("err:", [b""]), ran.stderr)
    return held, f"{ran.returncode} {ran.stdout} {ran.stderr}"


def main():
    program, failed = tested(), 0
    for path in sys.argv[1:]:
        rows = [row for row in rows_of(path) if not any(line.startswith(IN_MEMORY) for line in row[1])]
        held = 0
        for title, lines in rows:
            good, came = holds(lines, program)
            held += good
            if not good:
                print(f"{title}: {came}")
        print(f"{os.path.basename(path)}: {held} of {len(rows)} rows hold")
        failed += len(rows) - held
    return 1 if failed else 0


if __name__ == "__main__":
    sys.exit(main())
