#!/usr/bin/env python3
"""Measures how long an editor waits for the language server, on each example and on a text of 196 lines: the median and the largest of each.

    DCVALID=PROGRAM bench/serve.py
"""
import os
import statistics
import sys
import time
from typing import Any, Dict, List

ROOT = os.path.dirname(os.path.dirname(os.path.abspath(__file__)))
sys.path[:0] = [os.path.join(ROOT, "workbench", "tests"), os.path.join(ROOT, "workbench")]
from client import Client  # noqa: E402
from support import examples  # noqa: E402

KINDS = ("no fault is shown", "the verdict", "a fault is shown", "quick fixes", "completion")


def long_text() -> str:
    macros = "".join(f"// number {number}\ndefine m{number}(p, q) as []([[p && !q]] => slen < {number % 7 + 2}) && (<p> || [!p] ^ <q> || true);\n" for number in range(95))
    return f"// A long text.\nvar a, b, c, d;\n{macros}infer m0(a, b) && m1(b, c)\n  && m2(c, d)\n  && m3(a, d);\n"


def times(client: Any, uri: str, text: str) -> List[float]:
    """In seconds, in the order of KINDS."""
    wrong = text.rstrip()[:-1] + "\n" if "]]" not in text else text.replace("]]", "]", 1)
    found, start = [], time.monotonic()

    def note() -> None:
        nonlocal start
        found.append(time.monotonic() - start)
        start = time.monotonic()

    client.open(uri, text)
    client.until(lambda: client.shown(uri, 1))
    note()
    client.lens(uri)
    note()
    client.change(uri, 2, {"text": wrong})
    client.until(lambda: any(client.shown(uri, 2)))
    note()
    client.at("codeAction", uri, range=client.shown(uri, 2)[-1][0]["range"], context={})
    note()
    client.change(uri, 3, {"text": text})
    line = text[:text.rindex("infer ")].count("\n")
    start = time.monotonic()
    client.at("completion", uri, line, 6)
    note()
    return found


def main() -> int:
    client = Client()
    texts: Dict[str, str] = {}
    for path in examples():
        with open(path, encoding="utf-8") as file:
            texts[path] = file.read()
    rows = [times(client, f"file://{path}", text) for path, text in texts.items()]
    long = [times(client, f"file:///long{number}.dc", long_text()) for number in range(3)]
    print("| Time until | Median of the examples | Largest | A text of 196 lines |\n|---|---|---|---|")
    for place, kind in enumerate(KINDS):
        values = [row[place] * 1000 for row in rows]
        print(f"| {kind} | {statistics.median(values):.0f} ms | {max(values):.0f} ms | {statistics.median(row[place] * 1000 for row in long):.0f} ms |")
    client.end()
    return 0


if __name__ == "__main__":
    sys.exit(main())
