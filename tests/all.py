#!/usr/bin/env python3
"""Runs the tests that the gate does not run: those of the workbench, of the scripts and of the pages. `make test` calls it:

    tests/all.py [WORD ..]      every test, or those with one of these words in their names

If there is no program, ./dcvalid builds one without its proofs; DCVALID names another. Several tests run at once, the longest first. Each has a line when
it ends, and one that failed shows the end of its output. The last line is `N passed, N failed`; the status is 1 if one failed.

With STOP=1 the shortest tests are first, and the first failure ends the run: the tests that run then are ended, and `N not run` is added.
"""
import os
import signal
import subprocess
import sys
import time
from concurrent.futures import ThreadPoolExecutor, as_completed
from contextlib import suppress
from pathlib import Path
from typing import List, NamedTuple, Set

ROOT = Path(__file__).resolve().parent.parent
DATA = "crates/dcv_rows/data/"
NO_ROWS_TO_HOLD = ("wrong.rows",)  # rows that are wrong on purpose
SECONDS = 600  # after which a test is ended, and has failed


class Test(NamedTuple):
    name: str
    words: List[str]
    folder: Path = ROOT


class Result(NamedTuple):
    test: Test
    status: int
    seconds: float
    output: str


def tests() -> List[Test]:
    """All tests, the longest first."""
    rows = [DATA + path.name for path in sorted((ROOT / DATA).glob("*.rows")) if path.name not in NO_ROWS_TO_HOLD]
    automata = DATA + "canonical_automata.rows"
    scripts = [["tests/growth.py"], ["tests/front_door.sh"], ["tests/observers.py"], ["tests/rows.py", *rows], ["tests/patterns.py"],
               ["tests/tables.py"], ["tests/replay_tables.py", "2000"], ["tests/work.py"], ["tests/pages.py"], ["tests/stale.py"], ["tests/stack.sh"], ["tests/shifts.py", "1", "100"], ["tests/sets.py", "1", "200"], ["tests/examples.sh"], ["tests/automata.py", automata],
               ["tests/causes.py"], ["tests/commands.py"]]
    modules = sorted((ROOT / "workbench/tests").glob("test_*.py"), key=lambda path: -path.stat().st_size)
    found = [Test(words[0], words) for words in scripts if (ROOT / words[0]).exists()]
    return found[:2] + [Test(f"workbench/tests/{path.name}", ["-m", "unittest", path.stem], path.parent) for path in modules] + found[2:]


def run(test: Test, running: "Set[subprocess.Popen[bytes]]") -> Result:
    start, environment = time.monotonic(), {**os.environ, "PYTHONPATH": str(ROOT / "workbench")}
    words = [sys.executable, *test.words] if test.words[0] == "-m" else [str(ROOT / test.words[0]), *test.words[1:]]
    process = subprocess.Popen(words, cwd=test.folder, env=environment, stdin=subprocess.DEVNULL, stdout=subprocess.PIPE, stderr=subprocess.STDOUT, start_new_session=True)
    running.add(process)
    try:
        output, _ = process.communicate(timeout=SECONDS)
        status = process.returncode
    except subprocess.TimeoutExpired:
        end(process)
        status, output = 124, process.communicate()[0]
    running.discard(process)
    return Result(test, status, time.monotonic() - start, output.decode("utf-8", "replace").strip())


def end(process: "subprocess.Popen[bytes]") -> None:
    """Ends a test and the processes that it began; they are in one session, and it is not waited for yet."""
    if process.poll() is None:
        with suppress(ProcessLookupError):
            os.killpg(process.pid, signal.SIGTERM)


def report(result: Result) -> None:
    last = result.output.split("\n")[-1][:100]
    print(f"{'passed' if result.status == 0 else 'FAILED'}  {result.seconds:5.1f} s  {result.test.name}: {last}", flush=True)
    if result.status:
        print("\n".join("    " + line for line in result.output.split("\n")[-20:]), flush=True)


def main(words: List[str]) -> int:
    if not os.environ.get("DCVALID"):
        if subprocess.run([ROOT / "dcvalid", "--build"], check=False).returncode:
            return 125
        os.environ["DCVALID"] = str(ROOT / "crates/dcvalid/out/dcvalid")
    chosen = [test for test in tests() if not words or any(word in test.name for word in words)]
    stops, failed, passed = os.environ.get("STOP", "") not in ("", "0"), 0, 0
    running: "Set[subprocess.Popen[bytes]]" = set()
    with ThreadPoolExecutor(max(2, (os.cpu_count() or 2) // 2)) as pool:
        futures = [pool.submit(run, test, running) for test in (chosen[::-1] if stops else chosen)]
        try:
            for ended in as_completed(futures):
                report(ended.result())
                failed += ended.result().status != 0
                passed += ended.result().status == 0
                if failed and stops:
                    break
        finally:
            for future in futures:
                future.cancel()
            for process in list(running):
                end(process)
    left = len(chosen) - passed - failed
    print(f"{passed} passed, {failed} failed" + (f", {left} not run" if left else ""))
    return 1 if failed or not chosen else 0


if __name__ == "__main__":
    try:
        sys.exit(main(sys.argv[1:]))
    except KeyboardInterrupt:
        sys.exit(130)
