#!/usr/bin/env python3
"""Runs a program so often, with nothing around it. The other benches measure by it:

    bench/measured.py RUNS OUTPUT ERRORS PROGRAM ARGUMENT ..

It prints the least wall time and the least processor time in microseconds, the most memory in kB, and the last status. The last output and the last
errors are in two files, and LIMIT is the seconds after which a run is killed. A process begins with the memory of the one that starts it as its greatest, so `ru_maxrss` cannot be below that of Python,
some 10 MB: where it is not above it, the memory is that of one more run under /usr/bin/time.
"""
import os
import resource
import signal
import sys
import time
from typing import NamedTuple, Sequence


class Run(NamedTuple):
    wall: int  # microseconds
    cpu: int
    memory: int  # kB
    status: int  # or the number of the signal that ended it, negative


def run(words: Sequence[str], output: str = os.devnull, errors: str = os.devnull, seconds: float = 0) -> Run:
    """One run, which is killed after so many seconds if these are not 0."""
    files = [(os.POSIX_SPAWN_OPEN, number, path, os.O_WRONLY | os.O_CREAT | os.O_TRUNC, 0o644) for number, path in ((1, output), (2, errors))]
    begun = time.perf_counter()
    process = os.posix_spawnp(words[0], words, os.environ, file_actions=files)
    signal.signal(signal.SIGALRM, lambda *_: os.kill(process, signal.SIGKILL))
    signal.setitimer(signal.ITIMER_REAL, seconds)
    os.waitid(os.P_PID, process, os.WEXITED | os.WNOWAIT)
    wall = time.perf_counter() - begun
    signal.setitimer(signal.ITIMER_REAL, 0)
    _, status, used = os.wait4(process, 0)
    return Run(round(wall * 1e6), round((used.ru_utime + used.ru_stime) * 1e6), used.ru_maxrss, os.waitstatus_to_exitcode(status))


def memory(words: Sequence[str], most: int, seconds: float = 0) -> int:
    """The memory of a program of which wait4 said that it is at most so much."""
    if most > resource.getrusage(resource.RUSAGE_SELF).ru_maxrss:
        return most
    reader, writer = os.pipe()
    os.set_inheritable(writer, True)
    run(["/usr/bin/time", "-f", "%M", "-o", f"/dev/fd/{writer}", *words], seconds=seconds)
    os.close(writer)
    with os.fdopen(reader) as told:
        return int((told.read().split() or [str(most)])[-1])


def least(words: Sequence[str], runs: int, output: str = os.devnull, errors: str = os.devnull, seconds: float = 0) -> Run:
    found = [run(words, output, errors, seconds) for _ in range(runs)]
    most = memory(words, max(it.memory for it in found), seconds)
    return Run(min(it.wall for it in found), min(it.cpu for it in found), most, found[-1].status)


if __name__ == "__main__":
    if len(sys.argv) < 5:
        sys.exit(__doc__)
    print(*least(sys.argv[4:], int(sys.argv[1]), sys.argv[2], sys.argv[3], float(os.environ.get("LIMIT", 0))))
