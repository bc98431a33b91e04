#!/usr/bin/env python3
"""Refuses each growth of memory in turn, once and from there on, and each open, read and write once, over every command. By hand, some minutes:

    tests/growth.py [PROGRAM [COMMAND]]      COMMAND alone, if it is given

A run with a growth refused has its answer, or status 7 with nothing on the output and the beginning of `fault memory` on the messages. One with an open or a
read that failed has status 5, with nothing on the output but answers of a replay; one with a write that failed has status 6 and the beginning of its
report. Reads and writes of one byte change nothing. The calls are counted and refused by tests/refusing.c, which needs a C compiler. Where a run has
more than 600 calls of one of these kinds, every n-th of them alone is refused, so that at most 600 are.
"""
import os
import subprocess
import sys
import tempfile

from tested import tested

HERE = os.path.dirname(os.path.dirname(os.path.abspath(__file__)))
PROGRAM = tested(*sys.argv[1:2])
MOST = 600

RESPONSE = "var request, grant; infer []({{request && !grant}} ^ [!grant] => slen <= 3);"
MACROS = "".join(f"define m{n:03} as {'pt' if n == 0 else f'm{n - 1:03} && m{n - 1:03}'};\n" for n in range(256)) + "infer m255;"
FILES = {
    "each.dc": "var p; infer [[p]];",
    "edge.dc": "var p; infer true^<p && !-p>;",
    "both.dc": "var p, q; infer ex r. <p> || [[q <=> r]];",
    "response.dc": RESPONSE,
    "large.dc": MACROS,
    "nested.dc": "infer " + 262138 * "!",
    "stuck.dc": "var p; infer slen <= 2;",
    "fault.dc": "var p; infer [[q]];",
    "capture.dc": "var q; define F(a) as (ex q. [[q <=> a]]); infer F(!q);",
    "trace": "00\n10\n11\n",
    "one.trace": "1\n1\n0",
    "bad.trace": "1\n2\n",
    "no.trace": "",
    "names.lus": "node f(a: bool) returns (ok: bool); let ok = true; ok = false; tel",
    "names.c": "static int s;void r(void){}int t(void){return 0;}",
}
# each command, over what is made below too
COMMANDS = [
    ["check", "each.dc"], ["check", "large.dc"], ["check", "nested.dc"], ["check", "fault.dc"], ["check", "response.dc", "--states", "3"],
    ["check", "edge.dc"], ["automaton", "both.dc"], ["lustre", "each.dc"], ["c", "each.dc"], ["tables", "each.dc"],
    ["all", "response.dc"],
    ["certify", "both.aut"], ["convert", "both.aut", "--to", "1"], ["convert", "both.aut", "--to", "2"], ["certify", "each.dc"],
    ["replay-lustre", "response.lus", "trace"], ["replay-c", "response.c", "trace"], ["replay-lustre", "names.lus", "trace"],
    ["replay-c", "names.c", "trace"], ["replay-tables", "response_tables.c", "trace"], ["replay-tables", "names.c", "trace"],
    ["implies", "each.dc", "edge.dc"], ["implies", "edge.dc", "edge.dc"], ["synth", "response.dc", "--inputs", "1"],
    ["sweep", "7", "3"], ["sweep", "0", "1"], ["check", "capture.dc"], ["all", "each.dc"], ["implies", "each.dc", "fault.dc"],
    *([f"replay-{kind}", f"each.{end}", trace] for kind, end in (("lustre", "lus"), ("c", "c"), ("tables", "tab"))
      for trace in ("one.trace", "bad.trace", "no.trace")),
    ["stuck", "each.dc"], ["stuck", "stuck.dc"], ["stuck", "fault.dc"], ["--help"], ["check"],
    ["together", "each.dc", "both.dc"], ["together", "edge.dc", "stuck.dc", "response.dc"], ["together", "each.dc", "fault.dc", "both.dc"],
    ["together", "response.dc", "stuck.dc", "--tuples", "1"], ["follows", "each.dc", "both.dc"], ["follows", "edge.dc", "each.dc"],
]


def run(words, folder, library, **settings):
    environment = {"PATH": os.environ["PATH"], "LD_PRELOAD": library, **{f"DCVALID_{name.upper()}": str(value) for name, value in settings.items()}}
    done = subprocess.run([PROGRAM, *words], cwd=folder, env=environment, capture_output=True, timeout=120)
    return done.returncode, done.stdout, done.stderr


def chosen(count):
    step = max(1, -(-count // MOST))
    return range(1, count + 1, step)


def is_refused(words, plain, got, what):
    """Whether this is how a run may end in which such a call failed."""
    status, out, err = got
    if what == "growth":
        return status == 7 and out == b"" and b"fault memory\n".startswith(err)
    if what == "write":
        return (status == 6 and plain[1].startswith(out)) or (status, out) == plain[:2]
    answers = words[0].startswith("replay") and plain[1].startswith(out)
    return status == 5 and (out == b"" or answers) and err in (b"fault open\n", b"fault read\n")


def main():
    failed = tried = 0
    with tempfile.TemporaryDirectory() as folder:
        library = os.path.join(folder, "refusing.so")
        subprocess.run(["cc", "-O1", "-shared", "-fPIC", "-o", library, os.path.join(HERE, "tests/refusing.c"), "-ldl"], check=True)
        for name, text in FILES.items():
            with open(os.path.join(folder, name), "w") as file:
                file.write(text)
        for words, name in ((["automaton", "both.dc"], "both.aut"), (["lustre", "response.dc"], "response.lus"), (["c", "response.dc"], "response.c"),
                            (["tables", "response.dc"], "response_tables.c"), (["lustre", "each.dc"], "each.lus"), (["c", "each.dc"], "each.c"),
                            (["tables", "each.dc"], "each.tab")):
            with open(os.path.join(folder, name), "wb") as file:
                file.write(run(words, folder, library)[1])
        for words in COMMANDS if len(sys.argv) < 3 else [words for words in COMMANDS if words[0] == sys.argv[2]]:
            counts = os.path.join(folder, "counts")
            plain = run(words, folder, library, counts=counts)
            numbers = dict(zip(("growth", "open", "read", "write"), map(int, open(counts).read().split())))
            runs = [("short", 0, {"short": 1})]
            for what, count in numbers.items():
                for first in chosen(count):
                    runs.append((what, first, {"refuses": what, "first": first}))
                    if what == "growth":
                        runs.append((what, first, {"refuses": what, "first": first, "from_there": 1}))
            for what, first, settings in runs:
                got = run(words, folder, library, **settings)
                tried += 1
                if got != plain and not (what != "short" and is_refused(words, plain, got, what)):
                    failed += 1
                    print("FAILED:", " ".join(words), settings, "ended with", got[0], got[1][:60], got[2][:60], "and not with", plain[0], plain[1][:60], plain[2][:60])
    print(tried, "runs,", failed, "failed")
    sys.exit(failed > 0)


main()
