#!/usr/bin/env python3
"""Measures the constant tables of `tables` beside the flat observer of `c` and the tables of `./ask tables`. By hand:

    DCVALID=PROGRAM bench/tables.py [FILE ..]      files, or the families below

A row a text: its size, the read-only bytes of its object (gcc -O2), the seconds that gcc and clang take to compile it, and the least processor time of an
instant of five runs of 2 million instants, in nanoseconds: once with letters that are mostly alike (each variable is true at one instant of ten) and
once with drawn letters, with resets so that no run stays in one state. A compiler that fails or needs more than a minute has `-` in its place.

The last figures: 1 December 2026, four processors at 2.5 GHz with other work, gcc 12.2 and clang 14, so a time is right within a half.

                            text   read-only     gcc      clang   mostly alike       drawn
response within 3: 5 states, 5 nodes, 2 variables
  tables             0.8 kB        55 B    0.03 s   0.05 s       3.8 ns      9.2 ns
  c                  0.5 kB         0 B    0.03 s   0.05 s       3.6 ns      9.3 ns
  ./ask tables       1.6 kB        54 B    0.05 s   0.11 s       4.3 ns      7.5 ns
response within 98: 100 states, 100 nodes, 2 variables
  tables             3.4 kB       900 B    0.03 s   0.05 s       5.6 ns     11.4 ns
  c                  7.6 kB         0 B    0.09 s   0.07 s      37.5 ns     45.0 ns
  ./ask tables       3.1 kB       684 B    0.05 s   0.09 s       5.0 ns      9.3 ns
response within 998: 1000 states, 1000 nodes, 2 variables
  tables            30.5 kB      8072 B    0.03 s   0.06 s       5.8 ns     13.4 ns
  c                 80.5 kB         0 B    2.57 s   0.84 s     948.2 ns    941.0 ns
  ./ask tables      19.5 kB      6164 B    0.04 s   0.09 s       6.6 ns     11.3 ns
response within 8997: 8999 states, 8999 nodes, 2 variables
  tables           286.5 kB     72071 B    0.06 s   0.08 s       6.0 ns     12.2 ns
  c                776.4 kB         - B       - s      - s         - ns        - ns
  ./ask tables     180.5 kB     55186 B    0.08 s   0.13 s       6.7 ns     11.7 ns
counters 30 31: 993 states, 1984 nodes, 2 variables
  tables            53.0 kB     12960 B    0.04 s   0.05 s       9.2 ns     17.5 ns
  c                120.8 kB         0 B    3.23 s   2.07 s     862.2 ns    899.7 ns
  ./ask tables      35.4 kB     10054 B    0.04 s   0.08 s       6.8 ns     11.6 ns
counters 93 94: 8931 states, 17860 nodes, 2 variables
  tables           514.7 kB    116196 B    0.12 s   0.15 s       8.4 ns     15.7 ns
  c               1180.2 kB         - B       - s      - s         - ns        - ns
  ./ask tables     349.7 kB     90474 B    0.13 s   0.15 s       7.0 ns     11.9 ns
counters 170 171: 29413 states, 58824 nodes, 2 variables
  tables          1743.3 kB   1264776 B    0.39 s   0.40 s       9.7 ns     16.2 ns
  c               4064.0 kB         - B       - s      - s         - ns        - ns
  ./ask tables    1200.6 kB   1180192 B    0.37 s   0.33 s       7.7 ns     12.4 ns
arbiter 6 3 (bench/families.py): 730 states, 19574 nodes, 12 variables
  tables           406.4 kB    100118 B    0.09 s   0.14 s       7.8 ns      7.4 ns
  c                958.3 kB         - B       - s  16.20 s         - ns        - ns
  ./ask tables     269.7 kB     79928 B    0.08 s   0.14 s      15.5 ns     12.8 ns
a length of 31,997 steps: 32000 states, 0 nodes, 0 variables
  tables           437.2 kB     96000 B    0.11 s   0.11 s       3.1 ns      3.1 ns
  c                969.9 kB         - B       - s      - s         - ns        - ns
"""
import os
import re
import resource
import signal
import subprocess
import sys
import tempfile

HERE = os.path.dirname(os.path.dirname(os.path.abspath(__file__)))
RESPONSE = """var request, grant;
define first(p) as <p> || [!p] ^ <p>;
define late(p, q) as [[!q]] && first(p) ^ slen >= N;
infer !((late(request, grant) || true ^ {{grant}} ^ late(request, grant)) ^ true);
"""
COUNTERS = "var p, q; infer scount p <= A && scount q <= B;"
FAMILIES = {
    **{f"response within {n}": RESPONSE.replace("N", str(n)) for n in (3, 98, 998, 8997)},
    **{f"counters {a} {b}": COUNTERS.replace("A", str(a)).replace("B", str(b)) for a, b in ((30, 31), (93, 94), (170, 171))},
    "a length of 31,997 steps": "infer slen = 9999 ^ slen = 9999 ^ slen = 9999 ^ slen = 2000;",
}
MAIN = """#include <stdio.h>
#include <time.h>
%s
static unsigned char letters[1 << 20][%d];

static void draw(unsigned long share)
{
  unsigned long x = 88172645463325252ul;
  long i, k;

  for (i = 0; i < (1 << 20); i++)
    for (k = 0; k < %d; k++) { x ^= x << 13; x ^= x >> 7; x ^= x << 17; letters[i][k] = (x >> 33) %% 100 < share; }
}

static double least(void)
{
  struct timespec a, b;
  double best = 1e9;
  long i, r;
  volatile long sum = 0;

  for (r = 0; r < 5; r++) {
    observer_reset();
    clock_gettime(CLOCK_PROCESS_CPUTIME_ID, &a);
    for (i = 0; i < INSTANTS; i++) {
      unsigned char *l = letters[i & ((1 << 20) - 1)];
      sum += observer_step(%s);
      if ((i & RESET) == 0) observer_reset();
    }
    clock_gettime(CLOCK_PROCESS_CPUTIME_ID, &b);
    double took = ((b.tv_sec - a.tv_sec) * 1e9 + b.tv_nsec - a.tv_nsec) / INSTANTS;
    if (took < best) best = took;
  }
  return best;
}

int main(void)
{
  draw(10);
  printf("%%.1f ", least());
  draw(50);
  printf("%%.1f\\n", least());
  return 0;
}
"""
FLAT = "void observer_reset(void); int observer_step({types});"
SHARED = """#include "observer_tables.h"
#include "{name}_tables.h"
static observer_instance watch;
static void observer_reset(void) {{ observer_tables_reset(&watch, &{name}_tables); }}
static int observer_step({parameters}) {{ return observer_tables_step(&watch, {bits}); }}"""


def cpu(*words, seconds=60):
    """The processor seconds of a command and its output, or none where it fails or is stopped."""
    before = resource.getrusage(resource.RUSAGE_CHILDREN)
    # (a compiler is several processes, which are stopped together)
    process = subprocess.Popen(words, stdout=subprocess.PIPE, stderr=subprocess.DEVNULL, text=True, start_new_session=True)
    try:
        output, _ = process.communicate(timeout=seconds)
    except subprocess.TimeoutExpired:
        os.killpg(process.pid, signal.SIGKILL)
        process.communicate()
        return None, ""
    after = resource.getrusage(resource.RUSAGE_CHILDREN)
    if process.returncode not in (0, 1):
        return None, ""
    return after.ru_utime + after.ru_stime - before.ru_utime - before.ru_stime, output


def read_only(path):
    """The bytes of an object's read-only data."""
    lines = subprocess.run(["size", "-A", path], capture_output=True, text=True, check=True).stdout.splitlines()
    return sum(int(line.split()[1]) for line in lines if line.startswith(".rodata"))


def shown(number, form):
    return "-" if number is None else format(number, form)


def row(title, sources, declaration, variables, flags, instants, states):
    """Compiles the files and runs them beside a program of this script's."""
    names = [f"l[{k}]" for k in range(variables)]
    with open("main.c", "w") as file:
        file.write(MAIN % (declaration, max(variables, 1), variables, ", ".join(names)))
    took = {compiler: [cpu(compiler, *flags, "-O2", "-c", source)[0] for source in sources] for compiler in ("clang", "gcc")}
    seconds = {compiler: None if None in each else sum(each) for compiler, each in took.items()}
    times, data = ["-", "-"], None
    if seconds["gcc"] is not None:
        objects = [source[:-1] + "o" for source in sources]
        data, reset = sum(map(read_only, objects)), (1 << max(states // 100, 20).bit_length()) - 1
        subprocess.run(["gcc", "-std=gnu99", "-O2", *flags[1:], f"-DINSTANTS={instants}", f"-DRESET={reset}", "main.c", *objects, "-o", "run"], check=True)
        times = cpu("./run", seconds=600)[1].split()
    size = sum(os.path.getsize(source) for source in sources)
    print(f"  {title:<12} {size / 1000:>9.1f} kB {shown(data, 'd'):>9} B  {shown(seconds['gcc'], '.2f'):>6} s {shown(seconds['clang'], '.2f'):>6} s"
          f"  {times[0]:>8} ns {times[1]:>8} ns", flush=True)


def measure(program, name, path):
    options = ("--states", "32000")
    tables = cpu(program, "tables", path, *options)[1]
    states, nodes, variables = map(int, re.match(r"enum \{ states = (\d+), nodes = (\d+), variables = (\d+) \}", tables).groups())
    print(f"{name}: {states} states, {nodes} nodes, {variables} variables")
    flat = FLAT.format(types=", ".join(["int"] * variables) or "void")
    for title, text, instants in (("tables", tables, 2_000_000), ("c", cpu(program, "c", path, *options)[1], max(2_000, 40_000_000 // (states + nodes)))):
        with open("unit.c", "w") as file:
            file.write(text)
        row(title, ["unit.c"], flat, variables, ["-std=c89"], instants, states)
    done = subprocess.run([os.path.join(HERE, "ask"), "tables", path, "--name", "own", "--code", "--out", "."], capture_output=True, text=True,
                          env={**os.environ, "DCVALID": program})
    if done.returncode:
        return
    wide = ["-DOBSERVER_TABLES_WIDE"] if states + nodes > 65_535 else []
    parameters = ", ".join(f"int v{k}" for k in range(variables)) or "void"
    bits = " | ".join(f"(v{k} ? {1 << k}u : 0u)" for k in range(variables)) or "0"
    row("./ask tables", ["own_tables.c", "observer_tables.c"], SHARED.format(name="own", parameters=parameters, bits=bits), variables, ["-std=c89", *wide], 2_000_000, states)


def main():
    program = os.path.abspath(os.environ.get("DCVALID") or sys.exit("bench/tables.py: set DCVALID to the program"))
    files = [(os.path.basename(path), os.path.abspath(path)) for path in sys.argv[1:]]
    with tempfile.TemporaryDirectory() as folder:
        os.chdir(folder)
        for number, (name, text) in enumerate({} if files else FAMILIES.items()):
            files.append((name, os.path.join(folder, f"family_{number}.dc")))
            with open(files[-1][1], "w") as file:
                file.write(text + "\n")
        for name, path in files:
            measure(program, name, path)


if __name__ == "__main__":
    main()
