#!/usr/bin/env bash
# Measures what observers cost, by hand: for each file the least time of so many runs (RUNS, 3 by custom) of `automaton`, `c`, `lustre` and `all`, in
# milliseconds, start and end of the process included, the most memory that `automaton` and `all` took, in MB, the size of the C observer in kB, and what
# gcc takes to compile it, in seconds.
#
#   bench/observers.sh            files that this script writes: few and many states, and many nodes
#   bench/observers.sh FILE ..    these
#
# The last figures: 29 November 2026, an Intel Xeon at 2.5 GHz. The machine had much else to do, so the times are the least processor times of 20 runs; what
# gcc takes is of the day before, with little else to do. Goals for `all`, both kept: at most twice the time of `automaton`, and at most a tenth more memory.
#
#   file                  automaton        c   lustre      all         MB   of all       C kB    gcc s
#   10002_states               18.8      9.5      8.3     22.6        4.3      4.3      426.9      1.0
#   23000_states              108.7     56.6     59.2    132.4       10.0      9.9     3131.8      9.2
#   arbiter_6_4               188.8    112.9    100.0    200.3       16.1     16.2     4922.3     15.5
#   two_states                  0.7      0.6      0.6      0.7        1.9      1.8        0.2      0.0
#
# Of a program without its proofs (`bench/unproved.py`), in user and system time of one run: 29,414 states and 58,824 nodes (`scount p <= 170 && scount q <= 171`)
# take `automaton` 0.14 s and 11.3 MB, and `all` 0.17 s and 11.3 MB; 16,386 states and 483,612 nodes (arbiter 7 4) 1.29 s and 67.0 MB, and 1.57 s and 67.0 MB.
# Before, both observers were held as trees while they were written, and `all` of 23000_states and of arbiter_6_4 took 153 and 288 ms, in 23.1 and 39.5 MB.
# Since 1 December 2026 the words of a line are put one by one: `c` of 23000_states takes 375 million instructions, of which 17 million are for that, and `all` 897, of which 29 are.
# Reading an observer, by hand: texts of `bench/observer_texts.py`, `replay-lustre` and `replay-c` with an empty trace. Of a program without its proofs, 29 November 2026,
# beside helpers and a gate on four processors, so times are no measure and instructions (callgrind) are. `python3 bench/observer_texts.py 2000 5` gives 62,000 nodes; the memory is
# of 30000 5, with 930,000 nodes. In the first column a text was gone through twice: for its syntax fault, and then for its tree. In the second it is gone through once. In the
# third symbols are told apart by their first byte, parts of bodies are moved without room for an answer that hands them back, and large parts of C stand on the heap.
#
#   text                      bytes     million instructions: twice     once      now        MB of 930,000 nodes
#   Lustre                3,534,436                           1,087      744      704                433 of  57 MB
#   C                     2,915,468                           1,020      724      513                366 of  48 MB
# With the proved program, the same day, beside a gate on all four processors but with the priority of real time: a unit of C of 134,157,556 bytes (20145 7) is read in 4.3 to 4.6 s with 970 MB
# (before the last column one of 111,432,758 bytes took 4.8 to 5.2 s, on a machine with nothing else of ours to do), a node of Lustre of 132,823,728 bytes (16850 7) in 3.7 to 3.9 s with 986 MB. 57 MB of Lustre took 1.7 to 2.0 s before,
# 48 MB of C 2.3 to 2.6 s, and the automaton's text of both (33 MB) 0.18 s with 110 MB: a text that a grammar reads takes eight to ten times that of one that is cut into lines.
set -euo pipefail
here=$(cd "$(dirname "$(readlink -f "${BASH_SOURCE[0]}")")" && pwd)
program=${PROGRAM:-$here/../crates/dcvalid/out/dcvalid}
[ -n "${PROGRAM-}" ] || "$here/../dcvalid" --require-proof --build || exit # an unproved program has checks in it, which cost time
folder=$(mktemp -d)
trap 'rm -rf "$folder"' EXIT

if [ $# -eq 0 ]; then
  echo 'var p; infer [[p]];' >"$folder/two_states.dc"
  echo 'infer slen <= 9999;' >"$folder/10002_states.dc"
  echo 'var p, q; infer scount p <= 150 && scount q <= 150;' >"$folder/23000_states.dc"
  python3 "$here/families.py" arbiter 6 4 >"$folder/arbiter_6_4.dc"
  set -- "$folder"/*.dc
fi

# Runs a command so often, and leaves the least time (in microseconds) and the most memory (in kB) in `took` and `kept`.
measure() { read -r took _ kept _ < <("$here/measured.py" "${RUNS:-3}" "$folder/.out" "/dev/null" "$@"); }

printf '%-20s %10s %8s %8s %8s   %8s %8s   %8s %8s\n' file automaton c lustre all 'MB' 'of all' 'C kB' 'gcc s'
for file in "$@"; do
  measure "$program" automaton "$file"
  automaton=$took memory=$kept
  measure "$program" lustre "$file"
  lustre=$took
  measure "$program" c "$file"
  c=$took
  cp "$folder/.out" "$folder/observer.c"
  measure "$program" all "$file"
  all=$took all_memory=$kept
  RUNS=1 measure gcc -std=c99 -c -o "$folder/observer.o" "$folder/observer.c"
  awk -v n="$(basename "$file" .dc)" -v a="$automaton" -v c="$c" -v l="$lustre" -v b="$all" -v m="$memory" -v k="$all_memory" -v s="$(stat -c %s "$folder/observer.c")" -v g="$took" \
    'BEGIN { printf "%-20s %10.1f %8.1f %8.1f %8.1f   %8.1f %8.1f   %8.1f %8.1f\n", n, a / 1000, c / 1000, l / 1000, b / 1000, m / 1024, k / 1024, s / 1000, g / 1e6 }'
done
