#!/usr/bin/env bash
# Measures what is done with an automaton's table: `minimise` makes it canonical, `shortest` finds its least accepted word, `separate`
# lists suffixes that show that it is minimal. Builds `dcv_bench` without its proofs, runs each task so many times on each table, and reports
# the least milliseconds of processor time, how large the result is (states, letters, suffixes), and the most memory of the whole program.
#
#   bench/automata.sh            every task
#   bench/automata.sh TASK..     these
#
#   chain    the words of 10,000 letters, over no variable: 10,002 states, every row one leaf
#   count    the words with 10,000 letters in which the variable is true: rows of one node
#   grid     170 by 170 states: one variable leads down, the other to the right
#   drawn    30,000 states that seem to be random, over three variables
#   parity   5,000 states that each letter leads on in which an odd number of 16 variables are true
#
# The last figures: 28 November 2026, an Intel Xeon at 2.5 GHz with nothing else to do, the least of three runs. The goals of minimise, a second
# and 200 MB each, are reached:
#
#   task      table        size milliseconds megabytes
#   minimise  chain       10002          6.1       2.8
#   minimise  count       10001         11.7       4.1
#   minimise  grid        28562         41.0      12.5
#   minimise  drawn       29987        397.8      45.0
#   minimise  parity       5000         75.5      21.0
#   shortest  chain       10000          0.4       2.9
#   shortest  count       10000          0.9       4.1
#   shortest  grid          168          2.0      12.5
#   shortest  drawn           1          5.4      45.0
#   shortest  parity       4998          2.1      21.1
#   separate  chain       10001         11.3       4.5
#   separate  count       10000         22.4       5.9
#   separate  grid        28561        106.3      16.0
#   separate  drawn          30       1608.5      48.1
#   separate  parity       4999        118.7      21.1
#
# Instructions of one program that makes the table and minimises it (callgrind), which no other load disturbs: with lists of lists, hash sets
# and four keys for each listed state, and now. The most memory of `drawn` fell from 44.9 to 25.8 megabytes.
#
#   grid        229898437  167987446
#   drawn       785334724  497571429
set -euo pipefail
here=$(cd "$(dirname "$(readlink -f "${BASH_SOURCE[0]}")")" && pwd)
runs=${RUNS:-3}
built=$(mktemp -d)
trap 'rm -rf "$built"' EXIT

rattle=$built/rattle
"$here/unproved.py" "$rattle" dcv_bench

printf '%-9s %-7s %9s %12s %9s\n' task table size milliseconds megabytes
for task in minimise shortest separate; do
  [ $# -eq 0 ] || [[ " $* " == *" $task "* ]] || continue
  for table in chain count grid drawn parity; do
    best= memory=
    for _ in $(seq "$runs"); do
      /usr/bin/time -f %M -o "$built/memory" "$rattle" "$task" "$table" 1 timed >"$built/told"
      read -r size each <"$built/told"
      [ -n "$best" ] && [ "$best" -le "$each" ] || best=$each
      memory=$(cat "$built/memory")
    done
    awk -v t="$task" -v n="$table" -v s="$size" -v a="$best" -v m="$memory" \
      'BEGIN { printf "%-9s %-7s %9d %12.1f %9.1f\n", t, n, s, a / 1e6, m / 1024 }'
  done
done
