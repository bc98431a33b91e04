#!/usr/bin/env bash
# Measures explorations. Builds `dcv_bench` without its proofs, builds explorations.c with clang, explores each case so many
# times, and reports the least nanoseconds of processor time that one state took, in Rattle and, where C has the case too, in C,
# and their quotient. The numbers of states must be the same. What is worked with are rings of SIZE states, which are explored
# before the time begins: at each letter a state goes on by one, or does not, and the last goes on to the first.
#
#   bench/explorations.sh            every case
#   bench/explorations.sh CASE..     these
#
#   counter     one ring, which goes on where the one variable is true; its own rows of one node
#   grid        the product of two, one of which goes on where the variable is false; rows of one node
#   wide        the product of two, which go on by the parity of the first and of the last four of eight variables; rows of 21 nodes
#   shared      the same, but each goes on from the double of the state, so that four states have one row
#   chop        the chop of two that go on where the one variable is true, the second smaller by one; sets of up to so many states
#   exists      the quantifier over a ring that depends on the other of two variables; sets of one state
#   sets        the quantifier over the product of two rings, one for each of two variables; sets of up to SIZE states
#
# A case is a word of dcv_bench's arguments, beside its size and how often it is done.
#
# The last figures: 28 November 2026, an Intel Xeon at 2.5 GHz with nothing else to do, the two programs in turns, the least of ten runs, in
# nanoseconds a state. The goals are 400 for grid, 12,000 for wide and 3,000 for shared, and are reached:
#
#   case       size   states   rattle        C  times
#   counter   30000    30000      284
#   grid        170    28900      277      162   1.71
#   wide        100    10000     2860     2621   1.09
#   shared      100    10000     1027      781   1.31
#   chop        100    19800     3229
#   exists    10000    10000      546
#   sets        100     5050     7967
#
# Instructions of one exploration (callgrind), which no other load disturbs: in C, in Rattle where two operands were a list, and now.
#
#   grid       20326323    59872555    44913022
#   wide       81028835   234797581   120182722
#   shared     30893953    91712033    51262314
#   counter                59788873    44684838
#   exists                 32844684    31069020
#   chop                  397077812   389816147
#   sets                  312596617   309976303
set -euo pipefail
here=$(cd "$(dirname "$(readlink -f "${BASH_SOURCE[0]}")")" && pwd)
runs=${RUNS:-5}
built=$(mktemp -d)
trap 'rm -rf "$built"' EXIT

clang -O2 -Wall -Wextra -o "$built/c" "$here/explorations.c"
rattle=$built/rattle
"$here/unproved.py" "$rattle" dcv_bench

# How many states there are, and the least time of an exploration.
least() {
  local program=$1 size= best= each found
  shift
  for _ in $(seq "$runs"); do
    read -r found each < <("$program" "$@" timed)
    [ -z "$size" ] || [ "$size" = "$found" ] || { echo "states differ: $*" >&2; exit 1; }
    size=$found
    [ -n "$best" ] && [ "$best" -le "$each" ] || best=$each
  done
  echo "$size $best"
}

printf '%-8s %6s %8s %8s %8s %6s\n' case size states rattle C times
while read -r name size times; do
  [ $# -eq 0 ] || [[ " $* " == *" $name "* ]] || continue
  read -r states mine < <(least "$rattle" "$name" "$size" "$times")
  expected=$states theirs=
  case $name in grid | wide | shared) read -r expected theirs < <(least "$built/c" "$name" "$size" "$times") ;; esac
  [ "$states" = "$expected" ] || { echo "$name $size: $states states in Rattle, $expected in C" >&2; exit 1; }
  awk -v n="$name" -v s="$size" -v k="$states" -v a="$mine" -v b="$theirs" \
    'BEGIN { printf "%-8s %6d %8d %8d", n, s, k, a / k; if (b != "") printf " %8d %6.2f", b / k, a / b; print "" }'
done <<'END'
counter 30000 5
grid 170 5
wide 100 2
shared 100 5
chop 100 1
exists 10000 5
sets 100 1
END
