#!/usr/bin/env bash
# Measures the operations on diagrams beside the same in plain C. Builds `dcv_bench` without its proofs, builds diagrams.c
# with clang, runs each case so many times in both, and reports the least nanoseconds of processor time that one operation took,
# and their quotient. The numbers of the results must be the same.
#
#   bench/diagrams.sh            every case
#   bench/diagrams.sh CASE..     these
#
#   build       a random function is built from its numbers, node by node
#   random      two random functions are merged
#   multiplier  the middle bit of a product is merged with the bit below it
#   parity      the parity of all slots is merged with that of each other slot
#   remap       the middle bit of a product gets other numbers
#   letters     the first letters of the middle bit of a product are found
#
# A case is a word of dcv_bench's arguments, beside its slots and how often it is done.
#
# The last figures: 28 November 2026, an Intel Xeon at 2.5 GHz with nothing else to do, the two programs in turns, in nanoseconds: the least of
# forty runs for the parities, and of twelve for the others. The goal, at most twice the time of C, is reached everywhere:
#
#   case         slots      size       rattle            C  times
#   build           16      8316      1935421      1444097   1.34
#   build           20    107040     35329612     25119834   1.41
#   random          16      8317      2088121      1639988   1.27
#   random          20    107093     48034403     37178218   1.29
#   multiplier      16      3859       738231       501707   1.47
#   multiplier      20     31381      7299416      4894096   1.49
#   parity          16        15         4494         2542   1.77
#   parity          20        19         6284         3488   1.80
#   parity          32        31         9710         5081   1.91
#   remap           16      3825       178233       142151   1.25
#   remap           20     31258      1869698      1652579   1.13
#   letters         16         2        49995        39317   1.27
#   letters         20         2       460407       403707   1.14
#
# The parity of 32 slots took 2.04 times as long as in C in one series of twelve runs: it is over so soon that making and dropping the memo counts.
#
# Instructions of one operation (callgrind), which no other load disturbs: in C, in Rattle where two operands were a list and places stood in
# maps, and now.
#
#   build 16       10041756   14714854   14969543
#   random 16       7561184   19170043   12678413
#   random 20      96335609  305228626  175992807
#   multiplier 16   2643834    7003623    4685245
#   parity 32         51734     140573      81192
#   remap 16         845005    2480366    1357896
#   letters 16       288604    1355145     400296
#
# Of a merge (parity, 32 slots) what is gone through has 50 in a hundred, what the memo puts 25, nodes 13. A look-up that finds nothing and the entry that
# is put later each hash the operands and search the map; an entry that is made at the look-up and filled later would save one of the two.
set -euo pipefail
here=$(cd "$(dirname "$(readlink -f "${BASH_SOURCE[0]}")")" && pwd)
runs=${RUNS:-5}
built=$(mktemp -d)
trap 'rm -rf "$built"' EXIT

clang -O2 -Wall -Wextra -o "$built/c" "$here/diagrams.c"
rattle=$built/rattle
"$here/unproved.py" "$rattle" dcv_bench

# The least time of an operation, and the size of its result.
least() {
  local program=$1 size= best= each found
  shift
  for _ in $(seq "$runs"); do
    read -r found each < <("$program" "$@" timed)
    [ -z "$size" ] || [ "$size" = "$found" ] || { echo "sizes differ: $*" >&2; exit 1; }
    size=$found
    [ -n "$best" ] && [ "$best" -le "$each" ] || best=$each
  done
  echo "$size $best"
}

printf '%-12s %5s %9s %12s %12s %6s\n' case slots size rattle C times
while read -r name slots times; do
  [ $# -eq 0 ] || [[ " $* " == *" $name "* ]] || continue
  read -r size mine < <(least "$rattle" "$name" "$slots" "$times")
  read -r expected theirs < <(least "$built/c" "$name" "$slots" "$times")
  [ "$size" = "$expected" ] || { echo "$name $slots: $size in Rattle, $expected in C" >&2; exit 1; }
  awk -v n="$name" -v s="$slots" -v k="$size" -v a="$mine" -v b="$theirs" \
    'BEGIN { printf "%-12s %5d %9d %12d %12d %6.2f\n", n, s, k, a, b, a / b }'
done <<'END'
build 16 10
build 20 1
random 16 10
random 20 1
multiplier 16 20
multiplier 20 3
parity 16 2000
parity 20 2000
parity 32 2000
remap 16 50
remap 20 5
letters 16 50
letters 20 5
END
