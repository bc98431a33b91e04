#!/usr/bin/env bash
# Measures whole runs of `dcvalid check`, or of the command that COMMAND says: the least time of so many runs (RUNS, 5 by custom) in milliseconds, start and end of the process
# included, and the most memory that one took. With MONA=1 each file of examples/ is asked of MONA too (Debian's
# package `mona`), as bench/to_mona.py puts it; a line below tells the length of its least counterexample.
#
#   bench/check.sh            every case
#   bench/check.sh CASE..     these
#
#   the examples        each file of examples/
#   slen N, scount N    a chain: `slen <= N`, `scount p >= N`
#   product N           a state for each pair of counts up to N
#   projection N        a quantifier over a count up to N
#   window N            at most 3 instants with p in any N: a set of counts
#   m14                 macros that double: 32,767 steps
#   slots 32            a goal with as many quantifiers as may be
#
# Goals: a start at most 5 ms, slen 9999 at most 200 ms, product 150 (some 23,000 states) at most 200 ms, m14 at most 2 s.
#
# The last figures: 28 November 2026, an Intel Xeon at 2.5 GHz with nothing else to do, the least of seven runs, beside MONA 1.4. Some 2 ms of each
# are the program that tells the memory.
#
#   alternation             2.7 ms   1.9 MB     MONA    6.3 ms   4.4 MB
#   always                  3.5 ms   1.9 MB     MONA    5.7 ms   4.4 MB
#   arbiter                 3.6 ms   1.9 MB     MONA    6.9 ms   4.5 MB
#   at_most                 3.4 ms   1.9 MB     MONA    7.4 ms   4.4 MB
#   door_closed             3.7 ms   1.8 MB     MONA    6.2 ms   4.4 MB
#   gas_burner             22.3 ms   4.6 MB     MONA   24.5 ms   6.4 MB
#   lamp                    3.9 ms   1.9 MB     MONA    7.0 ms   4.4 MB
#   m14                    91.8 ms   4.1 MB
#   mine_pump               4.1 ms   1.9 MB     MONA    7.3 ms   4.4 MB
#   minimum_duration        4.1 ms   1.9 MB     MONA    6.7 ms   4.5 MB
#   never_both              3.9 ms   1.9 MB     MONA    6.0 ms   4.4 MB
#   product 100            27.8 ms   6.5 MB
#   product 150            62.2 ms  11.4 MB
#   product 50             10.1 ms   3.3 MB
#   projection 99           4.3 ms   1.9 MB
#   projection 999          9.5 ms   2.6 MB
#   response                3.9 ms   1.8 MB     MONA    6.3 ms   4.4 MB
#   scount 99               4.2 ms   1.9 MB
#   scount 999              5.7 ms   2.1 MB
#   scount 9999            22.6 ms   5.0 MB
#   slen 99                 3.9 ms   1.9 MB
#   slen 999                4.5 ms   2.0 MB
#   slen 9999              12.9 ms   3.3 MB
#   slots 32                4.1 ms   2.0 MB
#   start                   3.6 ms   1.9 MB
#   window 10               6.6 ms   2.3 MB
#   window 20              42.7 ms  14.5 MB     over the budget
#   window 30              42.2 ms  14.1 MB     over the budget
#
# With COMMAND=automaton, the least of three runs on the day: the examples as above, slen 9999 23.8 ms and 5.2 MB, scount 9999 45.0 ms and 7.7 MB,
# product 150 134.6 ms and 13.5 MB, m14 89.8 ms and 4.1 MB.
#
# `gas_burner` takes 125.6 million instructions and `product 150` 325.4 million (callgrind, `check`). Before memos of pairs they took 158.7 and 492
# million, and 24.8 and 90.3 ms. With COMMAND=automaton `product 150` takes 801.3 million.
#
# A count that is written out as positions, as bench/to_mona.py does, is no fair question for MONA: `product 50` took it 28 s and 334 MB.
set -euo pipefail
here=$(cd "$(dirname "$(readlink -f "${BASH_SOURCE[0]}")")" && pwd)
program=${PROGRAM:-$here/../crates/dcvalid/out/dcvalid}
[ -n "${PROGRAM-}" ] || "$here/../dcvalid" --require-proof --build || exit # an unproved program has checks in it, which cost time
files=$(mktemp -d)
trap 'rm -rf "$files"' EXIT

cp "$here"/../examples/*.dc "$files"
echo 'infer true;' >"$files/start"
for n in 99 999 9999; do
  echo "infer slen <= $n;" >"$files/slen $n"
  echo "var p; infer scount p >= $n;" >"$files/scount $n"
done
for n in 50 100 150; do
  echo "var p, q; infer scount p <= $n && scount q <= $n;" >"$files/product $n"
done
for n in 99 999; do
  echo "var p; infer ex q. [[q <=> !p]] && scount q >= $n;" >"$files/projection $n"
done
for n in 10 20 30; do
  echo "var p; infer [](slen < $n => scount p <= 3);" >"$files/window $n"
done
awk 'BEGIN { print "define m0 as pt;"; for (i = 1; i < 15; i++) printf "define m%d as m%d && m%d;\n", i, i - 1, i - 1; print "infer m14;" }' >"$files/m14"
{ printf 'infer '; for _ in $(seq 32); do printf 'ex a. '; done; echo 'pt;'; } >"$files/slots 32"

# The least wall and processor time and the most memory of the command; its output is kept.
measure() {
  "$here/measured.py" "${RUNS:-5}" "$files/.out" "$files/.err" "$@" |
    awk '{ printf "%9.1f ms %9.1f ms %7.1f MB", $1 / 1000, $2 / 1000, $3 / 1024 }'
}

printf '%-22s %12s %12s %10s  %s\n' case time processor memory answer
for file in "$files"/*; do
  name=$(basename "$file")
  [ $# -eq 0 ] || [[ " $* " == *" $name "* ]] || continue
  figures=$(measure "$program" "${COMMAND:-check}" "$file")
  printf '%-22s %s  %s\n' "$name" "$figures" "$(cat "$files/.out" "$files/.err" | head -n 1)"
  if [ -n "${MONA:-}" ] && [[ $name = *.dc ]]; then
    python3 "$here/to_mona.py" "$file" >"$files/.mona"
    figures=$(LIMIT=60 measure mona -q "$files/.mona")
    printf '%-22s %s  %s\n' '  by MONA' "$figures" "$(grep -m 1 -i -E 'valid|least length' "$files/.out")"
  fi
done
