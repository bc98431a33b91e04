#!/usr/bin/env bash
# Measures `certify` on texts whose suffixes tell hardly anything apart, so that all are tried. Half of the suffixes go on from the empty one, and
# from each of these another does. With `same` no state accepts, so that the first suffix is the same at all states and nothing after it is tried;
# with `apart` the last state does. DCVALID is the program; it tells the seconds of processor time and the most memory, in megabytes.
#
#   DCVALID=PROGRAM bench/certify.sh [SUFFIXES ..]
#
# Goals: memory for the text and its lines, and little for the columns; five minutes and 1000 megabytes for the longest text, one of 134 megabytes. The last
# figures: 1 December 2026, an unproved build, with all processors busy, where the program of the day before took 1.9 seconds for `apart` at 18,600 suffixes:
#
#     kind   suffixes       bytes   seconds megabytes
#     same      18600     1791509       0.0       6.8
#     same     900000    19687412       0.1      71.0
#     same    5580000   121997414       0.5     418.5
#    apart      18600     1791509       1.1      10.5
#    apart     900000    19687412      44.2      71.2
#    apart    5580000   121997414     272.9     418.3
#
# With nothing else on the machine, 7,006,781 suffixes in 133,477,338 bytes, nearly all of which go on by the letter 0 from one of the first ten, take 339 seconds and
# 518 megabytes. The time of `apart` grows with states by suffixes, 1.5 ns each; where each suffix has a letter of its own, a walk through each state's row comes to that.
set -euo pipefail
here=$(cd "$(dirname "$(readlink -f "${BASH_SOURCE[0]}")")" && pwd)
built=$(mktemp -d)
trap 'rm -rf "$built"' EXIT

# A text with so many states and suffixes, of this kind.
text() {
  awk -v kind="$1" -v half="$(($2 / 2))" -v states=32000 'BEGIN {
    printf "automaton 1\nvariables p\nstates %d\n", states
    for (i = 0; i < states; i++) {
      last = i == states - 1
      printf "state %d %s t%d\n", i, (last && kind == "apart") ? "accept" : "reject", last ? i : i + 1
    }
    print "access 0 empty\naccess 1 start 0"
    for (i = 2; i < states; i++) printf "access %d %d 0\n", i, i - 1
    print "suffix 0 empty"
    for (i = 1; i <= half; i++) printf "suffix %d 0 0\n", i
    for (i = 1; i <= half; i++) printf "suffix %d 0 %d\n", half + i, i
    print "end"
  }'
}

printf '%6s %10s %11s %9s %9s\n' kind suffixes bytes seconds megabytes
for kind in same apart; do
  for suffixes in "${@:-18600}"; do
    text "$kind" "$suffixes" >"$built/text"
    read -r _ cpu memory _ < <("$here/measured.py" 1 /dev/null /dev/null "$DCVALID" certify "$built/text")
    awk -v k="$kind" -v n="$suffixes" -v b="$(wc -c <"$built/text")" -v t="$cpu" -v m="$memory" \
      'BEGIN { printf "%6s %10d %11d %9.1f %9.1f\n", k, n, b, t / 1e6, m / 1024 }'
  done
done
