#!/usr/bin/env bash
# Measures how long the program takes for the largest goals, from the text to the verdict: the least time of a whole run in milliseconds, of
# so many runs (RUNS, 20 by custom).
#
#   bench/goals.sh
#
#   small     infer pt;
#   largest   a goal of 65,536 nodes, 43,695 steps, in macros that double
#   written   a goal of 65,536 nodes that is written out, in 98,312 bytes
#   unused    100 macros that hand on their argument twice, and never use it: 2^99 nodes if it were expanded
#   refused   256 macros that double: 2^255 nodes, refused for their size
#
# The last figures: 27 November 2026, an Intel Xeon at 2.5 GHz that others kept busy, the least of 3 runs. Of `largest` 8 ms, and of
# `written` 23, go to reading, to the faults of names and of the goal and to the core, as was measured before steps were built.
#
#   small         10 bytes     2.390 ms  not valid
#   largest      413 bytes   119.446 ms  not valid
#   written    98313 bytes   188.079 ms  valid
#   unused      2992 bytes     1.656 ms  not valid
#   refused     7096 bytes     2.131 ms  fault size at 7090
set -euo pipefail
here=$(cd "$(dirname "$(readlink -f "${BASH_SOURCE[0]}")")" && pwd)
program=${PROGRAM:-$here/../crates/dcvalid/out/dcvalid}
[ -n "${PROGRAM-}" ] || "$here/../dcvalid" --require-proof --build || exit # an unproved program has checks in it, which cost time
files=$(mktemp -d)
trap 'rm -rf "$files"' EXIT

# macros m0, m1, .., each the one before it twice
doubled() { awk -v n="$1" 'BEGIN { printf "define m0 as pt;\n"; for (i = 1; i < n; i++) printf "define m%d as m%d && m%d;\n", i, i - 1, i - 1 }'; }

echo 'infer pt;' >"$files/small"
{ doubled 15; echo 'infer m14 && m12 && m10 && m8 && m6 && m4 && m2 && m1 && m1;'; } >"$files/largest"
awk 'BEGIN { printf "infer true"; for (i = 0; i < 32767; i++) printf "^pt"; print ";" }' >"$files/written"
awk 'BEGIN { print "var p; define F0(a) as pt;"; for (i = 1; i < 100; i++) printf "define F%d(a) as F%d(a && a);\n", i, i - 1; print "infer F99(p);" }' >"$files/unused"
{ doubled 256; echo 'infer m255;'; } >"$files/refused"

for file in small largest written unused refused; do
  read -r least _ < <("$here/measured.py" "${RUNS:-20}" "$files/out" "$files/err" "$program" check "$files/$file")
  printf '%-8s %7d bytes %5d.%03d ms  %s\n' "$file" "$(wc -c <"$files/$file")" $((least / 1000)) $((least % 1000)) "$(cat "$files/out" "$files/err" | head -n 1)"
done
