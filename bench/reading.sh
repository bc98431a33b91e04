#!/usr/bin/env bash
# Measures the reader of automaton texts. Builds `dcv_bench` without its proofs, reads a text of each size so many times, and reports the least
# milliseconds of processor time and the most memory of the whole program, the text itself included.
#
#   bench/reading.sh
#
# Goals: 100 MB in seconds, and a few times the text's memory. The last figures: 27 November 2026, an Intel Xeon at 2.5 GHz with much else to
# do, the least of three runs:
#
#   suffixes        bytes milliseconds megabytes
#      50000      1027905          4.2       5.1
#     500000     11277904         46.3      38.7
#    5000000    122777903        457.8     385.4
set -euo pipefail
here=$(cd "$(dirname "$(readlink -f "${BASH_SOURCE[0]}")")" && pwd)
runs=${RUNS:-3}
built=$(mktemp -d)
trap 'rm -rf "$built"' EXIT

rattle=$built/rattle
"$here/unproved.py" "$rattle" dcv_bench

printf '%10s %12s %12s %9s\n' suffixes bytes milliseconds megabytes
for suffixes in 50000 500000 5000000; do
  best= memory=
  for _ in $(seq "$runs"); do
    /usr/bin/time -f %M -o "$built/memory" "$rattle" read "$suffixes" 1 timed >"$built/told"
    read -r size each <"$built/told"
    [ -n "$best" ] && [ "$best" -le "$each" ] || best=$each
    memory=$(cat "$built/memory")
  done
  awk -v n="$suffixes" -v s="$size" -v a="$best" -v m="$memory" 'BEGIN { printf "%10d %12d %12.1f %9.1f\n", n, s, a / 1e6, m / 1024 }'
done
