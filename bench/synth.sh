#!/usr/bin/env bash
# Measures, by hand, what `synth` takes beside `check` of the same file: the least time of so many runs (RUNS, 3 by custom) in milliseconds, start and end of the
# process included, and the most memory, in MB. So the difference is what the game takes, with the text of its answer.
#
#   arbiter N K    N clients, each granted within K instants of asking in a row; with K at least N there is a controller, with fewer there is none
#   chain N        at most N instants, so that the inputs win from each state of a chain: as many rounds as states
#
# The last figures: 29 November 2026, an Intel Xeon with nothing else of ours to do. The game takes what `check` takes for the search of its words, at the most a quarter of it more; the chain of 29,988
# spends its time on the chop that makes it.
#
#   arbiter 2 2   check      2.5 ms    2.0 MB   synth      2.9 ms    2.0 MB   realisable, 521 bytes
#   arbiter 2 1   check      3.1 ms    1.9 MB   synth      2.8 ms    2.0 MB   unrealisable, 49 bytes
#   arbiter 3 3   check      3.1 ms    2.1 MB   synth      2.9 ms    2.1 MB   realisable, 2483 bytes
#   arbiter 3 2   check      2.9 ms    2.0 MB   synth      2.7 ms    2.0 MB   unrealisable, 225 bytes
#   arbiter 4 4   check      4.7 ms    2.4 MB   synth      5.3 ms    2.5 MB   realisable, 25029 bytes
#   arbiter 4 3   check      3.6 ms    2.3 MB   synth      3.4 ms    2.3 MB   unrealisable, 2203 bytes
#   arbiter 5 5   check     33.1 ms    8.2 MB   synth     37.4 ms    7.8 MB   realisable, 359765 bytes
#   arbiter 5 4   check     12.5 ms    4.8 MB   synth     12.9 ms    4.6 MB   unrealisable, 29638 bytes
#   arbiter 6 3   check     19.2 ms    5.1 MB   synth     15.2 ms    5.3 MB   unrealisable, 21787 bytes
#   arbiter 7 3   check     74.5 ms   14.1 MB   synth     80.6 ms   14.3 MB   unrealisable, 68902 bytes
#   arbiter 8 3   check    229.8 ms   43.2 MB   synth    279.9 ms   51.5 MB   unrealisable, 215431 bytes
#   chain 2000    check      4.0 ms    2.1 MB   synth      3.6 ms    2.2 MB   unrealisable, 55869 bytes
#   chain 9998    check      9.2 ms    3.2 MB   synth      7.2 ms    3.1 MB   unrealisable, 287813 bytes
#   chain 29988   check   3186.0 ms  767.9 MB   synth   3079.9 ms  768.1 MB   unrealisable, 907503 bytes
set -euo pipefail
here=$(cd "$(dirname "$(readlink -f "${BASH_SOURCE[0]}")")" && pwd)
program=${PROGRAM:-$here/../crates/dcvalid/out/dcvalid}
[ -n "${PROGRAM-}" ] || "$here/../dcvalid" --require-proof --build || exit # an unproved program has checks in it, which cost time
folder=$(mktemp -d)
trap 'rm -rf "$folder"' EXIT

# Runs a command so often, and leaves the least time and the most memory in `took` and `kept`.
measure() { read -r took _ kept _ < <("$here/measured.py" "${RUNS:-3}" "$folder/.out" "$folder/.err" "$@"); }

# one NAME INPUTS FILE
one() {
  local check_took check_kept
  measure "$program" check "$3"
  check_took=$took check_kept=$kept
  measure "$program" synth "$3" --inputs "$2"
  awk -v n="$1" -v a="$check_took" -v b="$check_kept" -v t="$took" -v m="$kept" -v o="$(head -n 1 "$folder/.out")" -v s="$(wc -c <"$folder/.out")" \
    'BEGIN { printf "%-12s  check %8.1f ms %6.1f MB   synth %8.1f ms %6.1f MB   %s, %d bytes\n", n, a / 1000, b / 1024, t / 1000, m / 1024, o, s }'
}

for clients in 2 3 4 5; do
  for within in "$clients" $((clients - 1)); do
    python3 "$here/families.py" arbiter "$clients" "$within" >"$folder/file.dc"
    one "arbiter $clients $within" "$clients" "$folder/file.dc"
  done
done
for clients in 6 7 8; do
  python3 "$here/families.py" arbiter "$clients" 3 >"$folder/file.dc"
  one "arbiter $clients 3" "$clients" "$folder/file.dc"
done
for length in 2000 9998; do
  echo "var a; infer slen <= $length;" >"$folder/file.dc"
  one "chain $length" 1 "$folder/file.dc"
done
echo 'var a; infer (slen <= 9999) ^ (slen <= 9999) ^ (slen <= 9990);' >"$folder/file.dc"
one 'chain 29988' 1 "$folder/file.dc"
