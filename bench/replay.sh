#!/usr/bin/env bash
# Measures replays, by hand: the least time of so many runs (RUNS, 3 by custom) in milliseconds, start and end of the process included, and the most
# memory, in MB.
#
#   read LANGUAGE N       an observer's text with N nodes over 30,000 states is read, and a trace of one line replayed through it; beside it `certify`
#                         reads the text of the same automaton, and refuses it at once
#   lines LANGUAGE        a trace of 1,000,000 lines through a small observer, from file to file
#   steps LANGUAGE        1,000 lines through the observer with the fewest nodes above, less the reading
#
# Goals: a text of 134,217,728 bytes read within 5 seconds; time and memory within twice those of the automaton's text; 1,000,000 lines within 0.2 s.
#
# The last figures: 28 November 2026, an Intel Xeon at 2.5 GHz, the least of two runs beside a gate on all processors. The text of an observer takes ten
# times the time of the automaton's text, and four times the memory, so the goals of reading are not kept. A plain pass over a trace is.
#
#   certify 30000              2333306 bytes      12.2 ms     8.6 MB
#   read lustre 30000          2807126 bytes     152.3 ms    30.0 MB
#   read c 30000               2522205 bytes     141.7 ms    23.5 MB
#   certify 930000            33479812 bytes     261.2 ms   107.9 MB
#   read lustre 930000        57164111 bytes    2500.1 ms   422.6 MB
#   read c 930000             47879153 bytes    2557.3 ms   355.2 MB
#   steps lustre, steps c         1000 lines     119.8 ms, 107.5 ms, of 30,000 nodes and 30,000 states each
#   lines lustre, lines c      1000000 lines      46.0 ms, 45.9 ms, 2.0 MB
#   lines tables               1000000 lines      22.1 ms, 1.7 MB    (2 December 2026, without proofs, on a busy host)
#
# Of drawn constant tables, then too: 1,000,000 lines through 32,000 states over two variables 63 ms with the reading, 5 MB; 100,000 lines through a text
# of 25,566,216 bytes with 1,000,000 nodes over 16 variables 160 ms, 50 MB; one of 133,920,614 bytes, refused for its count of nodes, 720 ms, 249 MB.
set -euo pipefail
here=$(cd "$(dirname "$(readlink -f "${BASH_SOURCE[0]}")")" && pwd)
program=${PROGRAM:-$here/../crates/dcvalid/out/dcvalid}
[ -n "${PROGRAM-}" ] || "$here/../dcvalid" --require-proof --build || exit # an unproved program has checks in it, which cost time
folder=$(mktemp -d)
trap 'rm -rf "$folder"' EXIT

# Runs a command so often, and leaves the least time (in microseconds) and the most memory (in kB) in `took` and `kept`.
measure() { read -r took _ kept _ < <("$here/measured.py" "${RUNS:-3}" "$folder/out" "$folder/err" "$@"); }

# tell NAME BYTES: what was measured
tell() {
  awk -v n="$1" -v b="$2" -v t="$took" -v m="$kept" -v o="$(head -c 30 "$folder/out" | tr '\n' ' ')$(head -c 30 "$folder/err" | tr '\n' ' ')" \
    'BEGIN { printf "%-22s %11d bytes %9.1f ms %7.1f MB   %s\n", n, b, t / 1000, m / 1024, o }'
}

for variables in 1 5; do
  python3 "$here/observer_texts.py" 30000 "$variables" "$folder/text"
  nodes=$((30000 * (2 ** variables - 1)))
  printf "%0${variables}d\n" 0 >"$folder/one.trace"
  measure "$program" certify "$folder/text.automaton"
  tell "certify $nodes" "$(stat -c %s "$folder/text.automaton")"
  for language in lustre c; do
    measure "$program" "replay-$language" "$folder/text.$language" "$folder/one.trace"
    tell "read $language $nodes" "$(stat -c %s "$folder/text.$language")"
    if [ "$variables" -eq 1 ]; then
      reading=$took
      for _ in $(seq 1000); do echo 0; done >"$folder/thousand.trace"
      measure "$program" "replay-$language" "$folder/text.$language" "$folder/thousand.trace"
      took=$((took - reading))
      tell "steps $language" "$(stat -c %s "$folder/thousand.trace")"
    fi
  done
done

echo 'var p, q; infer [](<p> => true^<q>);' >"$folder/small.dc"
awk 'BEGIN { srand(1); for (i = 0; i < 1000000; i++) print int(2 * rand()) int(2 * rand()) }' >"$folder/million.trace"
for language in lustre c tables; do
  "$program" "$language" "$folder/small.dc" >"$folder/small.$language" || true
  measure "$program" "replay-$language" "$folder/small.$language" "$folder/million.trace"
  tell "lines $language" "$(stat -c %s "$folder/million.trace")"
done
