#!/usr/bin/env bash
# Measures, by hand, what `certify` and `implies` take: the least time of so many runs (RUNS, 3 by custom) in milliseconds, start and end of the process
# included, and the most memory, in MB.
#
#   certify N        the program's own text of an automaton with N states and as many suffixes, beside the command that writes it
#   shuffled N       the same text with its suffixes in another order, each still behind the one that it goes on from, so that the way for all lists is taken
#   implies N        two counts up to N, whose product has N times N pairs of states
#   itself N         a chain of N states, compared with itself
#
# Goals: 28,562 states certified in a second, 10,000 with shuffled suffixes in two.
#
# The last figures: 28 November 2026, an Intel Xeon at 2.5 GHz, one run beside a gate on all processors.
#
#   automaton 4000         14.8 ms     2.5 MB     certify   14.2 ms     3.0 MB
#   automaton 9999         31.0 ms     4.4 MB     certify   32.6 ms     5.0 MB
#   automaton 9802         56.9 ms     5.8 MB     certify   57.9 ms     7.7 MB     shuffled   72.8 ms     7.6 MB
#   automaton 28562       125.9 ms    11.1 MB     certify  158.0 ms    16.0 MB     shuffled  229.5 ms    16.1 MB
#   implies 50             12.3 ms     2.6 MB     implies 150  18.2 ms     6.3 MB
#   itself 9999            24.2 ms     3.2 MB
set -euo pipefail
here=$(cd "$(dirname "$(readlink -f "${BASH_SOURCE[0]}")")" && pwd)
program=${PROGRAM:-$here/../crates/dcvalid/out/dcvalid}
[ -n "${PROGRAM-}" ] || "$here/../dcvalid" --require-proof --build || exit # an unproved program has checks in it, which cost time
folder=$(mktemp -d)
trap 'rm -rf "$folder"' EXIT

# Runs a command so often, and prints the least time and the most memory behind a name.
measure() {
  local name=$1 took kept
  shift
  read -r took _ kept _ < <("$here/measured.py" "${RUNS:-3}" "$folder/.out" "$folder/.err" "$@")
  awk -v n="$name" -v t="$took" -v m="$kept" -v o="$(head -c 60 "$folder/.out" "$folder/.err" | grep -v '^==>' | tr '\n' ' ')" \
    'BEGIN { printf "%-18s %8.1f ms %7.1f MB   %s\n", n, t / 1000, m / 1024, o }'
}

# The suffixes of an automaton's text in another order, each behind the one that it goes on from.
shuffle_suffixes() {
  python3 - "$1" <<'END'
import random, sys
random.seed(1)
lines = open(sys.argv[1]).read().split("\n")
suffixes = [line.split()[2:] for line in lines if line.startswith("suffix ")]
later, order, place = {}, [], {}
for number, words in enumerate(suffixes):
    if words != ["empty"]:
        later.setdefault(int(words[1]), []).append(number)
open_ends = [0]
while open_ends:
    number = open_ends.pop(random.randrange(len(open_ends)))
    place[number] = len(order)
    order.append(number)
    open_ends += later.get(number, [])
for line in lines:
    if line == "end":
        for new, number in enumerate(order):
            words = suffixes[number]
            print("suffix", new, *(words if words == ["empty"] else [words[0], place[int(words[1])]]))
    if line and not line.startswith("suffix "):
        print(line)
END
}

for n in 4000 9999; do
  echo "infer slen <= $n;" >"$folder/chain"
  "$program" automaton "$folder/chain" >"$folder/chain.auto" || true
  measure "automaton $n" "$program" automaton "$folder/chain"
  measure "certify $n" "$program" certify "$folder/chain.auto"
done
for n in 98 168; do
  echo "var p, q; infer scount p <= $n && scount q <= $n;" >"$folder/grid"
  "$program" automaton "$folder/grid" >"$folder/grid.auto" || true
  shuffle_suffixes "$folder/grid.auto" >"$folder/shuffled.auto"
  states=$(awk '$1 == "states" { print $2 }' "$folder/grid.auto")
  measure "automaton $states" "$program" automaton "$folder/grid"
  measure "certify $states" "$program" certify "$folder/grid.auto"
  measure "shuffled $states" "$program" certify "$folder/shuffled.auto"
done
for n in 50 150; do
  echo "var p, q; infer scount p <= $n;" >"$folder/one"
  echo "var p, q; infer scount q <= $n;" >"$folder/other"
  measure "implies $n" "$program" implies "$folder/one" "$folder/other"
done
echo 'infer slen <= 9999;' >"$folder/chain"
measure 'itself 9999' "$program" implies "$folder/chain" "$folder/chain"
