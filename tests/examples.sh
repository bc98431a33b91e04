#!/usr/bin/env bash
# Runs the program on every file of examples/ and compares the exit status and the first line: which of them always hold. Then each of their
# automata is certified, two of them are compared, both ways, and controllers are synthesised and run. DCVALID names another program:
#     tests/examples.sh
here=$(dirname "$(dirname "$(readlink -f "${BASH_SOURCE[0]}")")") || exit 1
program=${DCVALID:-$here/crates/dcvalid/out/dcvalid}
command -v "$program" >/dev/null || { echo "there is no program $program: ./dcvalid --build makes one" >&2; exit 125; }
failed=0

# the wanted status and first line of a file, which is on standard output, or on standard error if it prints nothing
wanted() {
  case $1 in
    always.dc | gas_burner.dc | gas_burner_30.dc) echo '0 valid' ;;
    *) echo '1 not valid' ;;
  esac
}

for file in "$here"/examples/*.dc; do
  name=$(basename "$file")
  text=$("$program" check "$file" 2>&1)
  got="$? ${text%%$'\n'*}"
  if [ "$got" = "$(wanted "$name")" ]; then
    echo "$name: $got"
  else
    echo "FAILED: $name: wanted '$(wanted "$name")', got '$got'"
    failed=1
  fi
done

# expect NAME WANTED GOT
expect() {
  if [ "$3" = "$2" ]; then
    echo "$1: $3"
  else
    echo "FAILED: $1: wanted '$2', got '$3'"
    failed=1
  fi
}

for file in "$here"/examples/*.dc; do
  text=$("$program" automaton "$file")
  states=$(awk '$1 == "states" { print $2 }' <<<"$text")
  expect "$(basename "$file")" "certified $states" "$("$program" certify /dev/stdin <<<"$text")"
done

expect 'response_2 implies response' implies "$("$program" implies "$here/examples/response_2.dc" "$here/examples/response.dc")"
expect 'response implies response_2' $'does not imply\ncounterexample 3\n10\n00\n00' \
  "$("$program" implies "$here/examples/response.dc" "$here/examples/response_2.dc")"

# synthesised NAME INPUTS WANTED: the first line of what is found
synthesised() {
  local text
  text=$("$program" synth "$here/examples/$1.dc" --inputs "$2")
  expect "$1 with $2 inputs" "$3" "${text%%$'\n'*}"
}
synthesised arbiter 2 realisable
synthesised lift_door 2 realisable
synthesised crossing_warned 2 realisable
synthesised crossing 1 unrealisable

# The arbiter, compiled, keeps to its requirement for as long as it is asked.
work=$(mktemp -d) || exit 1
trap 'rm -rf "$work"' EXIT
"$program" synth "$here/examples/arbiter.dc" --inputs 2 | tail -n +2 >"$work/controller.c"
"$program" c "$here/examples/arbiter.dc" >"$work/observer.c"
if cc -std=c99 -Wall -Wextra -pedantic -Werror -o "$work/arbiter" "$here/examples/controller_use.c" "$work/controller.c" "$work/observer.c"; then
  expect 'the arbiter' 'kept for 100000 instants' "$("$work/arbiter" 100000 | tail -n 1)"
else
  expect 'the arbiter' compiled 'not compiled'
fi
exit "$failed"
