#!/usr/bin/env bash
# Runs the program under 2 MB of stack, a quarter of the usual limit, on the texts that nest deepest: each
# ends with its status and line. It takes some seconds. Run it by hand: tests/stack.sh [PROGRAM]
here=$(dirname "$(dirname "$(readlink -f "${BASH_SOURCE[0]}")")") || exit 1
program=${1:-${DCVALID:-$here/crates/dcvalid/out/dcvalid}}
command -v "$program" >/dev/null || { echo "there is no program $program: ./dcvalid --build makes one" >&2; exit 125; }
work=$(mktemp -d) || exit 1
trap 'rm -rf "$work"' EXIT
failed=0

# run STATUS LINE COMMAND NAME: with the text in $work/text
run() {
  local text
  text=$(ulimit -s 2048 && exec "$program" "$3" "$work/text" 2>&1)
  local got="$? ${text%%$'\n'*}"
  [ "$got" = "$1 $2" ] || { echo "FAILED: $3 of $4: wanted '$1 $2', got '$got'"; failed=1; }
}

# tables STATUS NAME: the same of the tables, whose first line has counts
tables() {
  (ulimit -s 2048 && exec "$program" tables "$work/text" >"$work/tables")
  [ $? = "$1" ] && grep -q '^enum { states = ' "$work/tables" || { echo "FAILED: tables of $2"; failed=1; }
}

# together NAME: what is said of the file as a set of its own
together() {
  local text
  text=$(ulimit -s 2048 && exec "$program" together "$work/text" 2>&1)
  [ $? -le 1 ] && [ "${text%% *}" = variables ] || { echo "FAILED: together of $1"; failed=1; }
}

# row STATUS LINE NAME TEXT..: a text in pieces, and the first line of what is written of it
row() {
  local status=$1 line=$2 name=$3
  shift 3
  printf '%s' "$@" >"$work/text"
  run "$status" "$line" check "$name"
  case $status in
    0 | 1) run "$status" 'automaton 2' automaton "$name" && tables "$status" "$name" && together "$name" ;;
    *) run "$status" "$line" automaton "$name" && run "$status" "$line" stuck "$name" && run "$status" "$line in file 1" together "$name" ;;
  esac
  rows=$((rows + 1))
}

# times COUNT PIECE
times() { yes "$2" | head -n "$1" | tr -d '\n'; }

rows=0
open=$(times 499 '(')
close=$(times 499 ')')

# Prefixes and suffixes of a formula: 500 of each, and one more than may be.
row 1 'not valid' '500 parentheses' 'infer (' "$open" 'pt' "$close" ');'
row 1 'not valid' '500 negations' 'infer ' "$(times 500 '!')" 'pt;'
row 0 'valid' '500 diamonds' 'infer ' "$(times 500 '<>')" 'pt;'
row 1 'not valid' '170 boxes' 'infer ' "$(times 170 '[]')" 'pt;'
row 3 'fault depth at 6' '500 boxes' 'infer ' "$(times 500 '[]')" 'pt;'
row 3 'fault slots at 6' '500 times ex' 'infer ' "$(times 500 'ex a. ')" 'pt;'
row 3 'fault depth at 6' '500 times all' 'infer ' "$(times 500 'all a. ')" 'pt;'
row 1 'not valid' '500 stars' 'infer pt' "$(times 500 '*')" ';'
row 0 'valid' '500 arrows' 'infer ' "$(times 500 'pt=>')" 'pt;'
row 3 'fault nest at 506' '501 parentheses' 'infer ((' "$open" 'pt' "$close" '));'
row 3 'fault nest at 506' 'parentheses to the end' 'infer ' "$(times 262138 '(')"
row 3 'fault nest at 506' 'negations to the end' 'infer ' "$(times 262138 '!')"

# Each operator between parentheses, and all of them.
for operator in '<=>' '||' '&&' '^'; do
  row 3 'fault depth at 6' "250 times $operator below boxes" 'infer ' "$(times 250 "[](pt$operator")" 'pt' "$(times 250 ')')" ';'
done
for operator in '||' '&&' '^'; do
  row 1 'not valid' "499 times $operator" 'infer ' "$(times 499 "pt$operator(")" 'pt' "$close" ';'
done
row 1 'not valid' '499 times <=>' 'infer ' "$(times 499 "pt<=>(")" 'ext' "$close" ';'
row 3 'fault depth at 13' 'all lists in one another' 'var p; infer ' "$(times 499 '(<p> <=> <p> || <p> && <p> ^ ')" '<p>' "$close" ';'
row 3 'fault depth at 6' 'all lists below a negation' 'infer ' "$(times 250 'pt<=>pt||pt&&pt^!(')" 'pt' "$(times 250 ')')" ';'
row 3 'fault depth at 6' 'all lists below an arrow' 'infer ' "$(times 250 'pt<=>pt=>pt||pt&&pt^(')" 'pt' "$(times 250 ')')" ';'
row 3 'fault depth at 6' 'all lists below a star' 'infer ' "$(times 250 'pt<=>pt||pt&&pt^(')" 'pt' "$(times 250 ')*')" ';'
row 3 'fault depth at 6' 'all lists below a diamond' 'infer ' "$(times 250 'pt<=>pt||pt&&pt^<>(')" 'pt' "$(times 250 ')')" ';'
row 3 'fault depth at 6' 'all lists below a box' 'infer ' "$(times 250 'pt<=>pt||pt&&pt^[](')" 'pt' "$(times 250 ')')" ';'
row 3 'fault depth at 6' 'all lists below ex' 'infer ' "$(times 250 'pt<=>pt||pt&&pt^(ex a.')" 'pt' "$(times 250 ')')" ';'
row 3 'fault depth at 6' 'all lists below all' 'infer ' "$(times 250 'pt<=>pt||pt&&pt^(all a.')" 'pt' "$(times 250 ')')" ';'

# The same of propositions.
row 1 'not valid' '500 parentheses in a proposition' 'var p; infer [[(' "$open" 'p' "$close" ')]];'
row 1 'not valid' '500 negations in a proposition' 'var p; infer [[' "$(times 500 '!')" 'p]];'
row 1 'not valid' '32 prior propositions' 'infer [[' "$(times 32 '-')" 'true]];'
row 3 'fault slots at 13' '500 prior propositions' 'var p; infer [[' "$(times 500 '-')" 'p]];'
row 0 'valid' '500 arrows in a proposition' 'var p; infer [[' "$(times 500 'p=>')" 'p]];'
row 1 'not valid' '499 times <=> in a proposition' 'var p; infer [[' "$(times 499 'p<=>(')" '!p' "$close" ']];'
for operator in '||' '&&'; do
  row 1 'not valid' "499 times $operator in a proposition" 'var p; infer [[' "$(times 499 "p$operator(")" 'p' "$close" ']];'
done
row 3 'fault depth at 13' 'all lists in a proposition' 'var p; infer [[' "$(times 499 '(p<=>p||p&&')" 'p' "$close" ']];'
row 3 'fault depth at 13' 'all lists below a negation in a proposition' 'var p; infer [[' "$(times 250 'p<=>p||p&&!(')" 'p' "$(times 250 ')')" ']];'
row 3 'fault depth at 13' 'all lists below an arrow in a proposition' 'var p; infer [[' "$(times 250 'p<=>p=>p||p&&(')" 'p' "$(times 250 ')')" ']];'

# Calls in calls.
row 1 'not valid' '500 arguments in arguments' 'var p; prop g(a) as a; infer [[' "$(times 500 'g(')" 'p' "$(times 500 ')')" ']];'
row 1 'not valid' '500 negations by calls' 'var p; prop g(a) as !a; infer [[' "$(times 500 'g(')" 'p' "$(times 500 ')')" ']];'
row 1 'not valid' '500 arguments that are not used' 'var p; prop g(a) as p; infer [[' "$(times 500 'g(')" 'p' "$(times 500 ')')" ']];'
row 3 'fault depth at 30' 'all lists in arguments' 'var p; prop g(a) as !a; infer [[' "$(times 500 'p<=>p||p&&g(')" 'p' "$(times 500 ')')" ']];'
row 3 'fault depth at 36' 'arguments in a call of a formula' 'var p; define g(a) as [[!a]]; infer g(' "$(times 499 '(p<=>p||p&&')" 'p' "$close" ');'

# chain COUNT HEAD BODY LAST: macros from HEAD0, each of which has the one before it in its body, in the place of @
chain() {
  local number
  printf '%s' "$4"
  for ((number = 1; number < $1; number++)); do
    printf '%s' "${2//@/$number}" "${3//@/$((number - 1))}" ';'
  done
}

row 1 'not valid' 'a chain of 256 propositions' 'var p;' "$(chain 256 'prop g@ as ' 'g@' 'prop g0 as p;')" 'infer [[g255]];'
row 1 'not valid' 'a chain of 256 negations' 'var p;' "$(chain 256 'prop g@(a) as ' '!g@(a)' 'prop g0(a) as a;')" 'infer [[g255(p)]];'
row 1 'not valid' 'a chain of 256 formulas' "$(chain 256 'define g@ as ' 'g@' 'define g0 as pt;')" 'infer g255;'
row 1 'not valid' 'a chain of 256 stars' "$(chain 256 'define g@ as ' 'g@*' 'define g0 as pt;')" 'infer g255;'
row 1 'not valid' 'a chain of 256 lists' "$(chain 256 'define g@ as ' 'pt&&g@' 'define g0 as pt;')" 'infer g255;'
row 1 'not valid' 'a chain of two lists each' "$(chain 256 'define g@ as ' 'pt&&(pt||g@)' 'define g0 as pt;')" 'infer g255;'
row 1 'not valid' 'a chain of two lists each in propositions' 'var p;' \
  "$(chain 256 'prop g@(a) as ' 'p&&(p||g@(a))' 'prop g0(a) as a;')" 'infer [[g255(p)]];'
row 1 'not valid' 'a chain with growing arguments' 'var p;' "$(chain 256 'prop g@(a) as ' '!g@(!a)' 'prop g0(a) as a;')" 'infer [[g255(p)]];'
row 1 'not valid' 'a chain of 256 bodies in parentheses' "$(chain 256 'define g@ as ' "$open"'g@'"$close" 'define g0 as pt;')" 'infer g255;'
row 3 'fault size at 232996' 'a chain of bodies with all lists' 'var p;' \
  "$(chain 40 'prop g@(a) as ' "$(times 496 '(p<=>p||p&&')g@(a)$(times 496 ')')" 'prop g0(a) as !a;')" 'infer [[g39(p)]];'
row 1 'not valid' 'calls in calls that hand their argument on' 'var p; prop g0(a) as a;' \
  "$(chain 100 'prop g@(a) as ' "$(times 400 'g@(')a$(times 400 ')')" '')" 'infer [[g99(p)]];'
row 1 'not valid' 'a chain whose arguments are handed on' 'var p; prop g(a) as a;' \
  "$(chain 170 'prop h@(a) as ' "$(times 490 'g(')h@(a)$(times 490 ')')" 'prop h0(a) as !a;')" 'infer [[h169(p)]];'

# The longest lists.
row 0 'valid' '43,000 operands of &&' 'infer ' "$(times 43000 'true&&')" 'true;'
row 0 'valid' '32,000 operands of <=>' 'infer ' "$(times 32766 'true<=>')" 'true;'
row 0 'valid' '52,000 operands of ^' 'infer ' "$(times 52000 'true^')" 'true;'
row 1 'not valid' '65,000 operands in a proposition' 'var p; infer [[' "$(times 65000 'p&&')" 'p]];'
row 3 'fault size at 6' 'a list of too many nodes' 'infer ' "$(times 65000 'pt&&')" 'pt;'

[ "$failed" -eq 0 ] && echo "$rows texts passed"
exit "$failed"
