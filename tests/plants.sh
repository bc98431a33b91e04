#!/usr/bin/env bash
# Tries the wrong bodies that the gate leaves out: the edits of crates/NAME/plants, each of which the check must refuse, as
# those of must-fail/. Run it by hand, for some crates or for all that have such edits; it ends with the status of rt:
#     tests/plants.sh [NAME ..]
# It works in a copy of the tracked files, with the libraries that were proved here, and takes one to four minutes a crate.
source=$(dirname "$(dirname "$(readlink -f "${BASH_SOURCE[0]}")")") || exit 1
work=$(mktemp -d) || exit 1
trap 'rm -rf "$work"' EXIT

(cd "$source" && git ls-files -z | xargs -0 cp -d --parents -t "$work") || exit 1
cd "$work" || exit 1
tests/take_libraries.py "$source" || exit 1
rm -rf crates/*/must-fail
names=("$@")
if [ $# -eq 0 ]; then
  for folder in crates/*/plants; do
    names+=("$(basename "$(dirname "$folder")")")
  done
fi
for name in "${names[@]}"; do
  mv "crates/$name/plants" "crates/$name/must-fail" || exit 1
done
rt must-fail "${names[@]}"
