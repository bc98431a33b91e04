#!/usr/bin/env bash
# Tests the scripts that a user meets first: ./dcvalid, `make install` and what begins without a program. Stand-ins take the place of rt and of
# bench/unproved.py: they note their calls, and leave programs that print their words. Nothing is proved. It takes half a minute:
#     tests/front_door.sh
source=$(dirname "$(dirname "$(readlink -f "${BASH_SOURCE[0]}")")") || exit 1
work=$(mktemp -d) || exit 1
[ -n "${KEEP-}" ] && echo "$work" || trap 'rm -rf "$work"' EXIT
unset DCVALID DCVALID_PROOF MAKEFLAGS
failed=0

# ---- the stand-ins

# A kit of its own. Its rt reports each crate as proved, fails for the crate that the file `broken` names, waits where there is a file `slow`, and
# leaves a program that ends with status 3.
mkdir "$work/bin"
echo 'kit 1' >"$work/KIT-ID"
cat >"$work/bin/rt" <<END
#!/usr/bin/env bash
echo "\$*" >>"$work/calls"
case \$1 in
  doc) echo "$work/START-HERE.md" ;;
  version) cat "$work/KIT-ID" ;;
  ci)
    find . -mindepth 1 -printf '%P\n' | sort >"$work/copied"
    sed 's/[ :].*//' crates.txt | sort >"$work/names"
    [ ! -e "$work/slow" ] || { sleep 300 & echo \$! >"$work/sleeper"; wait; }
    echo 'rt: dcv_grammar is kept: an earlier run proved the same'
    for name in dcv_io dcv_word dcvalid; do
      echo "== \$name"
      [ "\$(cat "$work/broken" 2>/dev/null)" != "\$name" ] || { echo "it is not proved"; exit 1; }
    done
    mkdir crates/dcvalid/out
    printf '#!/usr/bin/env bash\nprintf "<%%s>" "\$@"\nexit 3\n' >crates/dcvalid/out/dcvalid
    chmod +x crates/dcvalid/out/dcvalid ;;
esac
END
chmod +x "$work/bin/rt"

# The tracked files and new ones as they are, committed or not; the build without proofs is a stand-in, whose program ends with status 4.
mkdir "$work/clone" || exit 1
(cd "$source" && git ls-files -z --cached --others --exclude-standard | xargs -0 cp -d --parents -t "$work/clone")
clone=$work/clone
cat >"$clone/bench/unproved.py" <<END
#!/usr/bin/env bash
echo "unproved \$*" >>"$work/calls"
mktemp -d >"$work/inner" # in the room, if that is where temporary files go
[ ! -e "$work/slow" ] || { sleep 300 & echo \$! >"$work/sleeper"; wait; }
for i in {1..600}; do # until two other calls wait
  [ -e "$work/pause" ] && [ "\$(cat "$work"/at_once_err.? | grep -c 'waiting for')" -lt 2 ] || break
  sleep 0.1
done
[ ! -e "$work/broken" ] || { echo 'it does not compile'; exit 1; }
printf '#!/usr/bin/env bash\nprintf "<%%s>" "\$@"\nexit 4\n' >"\$2"
chmod +x "\$2"
END
touch "$work/f" "$work/a b.dc"
built=$clone/crates/dcvalid/out/dcvalid
mkdir "$work/rooms"
export TMPDIR=$work/rooms

# ---- what is expected

# How often a proof, or a build without proofs, was begun.
proofs() { grep -c '^ci' "$work/calls" 2>/dev/null || [ -e "$work/calls" ] || echo 0; }
builds() { grep -c '^unproved' "$work/calls" 2>/dev/null || [ -e "$work/calls" ] || echo 0; }

# run WANTED_STATUS WANTED_OUTPUT PROGRAM WORDS..: what it said on standard error is in $work/err.
run() {
  local wanted=$1 output=$2 got
  shift 2
  got=$(cd "$work" && PATH=${path-$work/bin:$PATH} "$@" 2>"$work/err")
  local status=$?
  expect "status of $*" "$wanted" "$status"
  expect "output of $*" "$output" "$got"
}

expect() {
  if [ "$2" != "$3" ]; then
    echo "FAILED: $1: wanted '$2', got '$3'"
    failed=1
  fi
}

# expect_counts WHEN BUILDS PROOFS: how many were begun so far.
expect_counts() { expect "builds and proofs begun, $1" "$2 $3" "$(builds) $(proofs)"; }

contains() {
  grep -q -- "$2" "$work/err" || { echo "FAILED: $1: no '$2' on standard error: $(head -n 3 "$work/err")"; failed=1; }
}

# ---- before anything is built

run 2 '' "$clone/dcvalid"
contains 'no words' 'dcvalid check FILE'
contains 'no words' '--prove'
run 2 '' "$clone/dcvalid" --help
run 2 '' "$clone/dcvalid" check --help
run 2 '' "$clone/dcvalid" chekc f
contains 'an unknown command' 'no command chekc'
run 5 '' "$clone/dcvalid" check --states 10 missing
contains 'a file that is not there' 'no file missing'
run 5 '' "$clone/dcvalid" implies f missing
none=$(printf 'dcvalid %s\nrevision: of no repository\nkit: kit 1\nproved: no: nothing is built yet' "$(cat "$source/VERSION")")
run 0 "$none" "$clone/dcvalid" --version
mkdir "$work/plain"
for tool in bash env readlink dirname awk find sort xargs cksum cat mkdir rm mv tail nproc sed touch flock git date; do
  ln -s "$(command -v "$tool")" "$work/plain/$tool"
done
path=$work/plain run 125 '' "$clone/dcvalid" check f
contains 'no rt' 'not on the path'
path=$work/plain run 125 '' "$clone/dcvalid" --prove
for words in '--require-proof check f' '--require-proof --build'; do
  # shellcheck disable=SC2086
  run 125 '' "$clone/dcvalid" $words
  contains "$words" './dcvalid --prove makes one: .* minutes'
done
run 125 '' env DCVALID_PROOF=required "$clone/dcvalid" check f
run 125 '' env DCVALID_PROOF=require "$clone/dcvalid" check f
contains 'a misspelt demand' "may only be 'required'"

# No script of tests/ or bench/ and no command of the workbench begins a proof, or a build, where there is no program.
for script in tests/examples.sh tests/stack.sh tests/growth.py tests/observers.py 'tests/patterns.py response' "tests/rows.py $clone/crates/dcv_rows/data/runs.rows" \
  'tests/shifts.py 1 1' bench/check.sh; do
  # shellcheck disable=SC2086
  (cd "$work" && PATH=$work/bin:$PATH timeout 60 "$clone"/$script) >"$work/err" 2>&1
  expect "$script without a program has failed" 1 "$(($? != 0))"
  contains "$script" 'dcvalid --build\|dcvalid --prove'
done
expect_counts 'before any is needed' 0 0

# ---- the first call, and the next

run 4 '<check><a b.dc>' "$clone/dcvalid" check 'a b.dc'
expect_counts 'by the first call' 1 0
contains 'the first call' 'building the program without its proofs, some [0-9]* seconds'
contains 'the first call' 'not proved on this machine; ./dcvalid --prove does so: some [0-9]* minutes'
run 4 '<check><f>' "$clone/dcvalid" --try check f
expect 'lines of a later call' 1 "$(wc -l <"$work/err")"
contains 'a later call' 'not proved on this machine'
run 0 '' "$clone/dcvalid" --build
run 4 '<>' "$clone/dcvalid"
run 4 '<--help>' "$clone/dcvalid" --help
run 125 '' "$clone/dcvalid" --require-proof check f
unproved=${none/nothing is built yet/built of these sources without their proofs; ./dcvalid --prove proves them}
run 0 "$unproved" "$clone/dcvalid" --version
expect_counts 'once it is built' 1 0
expect 'rooms that are left' '' "$(ls "$TMPDIR")"

# ---- the proved program takes its place

run 0 '' "$clone/dcvalid" --prove
expect_counts 'by a proof' 1 1
contains 'progress' '4 of .* crates are proved, .* % of the work, some .* minutes left'
expect 'the crates that are copied' "$(cat "$work/names")" "$(sed -n 's|^crates/\([^/]*\)$|\1|p' "$work/copied")"
expect 'crates that are not of the program' 0 "$(grep -c '^crates/\(dcv_rows\|dcv_promises\|dcv_[a-z]*_tests\|.*/must-fail\|.*/plants\)' "$work/copied")"
expect 'the lowest and the highest crate' 2 "$(grep -cx 'dcv_io\|dcvalid' "$work/names")"
proved=${none/no: nothing is built yet/yes: built of these sources, each crate of which was proved}
run 0 "$proved" "$clone/dcvalid" --version
run 3 '<check><missing>' "$clone/dcvalid" check missing
expect 'what is said of a proved program' '' "$(cat "$work/err")"
run 3 '<check><f>' env DCVALID_PROOF=required "$clone/dcvalid" check f
run 0 '' "$clone/dcvalid" --prove
run 0 '' "$clone/dcvalid" --build
expect_counts 'once it is proved' 1 1
expect 'rooms that are left' '' "$(ls "$TMPDIR")"

# Times do not count, contents do, and only those of the program's crates.
touch "$clone/crates/dcv_word/src/lib.rt" "$clone/crates.txt"
run 3 '<check><f>' "$clone/dcvalid" check f
echo '// more' >>"$clone/crates/dcv_run_tests/src/lib.rt"
run 3 '<check><f>' "$clone/dcvalid" check f
expect_counts 'after a touch and an edit elsewhere' 1 1
proof=$(find "$clone/crates/dcv_word/proofs" -type f | head -n 1)
cp "$proof" "$work/kept"
echo '-- more' >>"$proof"
run 3 '<check><f>' "$clone/dcvalid" check f
contains 'after an edit of a proof' 'not proved on this machine'
run 125 '' "$clone/dcvalid" --require-proof check f
cp "$work/kept" "$proof"
run 3 '<check><f>' "$clone/dcvalid" --require-proof check f
expect_counts 'after an edit of a proof' 1 1
echo '// more' >>"$clone/crates/dcv_word/src/lib.rt"
run 4 '<check><f>' "$clone/dcvalid" check f
rm "$clone/crates/dcv_word/src/words.rt"
run 4 '<check><f>' "$clone/dcvalid" check f
run 4 '<check><f>' "$clone/dcvalid" check f
expect_counts 'after two edits of sources' 3 1

# A program from elsewhere, even with an old time, one of another kit, and one without a record are not taken for proved.
run 0 '' "$clone/dcvalid" --prove
printf '#!/bin/sh\necho foreign\n' >"$work/foreign"
chmod +x "$work/foreign"
touch -d 2020-01-01 "$work/foreign"
cp -p "$work/foreign" "$built"
run 0 "${none/nothing is built yet/$built is not known to be built of these sources}" "$clone/dcvalid" --version
run 125 '' "$clone/dcvalid" --require-proof check f
run 4 '<check><f>' "$clone/dcvalid" check f
echo 'kit 2' >"$work/KIT-ID"
run 4 '<check><f>' "$clone/dcvalid" check f
rm "$built.record"
run 4 '<check><f>' "$clone/dcvalid" check f
expect_counts 'over a program from elsewhere, another kit and no record' 6 2

# Through links.
ln -s "$clone/dcvalid" "$work/link"
ln -s link "$work/second"
run 4 '<check><f>' "$work/second" check f
expect_counts 'through a link' 6 2

# A build that fails reports it, and is tried again.
echo '// and more' >>"$clone/crates/dcv_word/src/lib.rt"
echo dcv_word >"$work/broken"
run 125 '' "$clone/dcvalid" check f
contains 'a failed build' 'it does not compile'
run 125 '' "$clone/dcvalid" --prove
contains 'a failed proof' 'it is not proved'
rm "$work/broken"
expect_counts 'that failed' 7 3

# ---- several calls at once, and signals

touch "$work/pause"
for i in 1 2 3; do
  (cd "$work" && PATH=$work/bin:$PATH "$clone/dcvalid" check f >"$work/at_once.$i" 2>"$work/at_once_err.$i"; echo "status $?" >>"$work/at_once.$i") &
done
wait
rm "$work/pause"
expect_counts 'by three calls at once' 8 3
expect 'the answers of three calls at once' "$(printf '<check><f>status 4\n%.0s' 1 2 3)" "$(cat "$work"/at_once.?)"
expect 'calls that waited' 2 "$(grep -l 'waiting for another call, which builds this program (unproved)' "$work"/at_once_err.? | wc -l)"

# interrupted SIGNAL WORDS..: a build that hangs is ended by a signal; its processes end, and its room goes.
interrupted() {
  local signal=$1 i
  shift
  rm -f "$work/sleeper"
  (cd "$work" && PATH=$work/bin:$PATH exec env --default-signal="$signal" "$clone/dcvalid" "$@") 2>/dev/null &
  for i in {1..600}; do [ ! -s "$work/sleeper" ] || break; sleep 0.1; done
  expect "a room while $* goes on" 1 "$(ls "$TMPDIR" | wc -l)"
  kill -s "$signal" $!
  wait $!
  expect "status of $* after $signal" 125 "$?"
  expect "rooms after $signal" '' "$(ls "$TMPDIR")"
  ! kill -0 "$(cat "$work/sleeper")" 2>/dev/null || { echo "FAILED: a process of $* goes on after $signal"; failed=1; }
}
touch "$work/slow"
rm "$built"
for signal in TERM INT HUP; do
  interrupted "$signal" check f
  interrupted "$signal" --prove
done
rm "$work/slow"
run 4 '<check><f>' "$clone/dcvalid" check f
expect_counts 'after six that were ended' 12 6

# ---- installing

prefix=$work/prefix
make_in_clone() { make --no-print-directory -s -C "$clone" PREFIX="$prefix" "$@"; }
cp -p "$work/foreign" "$built"
run 2 '' make_in_clone install
contains 'installing a program from elsewhere' 'no program is proved of these sources'
expect 'what a refused installation leaves' '' "$(ls "$prefix" 2>/dev/null)"
run 0 '' make_in_clone install UNPROVED=1
expect 'the installed program' '<check>' "$("$prefix/bin/dcvalid" check)"
expect 'whether it says that it is proved' 'proved: no: built of these sources without their proofs; ./dcvalid --prove proves them' "$(grep '^proved' "$prefix/share/dcvalid/VERSION")"
run 0 "$prefix: as it was installed, dcvalid $(cat "$source/VERSION"), not proved" make_in_clone check-install
expect 'commands of the installed workbench' 1 "$(cd "$work" && "$prefix/bin/ask" | grep -c 'explain COMMAND')"
expect 'patterns of the installed workbench' "$(find "$source/patterns" -name '*.dc' | wc -l)" "$(cd "$work" && "$prefix/bin/ask" patterns 2>/dev/null | grep -c '^  *[a-z_]* .*\.$\|^[a-z_]*:')"
cp "$work/foreign" "$prefix/bin/dcvalid"
run 2 '' make_in_clone check-install
contains 'a changed program' 'bin/dcvalid'
run 0 '' make_in_clone uninstall
expect 'what is left after removal' '' "$(find "$prefix" ! -type d)"
run 0 '' "$clone/dcvalid" --prove
run 0 '' make_in_clone install
run 0 "$prefix: as it was installed, dcvalid $(cat "$source/VERSION"), proved" make_in_clone check-install

# A Debian package has the same files. packaging/try installs one in a clean Debian, runs it and removes it, by hand.
if command -v dpkg-deb >/dev/null; then
  git -C "$clone" init -q
  git -C "$clone" -c user.name=tester -c user.email=tester@example.org commit -q --allow-empty -m 'for the package'
  cp -p "$work/foreign" "$built"
  run 2 '' make_in_clone deb
  contains 'a package of a program from elsewhere' 'no program is proved of these sources'
  make_in_clone deb UNPROVED=1 >/dev/null 2>&1
  package=$(ls "$clone"/out/dcvalid_"$(cat "$source/VERSION")"~unproved_*.deb)
  dpkg-deb -x "$package" "$work/unpacked"
  run 0 "$work/unpacked/usr: as it was installed, dcvalid $(cat "$source/VERSION"), not proved" make_in_clone check-install DESTDIR="$work/unpacked" PREFIX=/usr
  expect 'the program of the package' '<check>' "$("$work/unpacked/usr/bin/dcvalid" check)"
  expect 'commands of the workbench of the package' 1 "$(cd "$work" && "$work/unpacked/usr/bin/ask" | grep -c 'explain COMMAND')"
  if command -v lintian >/dev/null; then expect 'what lintian reports' '' "$(lintian "$package" 2>/dev/null | grep '^[EW]')"; fi
fi

[ "$failed" -eq 0 ] && echo 'all passed'
exit "$failed"
