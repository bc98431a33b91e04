#!/usr/bin/env python3
"""Reports how the wrong bodies fell that a log of `rt ci`, `rt must-fail` or `tests/plants.sh` says were refused. By hand:

    tests/edits.py LOG ..

An edit shows something of a contract where it falls at a clause: what a function ensures, or what a call requires. It says less where the invariant
of a loop, or an answer in proofs/, no longer fits. The edits of these two kinds are listed, and those that were not refused. The status is 1 where
there is one that was not refused, or fell only since an answer names what it took away.
"""
import re
import sys

LINE = re.compile(r"must-fail (\S+\.edit): (.*)")
# What rt says of an edit, by what it begins with or has in it, the first that fits.
KINDS = (
    ("not refused", r"NOT REFUSED|NOT TRIED|BAD EDIT"),
    ("a name that is gone", r"only because a proof file names"),
    ("a clause", r"it is not proved that what the function ensures|contract .* does not meet|not proved that what .* ensures"),
    ("a requires", r"requires|index is within|does not overflow|is never reached"),
    ("an invariant", r"invariant of the loop"),
    ("an answer", r"proofs/"),
    ("something else", r""),
)


def kind_of(message):
    return next(kind for kind, pattern in KINDS if re.search(pattern, message))


def main():
    if len(sys.argv) < 2:
        sys.exit(__doc__)
    fell = {}
    for path in sys.argv[1:]:
        with open(path, encoding="utf-8", errors="replace") as log:
            for match in filter(None, map(LINE.search, log)):
                fell[match[1]] = (kind_of(match[2]), match[2])
    for kind, _ in KINDS:
        edits = [(name, message) for name, (its_kind, message) in sorted(fell.items()) if its_kind == kind]
        if edits:
            print(f"{kind}: {len(edits)}")
        if kind not in ("a clause", "a requires"):
            for name, message in edits:
                print(f"  {name}: {message[:200]}")
    return any(kind in ("not refused", "a name that is gone") for kind, _ in fell.values())


if __name__ == "__main__":
    sys.exit(main())
