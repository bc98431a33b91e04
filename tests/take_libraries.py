#!/usr/bin/env python3
"""Copies proved libraries from other clones into this one, so that a check here does not prove them again. For developing, by hand:

    tests/take_libraries.py FROM ..

It copies into the clone in which the script stands: run there, a clone in which a gate runs would get libraries of another build, and the gate fails. Of each crate whose sources, definitions and proofs are the same there, down to the lowest, `out/rlib` is copied and stamped as `rt` does it. A clone in
which a gate runs serves too. No verdict rests on these: `rt ci` proves all from nothing.
"""
import os
import shutil
import sys

sys.path.insert(0, "/opt/rattle/bin")
import rtlib

ROOT = os.path.dirname(os.path.dirname(os.path.abspath(__file__)))


def dependencies(root):
    needs = {}
    with open(os.path.join(root, "crates.txt")) as file:
        for line in file:
            name, colon, rest = line.split("#")[0].partition(":")
            if colon:
                needs[name.split()[0]] = rest.split()
    return needs


def sources(folder):
    found = {}
    for part in ("src", "specs", "proofs"):
        for room, _, files in os.walk(os.path.join(folder, part)):
            for name in files:
                path = os.path.join(room, name)
                with open(path, "rb") as file:
                    found[os.path.relpath(path, folder)] = file.read()
    return found


def taken_from(clone):
    own, other, alike = dependencies(ROOT), dependencies(clone), {}

    def is_alike(name):
        if name not in own:
            return True
        if name not in alike:
            alike[name] = (other.get(name) == own[name] and all(map(is_alike, own[name]))
                           and sources(f"{clone}/crates/{name}") == sources(f"{ROOT}/crates/{name}"))
        return alike[name]

    for name in own:
        library = f"{clone}/crates/{name}/out/rlib/{name}.rlib"
        if os.path.exists(library) and is_alike(name):
            room = f"{ROOT}/crates/{name}/out/rlib"
            os.makedirs(room, exist_ok=True)
            shutil.rmtree(f"{room}/{name}.rlib", ignore_errors=True)
            shutil.copytree(library, f"{room}/{name}.rlib", symlinks=True)
            yield name


def main():
    os.chdir(ROOT)
    taken = set()
    for clone in sys.argv[1:] or sys.exit(__doc__):
        taken.update(taken_from(os.path.abspath(clone)))
    for name in taken:
        with open(f"crates/{name}/out/rlib/stamp", "w") as file:
            file.write(rtlib.Crate(f"{ROOT}/crates/{name}", ROOT, {}).stamp())
    print(len(taken), "libraries:", *sorted(taken))


main()
