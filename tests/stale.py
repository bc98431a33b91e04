#!/usr/bin/env python3
"""What stands in the repository and serves nothing. By hand: tests/stale.py

It lists names between backticks in the pages (README.md, CONTRIBUTING.md, docs/, crates/*/README.md) that are nowhere else in the repository, names of clauses on the page of a crate that
the crate does not have, lemmas that nothing cites, and functions of libraries that no library calls. It goes by words, so it passes over what shares its name with something in use. Status 1 if it lists anything.
"""
import os
import re
import subprocess
import sys
from collections import Counter
from pathlib import Path

ROOT = Path(__file__).resolve().parent.parent
NAME = re.compile(r"[A-Za-z_][A-Za-z0-9_'≢≡≤-]*")

# What documents name and the repository does not have: names of the toolchain and of the system, and names of a reader's own.
ELSEWHERE = set("""
    lemma tidy plant allow-holes fix-imports incremental oantt by-rattle rattle-kept rattle-kit-13f Matches unusable-built-library axioms unsafe unfold
    RT_JOBS Weverything autogroup vmstat discover
    my_grammar my_rule dcv_x make_requirement supplied assumed logger trip retry test_01 pump_minimum door_reset door_step
    items_hidden-the_row-T-k x-items x-index in_err-x in_ok-x in-Variant in-Some-CALL Joined-x f-requires size-T returns-then- returns-then-some-clause
    CALL GOAL MODULE FUNCTION WRONG Variant always_ _for_a_request
    dcvalid_VERSION_ARCHITECTURE vVERSION LICENSE mypy pyflakes3
""".split())

# Calls that are the face of a crate as a library, which tests make alone, and what a trait asks for. Laws are called by whoever needs them.
FACE = set("possible follows into_stream into_sink hold of_auto least_letters verdict_text automaton_text all_text shortlex main fmt from hash default clone eq partial_cmp drop write flush read".split())
# Words of other languages in brackets on the page of a crate.
NO_CLAUSE = {"if"}
NO_LIBRARY = re.compile(r"dcv_(\w+_tests|bench|tables|rows|promises)$")


def texts(pattern):
    paths = subprocess.run(["git", "ls-files", "-z", pattern], cwd=ROOT, stdout=subprocess.PIPE, check=True, encoding="utf-8").stdout
    return {path: (ROOT / path).read_text(encoding="utf-8", errors="replace") for path in paths.split("\0")[:-1] if not (ROOT / path).is_symlink()}


def stale_names(everything):
    """Words between backticks in the documents that no other file has, and that are no part of a path."""
    documents = {path: text for path, text in everything.items() if re.fullmatch(r"(crates/\w+/)?README\.md|CONTRIBUTING\.md|docs/.*", path)}
    known = {word for path, text in everything.items() if path not in documents and path != "tests/stale.py" for word in NAME.findall(text)} | ELSEWHERE
    known |= {part for path in everything for name in path.split("/") for part in (name, os.path.splitext(name)[0])}
    for path, text in documents.items():
        text = re.sub(r"```.*?```", lambda fence: "\n" * fence.group().count("\n"), text, flags=re.S)
        for found in re.finditer(r"`([^`\n]+)`", text):
            for word in NAME.findall(found.group(1)):
                if len(word) > 3 and word not in known:
                    yield f"{path}:{text.count(chr(10), 0, found.start()) + 1}: the name {word} stands nowhere"


def strange_clauses(everything, sources):
    """Names in brackets on the page of a crate that are neither a clause nor a field, a function or a module of that crate."""
    for path, text in everything.items():
        page = re.fullmatch(r"crates/(\w+)/README\.md", path)
        if not page:
            continue
        own = [text for source, text in sources.items() if source.startswith(f"crates/{page[1]}/")]
        known = {name for text in own for name in re.findall(r"\b(?:ensures|fn|mod|pub|abbrev) (?=(\w+)\b)", text)} | NO_CLAUSE
        for at, line in enumerate(text.split("\n")):
            for name in (name for group in re.findall(r"\(([^()]*)\)", line) for name in re.findall(r"`([a-z][a-z_0-9]*)`", group)):
                if name not in known and not name.startswith("dcv_"):
                    yield f"{path}:{at + 1}: {page[1]} has no clause {name}"


def extent(lines, first, name, indent):
    """Where the definition that begins in a line ends."""
    last = first + 1
    goes_on = re.compile(rf"^ {{{indent}}}(?: |[)}}\]]|{re.escape(name)}(?![\w'-])(?! :))")
    while last < len(lines) and goes_on.match(lines[last]):
        last += 1
    return last


def uncited_lemmas(sources):
    plain = {path: re.sub(r"(?m)^\s*--.*$", "", text) for path, text in sources.items()}
    uses = Counter(word for text in plain.values() for word in NAME.findall(text))
    for path, text in plain.items():
        parts = path.split("/")
        if "proofs" not in parts or not path.endswith(".antt") or parts[-1] in ("Answers.antt", "Invariants.antt", "Lib.antt") or re.search("Example|Rows", parts[-1]):
            continue
        lines = text.split("\n")
        for at, line in enumerate(lines):
            head = re.match(r"^((?:  )?)(?:unfoldable |abbrev |pub )*([a-zA-Z_][\w'≢≡-]*) : ", line)
            if head:
                body = "\n".join(lines[at:extent(lines, at, head.group(2), len(head.group(1)))])
                if uses[head.group(2)] == NAME.findall(body).count(head.group(2)):
                    yield f"{path}:{at + 1}: nothing cites {head.group(2)}"


def uncalled_functions(sources):
    """Functions of libraries whose name stands in no library's code but where they are defined, imported or handed on."""
    code = {}
    for path, text in sources.items():
        if "/src/" in path and path.endswith(".rt") and not NO_LIBRARY.match(path.split("/")[1]):
            # comments, clauses and ghost imports are no calls
            text = re.sub(r"//.*", "", text)
            text = re.sub(r"(?m)^ *(?:requires|ensures|ghost)\b(?:.*;$|[^\n]*\n(?:        .*\n)*)", "\n", text)
            code[path] = re.sub(r"(?m)^(?:pub(?:\(\w+\))? )?use [^;]*;", "", text)
    uses = Counter(word for text in code.values() for word in re.findall(r"\w+", text))
    defined = Counter(name for text in code.values() for name in re.findall(r"\bfn (\w+)", text))
    for path, text in code.items():
        for name in re.findall(r"\bfn (\w+)", text):
            is_law = path.endswith("laws.rt") or re.search(rf"fn {name}\b(?:(?!\bfn\b)[\s\S])*?\n{{}}", text)
            if uses[name] == defined[name] and name not in FACE and not is_law:
                yield f"{path}: nothing calls {name}"


def main():
    everything = texts("*")
    sources = {path: text for path, text in everything.items() if path.startswith("crates/") and path.endswith((".rt", ".antt"))}
    found = [*stale_names(everything), *strange_clauses(everything, sources), *uncited_lemmas(sources), *uncalled_functions(sources)]
    print("\n".join(found) or "nothing is stale")
    return bool(found)


if __name__ == "__main__":
    sys.exit(main())
