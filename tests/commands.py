#!/usr/bin/env python3
"""Checks that every text that lists the commands of dcvalid lists those of the table in crates/dcv_command/src/program.rt, and that no page names a cost
that is more than a tenth away from the figures of tests/gate_costs.py.

    tests/commands.py

The texts are the usage of ./dcvalid, the table of README.md, and the table that the man page and completion are made of (workbench/commands.py). Each has
every command, in any order, with as many operands and with the options that have to be given; the last has the other options too. A list of operands
is written `FILE ..`, and counts as two.
"""
import os
import re
import sys

ROOT = os.path.dirname(os.path.dirname(os.path.abspath(__file__)))
sys.path.insert(0, os.path.join(ROOT, "workbench"))
import commands  # noqa: E402
import gate_costs  # noqa: E402


def text_of(*path):
    with open(os.path.join(ROOT, *path)) as file:
        return file.read()


def table():
    """Each command's name, with the number of its operands, its required options and its others."""
    text = text_of("crates", "dcv_command", "src", "program.rt")
    constants = dict(re.findall(r"const (\w+): \[?Argument<'static>(?:; \d+\])? =\s+(.*?);\n\n", text, re.S))
    rows = re.findall(r'^    "([\w-]+)" "(?:[^"\\]|\\.)*"\s*(.*?);$', text[text.index("static COMMANDS"):], re.M | re.S)

    def arguments(part):
        return re.sub(r"\b[A-Z][A-Z_]+\b", lambda word: arguments(constants[word[0]]) if word[0] in constants else word[0], part)

    def parts(words):
        forms = re.findall(r'argument! \{ "(\w+)", Form::(\w+)', words)
        return (sum(form == "Operand" for _, form in forms) + words.count("Value::FileNames"), {"--" + name for name, form in forms if form == "Required"},
                {"--" + name for name, form in forms if form == "WithDefault"})

    return {name: parts(arguments(part)) for name, part in rows}


def shown(words):
    """The operands and options of `FILE --to N`."""
    options = re.findall(r"(--\w+) N", words)
    return len(re.sub(r"--\w+ N", "", words).split()), set(options)


def main():
    wanted = table()
    lists = {
        "the usage of dcvalid": {name: shown(rest) for name, rest in re.findall(r"^  dcvalid (\S+)((?: [A-Z]+| \.\.| --\w+ N)*)   ", text_of("dcvalid"), re.M)},
        "the table of README.md": {name: shown(rest) for row in re.findall(r"^\| (`.*?) \| ", text_of("README.md"), re.M) for name, rest in re.findall(r"`([a-z-]+)((?: [A-Z]+| \.\.| --\w+ N)+)`", row)},
        "the names in dcvalid": {name: None for name in re.search(r"^commands='(.*)'", text_of("dcvalid"), re.M)[1].split()},
    }
    wrong = 0
    for place, found in lists.items():
        for name in wanted.keys() | found.keys():
            if name not in wanted or name not in found or found[name] not in (None, wanted[name][:2]):
                wrong += 1
                print(f"{place}: {name} is {found.get(name, 'left out')}, and not {wanted.get(name, ('unknown',))[:2]}")
    rows = {command.name: (len(command.operands.split()), {option.name for option in command.options}) for command in commands.PROGRAM}
    for name in wanted.keys() | rows.keys():
        operands, required, others = wanted.get(name, (0, set(), set()))
        if name not in wanted or rows.get(name) != (operands, required | others):
            wrong += 1
            print(f"workbench/commands.py: {name} is {rows.get(name, 'left out')}, and not {(operands, required | others)}")
    costs, count = gate_costs.differing()
    print("\n".join([*costs, f"{len(wanted)} commands, {count} costs: {'every page agrees' if not wrong + len(costs) else f'{wrong + len(costs)} differences'}"]))
    return 1 if wrong or costs else 0


if __name__ == "__main__":
    sys.exit(main())
