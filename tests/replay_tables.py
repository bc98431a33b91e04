#!/usr/bin/env python3
"""Compares `replay-tables` with a reader of this script's own, on drawn texts of tables and on edits of them. By hand, some minutes for 20,000 texts:

    DCVALID=PROGRAM tests/replay_tables.py [COUNT [SEED]]

Every tenth text is as the program wrote it, for a drawn formula. The others were edited once or twice: a byte, a number or a line is exchanged, added or
taken away. The reader here goes through a text with the form of docs/OBSERVERS.md and stops where no text of the form goes on, so that it has the offset
of a fault of syntax; then it looks at each number and each parameter in turn. A text without a fault is run over a drawn trace by the meaning of C, and
the answers, or the refusal with its offset, must be the program's. A text as it was written is compared with `replay-c` over the text of `c` too.
"""
import os
import random
import re
import subprocess
import sys
import tempfile

from sweeps import Draw, formula
from tables import spelled
from tested import tested

WORD = re.compile(rb"[A-Za-z0-9_]*")
NAME = re.compile(rb"[A-Za-z][A-Za-z0-9_]*\Z")
RESERVED = b"var define prop as infer ex all true false pt ext slen scount sdur".split()


class Syntax(Exception):
    """No text of the form goes on at this offset."""


class Refused(Exception):
    """A number or a parameter at this offset breaks a rule."""


class Reader:
    """The tables of a text: its numbers and its parameters, each with its offset."""

    def __init__(self, text):
        self.text, self.at = text, 0
        self.literal(b"enum { states = ")
        states = self.number()
        self.literal(b", nodes = ")
        nodes = self.number()
        self.literal(b", variables = ")
        variables = self.number()
        self.literal(b" };\n\n")
        integer = b"unsigned short" if states[0] + nodes[0] <= 65_535 else b"unsigned long"
        self.counts, self.variable, self.high, self.low = (states, nodes, variables), [], [], []
        if nodes[0]:
            self.variable = self.array(b"unsigned char variable[nodes]", nodes[0])
            self.high = self.array(integer + b" high[nodes]", nodes[0])
            self.low = self.array(integer + b" low[nodes]", nodes[0])
        self.row = self.array(integer + b" row[states]", states[0])
        self.accept = self.array(b"unsigned char accept[states]", states[0], b"01")
        self.literal(b"static " + integer + b" st;\n\nvoid observer_reset(void)\n{\n  st = 0;\n}\n\nint observer_step(")
        self.parameters = [self.parameter(slot) for slot in range(variables[0])]
        if not self.parameters:
            self.literal(b"void")
        self.literal(b")\n{\n" + (b"  int letter[variables];\n" if nodes[0] else b"") + b"  " + integer + b" at;\n\n")
        if nodes[0]:
            for slot, (name, _) in enumerate(self.parameters):
                self.literal(b"  letter[%d] = %s;\n" % (slot, name))
        self.literal(b"  at = row[st];\n")
        if nodes[0]:
            self.literal(b"  while (at >= states) at = letter[variable[at - states]] ? high[at - states] : low[at - states];\n")
        self.literal(b"  st = at;\n  return accept[st];\n}\n")
        if self.at < len(text):
            raise Syntax(self.at)

    def literal(self, wanted):
        for byte in wanted:
            if self.text[self.at:self.at + 1] != bytes([byte]):
                raise Syntax(self.at)
            self.at += 1

    def number(self, digits=b"0123456789"):
        """A number without a needless zero, of seven digits at most."""
        start = self.at
        while self.at < start + 7 and self.text[self.at:self.at + 1] and self.text[self.at:self.at + 1] in digits and self.text[start:self.at] != b"0":
            self.at += 1
        if self.at == start:
            raise Syntax(self.at)
        return int(self.text[start:self.at]), start

    def array(self, head, count, digits=b"0123456789"):
        self.literal(b"static const " + head + b" = {\n")
        numbers = []
        for _ in range(count):
            self.literal(b"  ")
            start = self.at
            number = self.number(digits)
            if digits == b"01" and self.at > start + 1:
                raise Syntax(start + 1)
            numbers.append(number)
            self.literal(b",\n")
        self.literal(b"};\n\n")
        return numbers

    def parameter(self, slot):
        self.literal((b", " if slot else b"") + b"int ")
        start = self.at
        self.literal(b"v_")
        word = WORD.match(self.text, self.at)[0]
        if not word:
            raise Syntax(self.at)
        self.at += len(word)
        return self.text[start:self.at], start

    def judge(self):
        """Raises the first number or parameter that breaks a rule."""
        (states, first), (nodes, second), (variables, third) = self.counts

        def keeps(offset, rule):
            if not rule:
                raise Refused(offset)

        keeps(first, 1 <= states <= 32_000)
        keeps(second, nodes <= 1_000_000)
        keeps(third, variables <= 16)
        for number, at in self.variable:
            keeps(at, number < variables)
        for children in (self.high, self.low):
            for place, (child, at) in enumerate(children):
                later = child < states or child - states < nodes and self.variable[child - states][0] > self.variable[place][0]
                keeps(at, child < states + place and later)
        for number, at in self.row:
            keeps(at, number < states + nodes)
        earlier = set()
        for name, at in self.parameters:
            plain = NAME.match(name[2:]) and len(name) <= 26 and name[2:] not in RESERVED
            keeps(at, plain and name not in earlier)
            earlier.add(name)

    def answers(self, trace):
        state, found = 0, []
        for letter in trace:
            at, states = self.row[state][0], self.counts[0][0]
            while at >= states:
                side = self.high if letter[self.variable[at - states][0]] == "1" else self.low
                at = side[at - states][0]
            state = at
            found.append(str(self.accept[state][0]))
        return found


def expected(text, trace):
    """The status, the report and the message of a run, by this script; None where the trace has not as many values as there are parameters."""
    try:
        tables = Reader(text)
        tables.judge()
    except Syntax as fault:
        return 9, "", f"fault observer syntax at {fault.args[0]}\n"
    except Refused as fault:
        return 9, "", f"fault observer names at {fault.args[0]}\n"
    if len(trace[0].replace("-", "")) != len(tables.parameters):
        return None
    return 0, "".join(answer + "\n" for answer in tables.answers(trace)), ""


def edited(draw, text):
    """The text with one small change."""
    at, way = draw.randrange(len(text)), draw.random()
    if way < 0.45:
        numbers = list(re.finditer(rb"\d+", text))
        one = draw.choice(numbers or [re.match(rb"", text)])
        value = draw.choice([b"0", b"1", b"2", b"010", b"32000", b"32001", b"65536", b"1000001", b"9999999", b"10000000", str(int(one[0] or b"0") + 1).encode(),
                             str(max(0, int(one[0] or b"0") - 1)).encode(), draw.choice(numbers or [one])[0], b""])
        return text[:one.start()] + value + text[one.end():]
    if way < 0.6:
        lines = text.splitlines(keepends=True)
        place = draw.randrange(len(lines))
        new = draw.choice([[], [lines[place]] * 2, [draw.choice(lines)], [lines[place].replace(b"\n", b"\r\n")], [b"  0,\n", lines[place]]])
        return b"".join(lines[:place] + new + lines[place + 1:])
    if way < 0.7:
        words = sorted(set(re.findall(rb"v_\w+", text))) or [b"void"]
        return text.replace(draw.choice(words), draw.choice([b"v_x", b"v_y", b"v_", b"v_infer", b"v_1", b"x", b"v_" + b"a" * 24, b"v_" + b"a" * 25, b"void"]),
                            draw.choice([1, -1]))
    if way < 0.75:
        return text[:at]
    byte = bytes([draw.choice(b"0129 ,;{}[]()\n\rvx_=\x00\xff\t")])
    return text[:at] + draw.choice([b"", byte, byte + text[at:at + 1]]) + text[at + 1:]


def drawn_tables(program, folder, draw, source):
    """The text of tables and that of `c` of a drawn formula of few states."""
    path = os.path.join(folder, "drawn.dc")
    while True:
        names = ["x, y, z", "x, y, z, t"][draw.random() < 0.2]
        with open(path, "w") as file:
            file.write(f"var {names};\ninfer {spelled(formula(source, draw.choice([1, 2, 3]), 0))};\n")
        texts = [subprocess.run([program, command, path], capture_output=True).stdout for command in ("tables", "c")]
        if 0 < len(texts[0]) < 20_000:
            return texts


def ran(program, command, observer, trace):
    done = subprocess.run([program, command, observer, trace], capture_output=True)
    return done.returncode, done.stdout.decode(), done.stderr.decode()


def main():
    count, seed = (int(word) for word in (sys.argv[1:] + ["20000", "7"][len(sys.argv) - 1:]))
    program, draw, source, statuses = tested(), random.Random(seed), Draw(seed), {}
    with tempfile.TemporaryDirectory() as folder:
        observer, log, unit = (os.path.join(folder, name) for name in ("observer", "trace", "unit"))
        for place in range(count):
            if place % 10 == 0:
                written, c_text = drawn_tables(program, folder, draw, source)
            text, slots = written, len(Reader(written).parameters)
            if place % 10:
                text = edited(draw, text)
                if draw.random() < 0.3:
                    text = edited(draw, text or b"\n")
            trace = ["".join(draw.choice("01") for _ in range(slots)) or "-" for _ in range(draw.randrange(1, 20))]
            wanted = expected(text, trace)
            for name, data in ((observer, text), (log, "".join(line + "\n" for line in trace).encode()), (unit, c_text)):
                with open(name, "wb") as file:
                    file.write(data)
            got = ran(program, "replay-tables", observer, log)
            if (wanted is not None and got != wanted) or (place % 10 == 0 and got != ran(program, "replay-c", unit, log)):
                sys.exit(f"text {place} of seed {seed}: the program has {got}, this script {wanted}; the text:\n{text.decode(errors='replace')}")
            kind = " ".join(got[2].split()[:3]) or "answers"
            statuses[kind] = statuses.get(kind, 0) + 1
    print(f"{count} texts: " + ", ".join(f"{number} {kind}" for kind, number in sorted(statuses.items())))


if __name__ == "__main__":
    main()
