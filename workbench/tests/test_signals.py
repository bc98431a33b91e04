"""Signals with numbers, and times: rows as tables, whose values are reckoned by hand."""
import os
import sys
import tempfile
import unittest

from support import ROOT

sys.path.insert(0, os.path.join(ROOT, "workbench"))
from lines import LogFault  # noqa: E402
from logs import Settings, Source, letters_of  # noqa: E402
from signals import read_line, read_signals  # noqa: E402
from times import duration, nanoseconds  # noqa: E402

# The cells of a row: speed, left dist, right, state, valid.
ROW = ("31", "0.4", "0.1", "OPEN", "yes")
EXPRESSIONS = (
    ("speed > 30.5", ROW, "1"), ("speed > 31", ROW, "0"), ("speed >= 31", ROW, "1"), ("speed == 31.0", ROW, "1"), ("speed != 31", ROW, "0"),
    ("speed < 3e1 || valid", ROW, "1"), ("speed < 31 && valid", ROW, "0"), ("!(speed < 31) && !(state == \"SHUT\")", ROW, "1"),
    ('"left dist" - right <= 0.3', ROW, "1"),  # in binary numbers it is more than 0.3
    ('abs(right - "left dist") <= 0.3 && valid', ROW, "1"), ("max(speed, right) - min(speed, right, 2) == 30.9", ROW, "1"),
    ("speed in 3..7", ROW, "0"), ("speed in 31..31", ROW, "1"), ("-speed in -40..-31", ROW, "1"), ("2 * speed + 1 == 63", ROW, "1"),
    ("speed - 1 - 2 == 28", ROW, "1"), ("1 + 2 * 3 == 7 && (1 + 2) * 3 == 9", ROW, "1"), ('state == "OPEN"', ROW, "1"), ('state != "OPEN"', ROW, "0"),
    ("valid && speed > 40 || valid", ROW, "1"), ("valid", (*ROW[:4], "off"), "0"), ("speed > -1.5e1", ("-1.6E+1", *ROW[1:]), "0"),
    ("speed > 1", (" +2. ", *ROW[1:]), "1"), ("speed < 1", (".5", *ROW[1:]), "1"),
)
FAULTS = (
    ("speed >", "a number or a column is expected, and not the end"), ("(speed > 3", ") is expected at the end"), ("speed = 3", "= is written =="),
    ("3", "a number is no truth"), ("speed > 3 3", "3 is not expected there"), ("speed > $", "nothing begins with $"), ("abs(1, 2) > 3", "abs has one argument"),
    ("max(1) > 3", "max has two arguments or more"), ("speed in 3", ".. is expected at the end"), ("(speed > 3) + 1 > 2", "a truth is no number"),
    ("spee > 3", "no column is named spee"), ("(" * 99 + "speed" + ")" * 99 + " > 1", "within each other"), ("__import__ > 1", "no column is named __import__"),
    ("speed.__class__ > 1", "no column is named speed.__class__"), ("speed in 1 .. x", "a number is expected on both sides"),
)
CELLS = ("", "nan", "inf", "0x10", "1_0", "1,5", "12 V", "١", "1e9999", "--1")

# The rows of a log: times and digits; then how it is read, and its letters.
STEPS = (("0", "0"), ("1000", "1"), ("1001", "0"), ("3500", "1"))
TIMES = (
    (STEPS, {}, "0101"),
    (STEPS, {"period": "500ms", "unit": "ms"}, "00100001"),  # at 0, 500, 1000, 1500 .. 3500
    (STEPS, {"period": "1s", "unit": "ms"}, "0100"),  # at 0, 1000, 2000, 3000; the pulse at 1000 is there
    (STEPS, {"period": "3s", "unit": "ms"}, "00"),
    (STEPS, {"period": "3s", "unit": "ms", "pulses": True}, "01"),  # the pulse between 0 and 3000
    (STEPS, {"period": "1750ms", "unit": "ms", "pulses": True}, "011"),
    ((("0", "1"), ("0.1", "0"), ("0.2", "1"), ("0.3", "0")), {"period": "100ms"}, "1010"),  # in binary numbers 0.3 is after three tenths
    ((("10", "1"), ("10", "0"), ("11", "1")), {"period": "1s"}, "01"),  # the last row at a time
    ((("23:59:58", "1"), ("23:59:59.5", "0"), ("24:00:00", "1")), {"period": "1s"}, "111"),
    ((("2026-03-29T01:59:59Z", "1"), ("2026-03-29T04:00:00.000+02:00", "0")), {"period": "1s"}, "10"),
    ((("2026-01-01 00:00", "1"), ("2026-01-01 00:02:00.5", "0")), {"period": "1min"}, "111"),
    ((("0", "1"), ("1", "0"), ("9", "1")), {"gap": 8_000_000_000}, "101"),
)
REFUSED = (
    ((("0", "1"), ("x", "0")), {"period": "1s"}, ":3: 'x' is no time"),
    ((("0", "1"), ("2", "0"), ("1", "0")), {"period": "1s"}, ":4: the time 1 is before the one of the row before"),
    ((("0", "1"), ("1", "0"), ("9", "1")), {"gap": 7_000_000_000}, ":4: a gap of 8 s before 9"),
    ((("0", "1"), ("9999999", "0")), {"period": "1ns"}, "are the most"),
    ((("0", "1"), ("x", "0")), {"time": "t"}, ":3: 'x' is no time"),
    ((("0", "1"),), {"time": "tt"}, "no column is named tt"),
)


class Read(unittest.TestCase):
    def letters(self, lines, variables, **settings):
        with tempfile.TemporaryDirectory() as folder:
            path = os.path.join(folder, "log.csv")
            with open(path, "w", encoding="utf-8") as file:
                file.write("\n".join(lines) + "\n")
            return [letter for _, letter in letters_of(Source(Settings(path, **settings), variables), variables)]

    def number(self, expression, *rows, **settings):
        lines = ["t,speed,left dist,right,state,valid"] + [",".join(["0", *row]) for row in rows]
        return "".join(self.letters(lines, ["it"], signals=[read_line(f"it = {expression}", "--let")], **settings))

    def timed(self, rows, settings):
        return "".join(self.letters(["t,p"] + [",".join(row) for row in rows], ["p"], **settings))

    def test_expressions(self):
        for expression, row, wanted in EXPRESSIONS:
            self.assertEqual(self.number(expression, row), wanted, expression)

    def test_faults_of_expressions(self):
        for expression, message in FAULTS:
            with self.assertRaises(LogFault, msg=expression) as caught:
                self.number(expression, ROW)
            self.assertIn(message, str(caught.exception))

    def test_cells_that_are_no_numbers(self):
        for cell in CELLS:
            bad = (f'"{cell}"', *ROW[1:])
            with self.assertRaises(LogFault, msg=cell) as caught:
                self.number("speed > 30", ROW, bad)
            self.assertIn(f":3: speed is '{cell}', which is no number", str(caught.exception))
            self.assertEqual(self.number("speed > 30", ROW, bad, ("2", *ROW[1:]), bad, holds=True), "1100")
            with self.assertRaises(LogFault) as caught:
                self.number("speed > 30", bad, ROW, holds=True)
            self.assertIn(":2: speed is", str(caught.exception))

    def test_truths_that_are_held(self):
        self.assertEqual("".join(self.letters(["t,p", "0,1", "1,", "2,0", "3"], ["p"], holds=True)), "1100")

    def test_a_file_of_signals(self):
        text = 'fast = speed > 30.5  // km/h, the wheel\'s own sensor\n\n# none\nopen = state == "a//b";# text\nspeed // raw\n'
        self.assertEqual([(it.name, it.expression, it.meaning, it.where) for it in read_signals(text, "s")],
                         [("fast", "speed > 30.5", "km/h, the wheel's own sensor", "s:1"), ("open", 'state == "a//b"', "text", "s:4"), ("speed", "", "raw", "s:5")])
        for line in ("fast =", "= speed", "fast speed > 3", "fast == 3", "3 = speed"):
            self.assertRaises(LogFault, read_signals, line, "s")

    def test_times(self):
        for rows, settings, wanted in TIMES:
            self.assertEqual(self.timed(rows, settings), wanted, (rows, settings))

    def test_times_that_are_refused(self):
        for rows, settings, message in REFUSED:
            with self.assertRaises(LogFault, msg=message) as caught:
                self.timed(rows, settings)
            self.assertIn(message, str(caught.exception))

    def test_lengths_and_moments(self):
        for text, wanted in (("10ms", 10_000_000), ("1.5s", 1_500_000_000), ("2min", 120_000_000_000), ("1h", 3_600_000_000_000), ("1ns", 1),
                             ("0.5ns", None), ("0s", None), ("10", None), ("ms", None), ("-1s", None), ("1e3s", None)):
            self.assertEqual(duration(text), wanted, text)
        for text, wanted in (("1.5", 1_500_000_000), ("-0.25", -250_000_000), ("1700000000.000000001", 1_700_000_000_000_000_001), ("00:01", 60_000_000_000),
                             ("1970-01-01T00:00:01.5Z", 1_500_000_000), ("1970-01-01T01:00:00+01:00", 0), ("2026-02-30T00:00Z", None), ("nan", None), ("1e3", None)):
            self.assertEqual(nanoseconds(text, 1_000_000_000), wanted, text)


if __name__ == "__main__":
    unittest.main()
