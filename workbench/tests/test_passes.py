"""`watch .. --log`: many requirements in one pass, beside a call for each; live on a pipe; and what is not confirmed."""
import gzip
import json
import os
import random
import subprocess
import time
import unittest
import xml.etree.ElementTree as xml

from support import PROGRAM, ROOT, WithFolder, here, needs_program, run

NAMES = ("response", "never_both", "toggle", "separation", "minimum_duration", "alternation", "at_most", "always", "lift_door", "valve_held")
FILES = [os.path.join(ROOT, "examples", name + ".dc") for name in NAMES]
RESPONSE = FILES[0]
FEW = "t,request,grant\n" + "".join(f"{number},{request},0\n" for number, request in enumerate("01000"))  # broken at instant 4


def variables_of(path):
    with open(path, encoding="ascii") as file:
        line = next(line for line in file if line.startswith("var "))
    return line[4:].strip().rstrip(";").replace(",", " ").split()


# Logs that are at fault after a breach at instant 4: what follows the rows of FEW, and the line on standard error.
FAULTS = (
    (b"5,0\n", ":7: the row ends before the column of grant"), (b"5,0,0,0\n", ":7: the row has 4 cells, and the header 3"),
    (b'5,"0,0\n6,0,0\n', ":7: the quote that begins in column 2 is not closed where the log ends"), (b"5,0\0,0\n", ":7:4: a NUL is no text"),
    (b"5,2,0\n", ":7: request is '2', which is no truth"), (b"5,0", ":7: the log ends within the row, after 2 of 3 cells"),
    (b"5," + b"0" * (1 << 24) + b",0\n", ":7: the line has more than 16777216 bytes"), (b"\n5,,0\n", ":8: request is '', which is no truth"),
    (b"5,\xff,0\n", ":7: request is '\ufffd', which is no truth"),
)


@needs_program
class Passes(WithFolder):
    def ask(self, *words, **more):
        return run("ask", "watch", *words, **more)

    def drawn(self, seed, rows=300, chance=0.1):
        """A log with all names of the requirements, in which cells change by chance; and with two columns that none has. Where changes
        are few, many rows repeat the one before."""
        draw = random.Random(seed)
        names = list(dict.fromkeys(name for path in FILES for name in variables_of(path)))
        cells, lines = ["0"] * len(names), [",".join(["time", "other", *names, "last"])]
        for row in range(rows):
            cells = [str(1 - int(cell)) if draw.random() < chance else cell for cell in cells]
            lines.append(",".join([f"t{row}", draw.choice("xy") if chance > 0.05 else "x", *cells, "z"]))
        return self.file(f"log{seed}.csv", "\n".join(lines) + "\n")

    def results(self, out):
        """The table at the end, by name."""
        lines = out.split("\nrequirement ")[1].splitlines()[1:]
        return {line.split()[0]: line.split(None, 2)[2] for line in lines}

    def test_one_pass_beside_many_calls(self):
        """Each call replays the log through the program's observer."""
        for seed, chance in ((1, 0.1), (2, 0.003), (3, 0.5), (7, 0.01)):
            log = self.drawn(seed, chance=chance)
            status, out, _ = self.ask(*FILES, "--log", log)
            found = self.results(out)
            statuses = []
            for name, path in zip(NAMES, FILES):
                each, said = here("watch", path, log)
                statuses.append(each)
                self.assertEqual(found[name], said.splitlines()[0].split(";")[0])
                rows = [line.split() for line in said[:said.find("\n", said.find("-->"))].splitlines()[1:]]
                shown = [line.split() for line in out.partition(f"{name}: broken")[2].splitlines()[1:1 + len(rows)]]
                self.assertEqual(rows, shown if each else [])
            self.assertEqual(status, max(statuses))
            self.assertEqual({0, 1}, set(statuses))

    def test_all_breaches_beside_many_calls(self):
        for log in (self.drawn(4), self.drawn(8, chance=0.003)):
            out = self.ask(*FILES, "--log", log, "--rearm", "--json")[1]
            events = [json.loads(line) for line in out.splitlines()]
            for name, path in zip(NAMES, FILES):
                said = here("watch", path, log, "--rearm")[1]
                wanted = [int(line.split()[1].strip(",")) for line in said.splitlines() if line.startswith("  instant ") and ", row " in line]
                told = [it["instant"] for it in events if it["event"] == "broken" and it["requirement"] == name]
                self.assertEqual(told[:100], wanted)
                self.assertEqual([it["breaches"] for it in events if it["event"] == "end" and it["requirement"] == name], [len(told)])

    def test_pieces_beside_whole_and_confirmed(self):
        for more in ([], ["--rearm"]):
            log = self.drawn(5)
            whole = self.ask(*FILES, "--log", log, *more)
            for size in ("1", "64", "300"):
                self.assertEqual(self.ask(*FILES, "--log", log, "--piece", size, *more), whole)
            self.assertEqual(self.ask(*FILES, "--log", log, "--piece", "64", "--confirm", *more), whole)

    def test_formats_of_the_same_log(self):
        with open(self.drawn(6), encoding="ascii") as file:
            lines = file.read().splitlines()
        whole = self.ask(*FILES, "--log", self.file("a.csv", "\n".join(lines) + "\n"))
        names = lines[0].split(",")
        texts = {"semicolons.csv": "\r\n".join(lines).replace(",", ";") + "\r\n", "bars.csv": "\n".join(lines).replace(",", "|"),
                 "quoted.csv": "\n".join([lines[0]] + [f'"{line.split(",")[0]}",' + line.split(",", 1)[1] for line in lines[1:]]),
                 "lines.jsonl": "".join(json.dumps(dict(zip(names, line.split(",")))) + "\n" for line in lines[1:])}
        for name, text in texts.items():
            self.assertEqual(self.ask(*FILES, "--log", self.file(name, text)), whole, name)
        packed = os.path.join(self.folder, "a.csv.gz")
        with gzip.open(packed, "wb") as file:
            file.write(("\n".join(lines) + "\n").encode())
        self.assertEqual(self.ask(*FILES, "--log", packed), whole)
        self.assertEqual(self.ask(*FILES, "--log", "-", stdin="\n".join(lines) + "\n"), whole)

    def test_reports(self):
        report = os.path.join(self.folder, "out.xml")
        path = self.file("req.dc", "// REQ-12: A request is granted soon & surely.\nvar request;\ninfer [[!request]];\n")
        status, out, _ = self.ask(path, RESPONSE, "--log", self.file("few.csv", FEW), "--until-broken", "--junit", report)
        self.assertEqual(status, 1)
        self.assertEqual(self.results(out), {"req": "broken at instant 1, row 1", "response": "holds at each of 2 instants"})
        suite = xml.parse(report).getroot()
        self.assertEqual([(case.get("name"), case.find("failure") is not None) for case in suite], [("req (REQ-12)", True), ("response", False)])
        self.assertEqual(suite[0].find("system-out").text, "A request is granted soon & surely.")

    def test_words_that_do_not_go_together(self):
        log = self.file("few.csv", FEW)
        for words in ((RESPONSE, "--log", log, "--any"), (RESPONSE, "--log", log, "--anew"), (RESPONSE, log, "--gap", "1s", "--anew"),
                      (RESPONSE,), (RESPONSE, RESPONSE, log), (RESPONSE, log, "--json"), (RESPONSE, log, "--confirm"), ("-", "--log", "-")):
            self.assertEqual(self.ask(*words)[0], 2, words)

    def test_what_was_reported_before_a_fault_stays(self):
        for more, message in FAULTS:
            path = self.file("bad.csv", FEW + more.decode("latin-1"))
            for words in ((path,), ("-",)):
                with open(path, "rb") as log:
                    done = subprocess.run([os.path.join(ROOT, "ask"), "watch", RESPONSE, "--log", *words, "--rearm"], stdin=log, capture_output=True,
                                          env={**os.environ, "DCVALID": PROGRAM}, check=False)
                err = done.stderr.decode()
                self.assertEqual(done.returncode, 8, err)
                self.assertIn(message, err)
                self.assertIn("5 instants before it are judged", err)
                self.assertEqual(err.count("\n"), 1)
                self.assertTrue(done.stdout.startswith(b"response: broken at instant 4, row 4\n"))
                self.assertNotIn(b"holds", done.stdout)

    def test_columns_that_are_wrong(self):
        for header, words, message in (("t,request,request,grant", (), "2 columns are named request"), ("t,request,grunt", (), "no column is named grant"),
                                       ("t,request,grant", ("--let", "x = t > 1"), "x is no variable"), ('t,"request,grant', (), "a quote is not closed in the header"),
                                       ("t,request,grant", ("--column", "x=t"), "x is no variable"), ("", (), "no column is named request")):
            status, out, err = self.ask(RESPONSE, "--log", self.file("bad.csv", header + "\n0,0,0\n"), *words)
            self.assertEqual((status, out), (8, ""), header)
            self.assertIn(message, err)

    def test_where_an_unknown_name_comes_from(self):
        """The requirement's file is named, with the list of signals; and the signal, where a column is missing that it is made of."""
        fan = self.file("fan.dc", "var hot, fan;\ninfer [[hot => fan]];\n")
        table, dump = self.file("a.csv", "t,fan\n0,1\n"), self.file("a.vcd", "$var wire 1 ! fan $end\n$enddefinitions $end\n#0\n1!\n")
        other, made, plain = self.file("s1", "fan\n"), self.file("s2", "fan\nhot = degrees > 60\n"), self.file("s3", "hot // degrees\n")
        for words, told in (((), f"hot is a variable of {fan}"), (("--signals", other), f"hot is a variable of {fan}; {other} does not list it"),
                            (("--signals", made), f"hot is made of it ({made}:2)"), (("--column", "hot=warm"), f"hot is a variable of {fan}"),
                            (("--signals", plain), f"hot is a variable of {fan}; {plain}:1 lists it as a column")):
            for log in (table, dump):
                for call in ((fan, "--log", log), (fan, log)):
                    status, out, err = self.ask(*call, *words)
                    self.assertEqual((status, out), (8, ""), err)
                    self.assertTrue(err.endswith(f"; {told}\n"), err)

    def test_glossary(self):
        """The meaning that a requirement's file gives a name comes before that of the list of signals."""
        fan = self.file("fan.dc", "// fan: of the cabinet\nvar hot, fan;\ninfer [[hot => fan]];\n")
        signals = self.file("signals.txt", "hot = degrees > 60  // the upper sensor\nfan  // any\nother // none\n")
        log = self.file("a.csv", "t,degrees,fan\n0,61,0\n")
        for call in ((fan, "--log", log), (fan, log)):
            out = self.ask(*call, "--signals", signals)[1]
            self.assertIn("\n      hot = degrees > 60 // the upper sensor\n      fan // of the cabinet\n", out)
            self.assertNotIn("other", out)

    def test_other_formats_are_named(self):
        for begin, message in (("MDF     4.10", "asammdf"), ("\0\0\0\0\0\0\0\1I", "fst2vcd"), ("\xff\xfet\0", "iconv"), ("\x1f\x8b\x08cut", "gzip file is")):
            status, out, err = self.ask(RESPONSE, "--log", self.file("a.log", begin))
            self.assertEqual((status, out), (8, ""))
            self.assertIn(message, err)

    def test_times_and_signals(self):
        """A request at 1 s and no grant is late at 4 s; after a gap the requirement begins anew."""
        rows = "t,speed,grant\n0,1,0\n1,31,0\n2,1,0\n3,1,0\n%s,1,0\n"
        for last, words, wanted, told in ((4, (), "broken at instant 4, row 4", 0), ("4.5", (), "broken at instant 4, row 4.5", 1),
                                          (6, ("--gap", "2s", "--anew"), "holds at each of 5 instants", 0),
                                          (6, ("--gap", "3s", "--anew"), "broken at instant 4, row 6", 0),
                                          (4, ("--period", "500ms"), "broken at instant 5, row 2", 0),
                                          (4, ("--period", "2s"), "holds at each of 3 instants", 0),
                                          (8, ("--period", "2s", "--any"), "broken at instant 4, row 8", 0)):
            log = self.file("t.csv", rows % last)
            _, out, err = self.ask(RESPONSE, "--log", log, "--let", "request = speed > 30.5", "--confirm", *words)
            self.assertEqual(self.results(out), {"response": wanted}, words)
            self.assertEqual(err.count("uneven: the first two rows are 1 apart, and the row 4.5 in line 6 comes 1.5 after"), told, err)
            if last == 4 and not words:
                self.assertIn("request = speed > 30.5", out)

    def test_numbers_of_a_dump(self):
        dump = self.file("a.vcd", "$var wire 8 # level $end\n$var wire 1 ! grant $end\n$enddefinitions $end\n#0\n0!\nb0 #\n#1\nb101 #\n#2\nb11 #\n#3\n#4\nb1 #\n#5\n1!\n")
        _, out, _ = self.ask(RESPONSE, dump, "--let", "request = level in 4..5", "--trace")
        self.assertEqual(out.split(), ["00", "10", "00", "00", "00", "01"])

    def test_what_is_not_confirmed(self):
        """A program whose automaton is another one than its observer: no breach is told."""
        for change, log in (("s/^state 1 accept/state 1 reject/", FEW), ("s/^state 4 reject/state 4 accept/", FEW)):
            program = self.file("program", f"#!/bin/bash\n'{os.path.abspath(PROGRAM)}' \"$@\" | sed '{change}'\nexit ${{PIPESTATUS[0]}}\n")
            os.chmod(program, 0o755)
            status, out, err = self.ask(RESPONSE, "--log", self.file("few.csv", log), "--confirm", program=program)
            self.assertEqual((status, out), (125, ""))
            self.assertIn("answers otherwise than the automaton", err)

    def test_a_state_that_is_not_confirmed(self):
        """An automaton that is late by an instant: its answers are those of the tables, and its state after the first rows is not."""
        log = self.file("few.csv", "t,request,grant\n0,1,0\n1,0,0\n2,0,1\n")
        program = self.file("program", f"#!/bin/bash\n'{os.path.abspath(PROGRAM)}' \"$@\" | sed 's/^node n1 request ? n0 : t0/node n1 request ? t0 : n0/'\nexit ${{PIPESTATUS[0]}}\n")
        os.chmod(program, 0o755)
        for size, wanted in ((1, 125), (2, 125), (3, 0)):
            status, _, err = self.ask(RESPONSE, "--log", log, "--confirm", "--piece", str(size), program=program)
            self.assertEqual((status, "does not confirm the state after instant" in err), (wanted, wanted == 125), err)

    def test_letters_in_a_file(self):
        """65,536 letters of 16 variables, more than are held in memory, whose codes are all characters, surrogates among them."""
        names = [f"v{place}" for place in range(16)]
        rows = [",".join(format(number % 65_536, "016b")) for number in range(70_000)]
        log = self.file("wide.csv", "\n".join([",".join(["t", *names]), *(f"{number},{row}" for number, row in enumerate(rows))]) + "\n")
        path = self.file("wide.dc", f"var {', '.join(names)};\ninfer scount (v0 && v1 && v2 && v3) <= 4000;\n")
        for words in ((), ("--confirm",), ("--confirm", "--piece", "65000")):
            out = self.ask(path, "--log", log, *words)[1]
            self.assertEqual(self.results(out), {"wide": "broken at instant 65440, row 65440"})


@needs_program
class Live(WithFolder):
    def start(self, *words):
        process = subprocess.Popen([os.path.join(ROOT, "ask"), "watch", *words], stdin=subprocess.PIPE, stdout=subprocess.PIPE, stderr=subprocess.PIPE,
                                   env={**os.environ, "DCVALID": PROGRAM}, text=True)
        self.addCleanup(process.kill)
        return process

    def test_a_breach_is_told_before_the_next_row_is_sent(self):
        process = self.start(RESPONSE, "--log", "-", "--rearm", "--json")
        for row in ("t,request,grant", "0,0,0", "1,1,0", "2,0,0", "3,0,0", "4,0,0"):
            process.stdin.write(row + "\n")
            process.stdin.flush()
            time.sleep(0.02)
        event = json.loads(process.stdout.readline())  # it would wait for ever
        self.assertEqual((event["instant"], event["row"], event["confirmed"]), (4, "4", True))
        for row in ("5,1,0", "6,0,0", "7,0,0", "8,0"):
            process.stdin.write(row + "\n")
        process.stdin.flush()
        out, err = process.communicate()
        self.assertEqual((process.returncode, out), (8, ""))
        self.assertIn("standard input:10: the row ends before the column of grant; 8 instants before it are judged", err)

    def test_a_log_that_is_followed(self):
        """Through a rotation: what the old file still had is read first, and the header of the new one is none of its rows."""
        path = self.file("log.csv", "t,request,grant\n0,1,0\n")
        process = self.start(RESPONSE, self.file("none.dc", "var request;\ninfer [[!request]];\n"), "--log", path, "--follow", "--json", "--rearm")
        self.assertEqual(json.loads(process.stdout.readline())["requirement"], "none")
        with open(path, "a", encoding="ascii") as file:
            file.write("1,0,0\n2,0,0\n")
        os.rename(path, path + ".1")
        self.file("log.csv", "t,request,grant\n3,0,0\n")
        event = json.loads(process.stdout.readline())
        self.assertEqual((event["instant"], event["row"]), (3, "3"))
        process.terminate()
        out, _ = process.communicate()
        self.assertEqual((process.returncode, [json.loads(line)["breaches"] for line in out.splitlines()]), (128 + 15, [1, 1]))


if __name__ == "__main__":
    unittest.main()
