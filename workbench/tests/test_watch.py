"""`watch`: where a log breaks a requirement, in one piece and in several, once and again and again."""
import os
import random
import unittest

from support import ROOT, WithFolder, needs_program, run

RESPONSE = os.path.join(ROOT, "examples", "response.dc")


def broken_by_hand(word, again):
    """Instants of `10`-letters without a grant in themselves or in the three after them, the deadline being the instant told: the
    requirement of response.dc, without the automaton. After the first, or where it begins `again`, nothing before is remembered."""
    found, waiting = [], None
    for instant, (request, grant) in enumerate(word):
        waiting = None if grant == "1" else instant if waiting is None and request == "1" else waiting
        if waiting is not None and instant - waiting >= 3:
            found.append(instant)
            if not again:
                return found
            waiting = None
    return found


@needs_program
class Watching(WithFolder):
    def log(self, word, header="time,request,grant"):
        return self.file("log.csv", header + "\n" + "".join(f"t{instant},{letter[0]},{letter[1]}\n" for instant, letter in enumerate(word)))

    def ask(self, *words):
        return run("ask", "watch", *words)

    def drawn(self, seed, length=400):
        draw = random.Random(seed)
        return [f"{int(draw.random() < 0.2)}{int(draw.random() < 0.35)}" for _ in range(length)]

    def test_the_first_violation(self):
        for seed in range(6):
            word = self.drawn(seed)
            status, out, _ = self.ask(RESPONSE, self.log(word))
            first = broken_by_hand(word, False)
            self.assertEqual(status, 1 if first else 0)
            self.assertTrue(out.startswith(f"broken at instant {first[0]}, row t{first[0]};" if first else "holds at each of 400 instants"), out)

    def test_all_violations(self):
        for seed in range(3):
            word = self.drawn(seed)
            _, out, _ = self.ask(RESPONSE, self.log(word), "--rearm")
            told = [int(line.split()[1].strip(",")) for line in out.splitlines() if line.startswith("  instant ") and "row t" in line]
            self.assertEqual(told, broken_by_hand(word, True))

    def test_pieces_against_whole(self):
        path = self.log(self.drawn(1))
        for more in ([], ["--rearm"]):
            whole = self.ask(RESPONSE, path, *more)
            for size in ("37", "64", "399", "400"):
                self.assertEqual(self.ask(RESPONSE, path, "--piece", size, *more), whole)

    def test_the_rows_around(self):
        _, out, _ = self.ask(RESPONSE, self.log(["00"] * 50 + ["10"] + ["00"] * 6))
        self.assertEqual([line.split() for line in out.splitlines()[2:]],
                         [["0", "..", "49", "t0", "0", "0"], ["50", "t50", "1", "0"], ["51", "..", "52", "t51", "0", "0"],
                          ["-->", "53", "t53", "0", "0"], ["54", "..", "56", "t54", "0", "0"]])

    def test_a_wrong_column_is_told(self):
        status, out, err = self.ask(RESPONSE, self.log(["10"], "time,request,granted"))
        self.assertEqual((status, out), (8, ""))
        self.assertIn("no column is named grant", err)
        status, _, err = self.ask(RESPONSE, self.log(["10"]), "--column", "gant=grant")
        self.assertEqual(status, 8)
        self.assertIn("gant is no variable", err)

    def test_the_trace_alone(self):
        self.assertEqual(self.ask(RESPONSE, self.log(["10", "01"]), "--trace"), (0, "10\n01\n", ""))

    def test_a_drawn_behaviour_is_read_back(self):
        """The dump of `draw --vcd` has an instant for each unit of time; its behaviour is the counterexample, 10 00 00 00."""
        dump = os.path.join(self.folder, "one.vcd")
        self.assertEqual(run("ask", "draw", RESPONSE, "--vcd", dump)[0], 0)
        self.assertEqual(self.ask(RESPONSE, dump, "--period", "1", "--trace"), (0, "10\n00\n00\n00\n", ""))
        self.assertEqual(self.ask(RESPONSE, dump, "--period", "1")[0], 1)

    def test_an_empty_log(self):
        self.assertEqual(self.ask(RESPONSE, self.log([]))[0], 8)


if __name__ == "__main__":
    unittest.main()
