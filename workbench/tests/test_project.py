"""`examples/project/`: its build from a copy; what breaks it leaves no file behind that `make` would take for a made one."""
import os
import shutil
import subprocess
import unittest

from support import PROGRAM, ROOT, WithFolder, needs_program, needs_tool


@needs_program
@unittest.skipUnless(shutil.which("make") and shutil.which("cc"), "there is no make, or no C compiler")
class Project(WithFolder):
    def setUp(self):
        super().setUp()
        self.room = os.path.join(self.folder, "project")
        shutil.copytree(os.path.join(ROOT, "examples", "project"), self.room, ignore=shutil.ignore_patterns("build"))

    def make(self, *goals):
        words = ["make", f"TOP={ROOT}", f"DCVALID={os.path.abspath(PROGRAM)}", *goals]
        done = subprocess.run(words, cwd=self.room, stdout=subprocess.PIPE, stderr=subprocess.STDOUT)
        return done.returncode, done.stdout.decode()

    def put(self, name, text):
        with open(os.path.join(self.room, name), "w") as file:
            file.write(text)

    def made(self, name):
        return os.path.exists(os.path.join(self.room, "build", name))

    def test_the_whole(self):
        status, out = self.make()
        self.assertEqual(status, 0, out)
        rows = open(os.path.join(self.room, "logs", "monday.csv"))
        self.addCleanup(rows.close)
        trace = "".join(line.split(",", 1)[1].replace(",", "") for line in rows.readlines()[1:])
        monitor = subprocess.run([os.path.join(self.room, "build", "monitor")], input=trace.encode(), stdout=subprocess.PIPE)
        self.assertEqual((monitor.returncode, monitor.stdout), (0, b"both hold at each of 400 instants\n"))
        self.assertEqual(self.make("check", "observers", "watch")[0], 0)

    def test_a_log_that_breaks_a_requirement(self):
        self.put("logs/bad.csv", "time,guard_closed,motor,oil\n" + "".join(f"{i},1,1,0\n" for i in range(60)))
        status, out = self.make("watch")
        self.assertNotEqual(status, 0)
        self.assertIn("broken at instant 59, row 59", out)
        self.assertFalse(self.made("bad.watched"))

    @needs_tool("iverilog", "iverilog")
    def test_the_log_in_a_simulator(self):
        """The monitors in Verilog keep to the log of the example, and break where the log of the test before does: at the 60th instant without oil."""
        status, out = self.make("hardware")
        self.assertEqual(status, 0, out)
        self.assertIn("both hold at each of 400 instants", out)
        self.put("logs/bad.csv", "time,guard_closed,motor,oil\n" + "".join(f"{i},1,1,0\n" for i in range(60)))
        status, out = self.make("hardware")
        self.assertNotEqual(status, 0)
        self.assertIn("instant 59: oil is broken", out)
        self.assertFalse(self.made("bad.simulated"))

    def test_the_log_where_there_is_no_simulator(self):
        """Of the commands of the build each is there but iverilog."""
        bare = os.path.join(self.folder, "bin")
        os.mkdir(bare)
        for name in ("make", "sh", "echo"):
            os.symlink(shutil.which(name), os.path.join(bare, name))
        done = subprocess.run(["make", f"TOP={ROOT}", "hardware"], cwd=self.room, env={**os.environ, "PATH": bare}, stdout=subprocess.PIPE)
        self.assertEqual(done.returncode, 0)
        self.assertIn(b"hardware: skipped", done.stdout)

    def test_what_is_no_answer_is_not_kept(self):
        self.put("requirements/fault.dc", "var p; infer [[p;\n")
        self.put("requirements/large.dc", "var p, q; infer scount p = 200 && scount q = 200;\n")
        for goal in ("build/fault.c", "build/large.c", "build/fault.verdict", "build/large.verdict", "build/large_tables.c"):
            self.assertNotEqual(self.make(goal)[0], 0)
            self.assertFalse(self.made(os.path.basename(goal)), goal)

    def test_requirements_that_ask_nothing_or_too_much(self):
        for text in ("var p; infer [[p]] => <><p>;", "var p; infer <p && !p>;"):
            self.put("requirements/slip.dc", text)
            self.assertNotEqual(self.make("check")[0], 0)
            self.assertFalse(self.made("slip.verdict"))

    def test_requirements_that_get_stuck_together(self):
        self.put("requirements/long.dc", "var motor; infer !((pt || true ^ {{!motor}}) ^ ([motor] ^ <!motor> && slen < 70) ^ true);")
        self.put("requirements/dry.dc", "var motor, oil; infer [[motor => !oil]];")
        status, out = self.make("build/set.xml")
        self.assertNotEqual(status, 0)
        self.assertRegex(out, r"dry, long and oil get stuck together")
        self.assertFalse(self.made("set.xml"))
        self.assertNotEqual(self.make("report")[0], 0)
        self.assertTrue(self.made("report.html") and not self.made("report.made"))

    def test_a_promise_that_is_not_enough(self):
        self.put("requirements/guard_strict.dc", "var guard_closed, motor; infer []([[motor && !guard_closed]] => slen < 4);")
        status, out = self.make("check")
        self.assertNotEqual(status, 0)
        self.assertIn("does not imply\ncounterexample 4", out)
        self.assertFalse(self.made("supplier.verdict"))


if __name__ == "__main__":
    unittest.main()
