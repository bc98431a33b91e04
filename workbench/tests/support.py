"""What the tests share: the program, where there is one, and runs of ./ask and ./explain."""
import contextlib
import io
import os
import shutil
import subprocess
import tempfile
import unittest
from concurrent.futures import ThreadPoolExecutor

import main
from program import Program

ROOT = os.path.dirname(os.path.dirname(os.path.dirname(os.path.abspath(__file__))))
BUILT = os.path.join(ROOT, "crates", "dcvalid", "out", "dcvalid")
PROGRAM = os.environ.get("DCVALID") or (BUILT if os.access(BUILT, os.X_OK) else None)

needs_program = unittest.skipUnless(PROGRAM, "there is no program: DCVALID names none, and ./dcvalid is not built")


def needs_tool(tool, package):
    """Skips a test, or the tests of a class, where a tool is missing; the reason names Debian's package that has it."""
    return unittest.skipUnless(shutil.which(tool), f"there is no {tool}: Debian has it in the package {package}")


def examples():
    folder = os.path.join(ROOT, "examples")
    return [os.path.join(folder, name) for name in sorted(os.listdir(folder)) if name.endswith(".dc")]


def run(script, *words, stdin="", program=None, **variables):
    """A run of a script of the root: status, output, error."""
    environment = {**os.environ, "COLUMNS": "100", "DCVALID": program or PROGRAM or "", **variables}
    done = subprocess.run([os.path.join(ROOT, script), *words], input=stdin.encode("latin-1"), env=environment, stdout=subprocess.PIPE,
                          stderr=subprocess.PIPE)
    return done.returncode, done.stdout.decode(), done.stderr.decode()


def here(*words):
    """The status and output of a command of ./ask that has an answer, without the start of a Python."""
    out = io.StringIO()
    with contextlib.redirect_stdout(out):
        status = main.dispatched(list(words), Program(PROGRAM))
    return status, out.getvalue()


def each(question, cases):
    """The answers for all cases, four at a time."""
    with ThreadPoolExecutor(4) as pool:
        return list(pool.map(question, cases))


class WithFolder(unittest.TestCase):
    """A test with a folder of its own."""

    def setUp(self):
        room = tempfile.TemporaryDirectory()
        self.addCleanup(room.cleanup)
        self.folder = room.name

    def file(self, name, text):
        path = os.path.join(self.folder, name)
        with open(path, "w", encoding="latin-1", newline="") as file:
            file.write(text)
        return path

    def stub(self, output="", error="", status=0):
        """A program that answers this to everything."""
        said, told = self.file("stub.out", output), self.file("stub.err", error)
        path = self.file("stub", f"#!/bin/sh\ncat '{said}'\ncat '{told}' >&2\nexit {status}\n")
        os.chmod(path, 0o755)
        return path
