"""Answers that are kept by the checksums of the program and of what it was asked, and questions that are written to be asked elsewhere."""
import hashlib
import os
import tempfile
import threading
from typing import Optional, Sequence, Set, Tuple

from answers import SHAPES, Malformed, check_shape
from streams import Unwritten, make_folder

Given = Tuple[int, str, str]  # a status, an output, and what is on standard error
KEPT = (0, 1, 3, 4)  # statuses of answers that would be the same again


class Open(Exception):
    """A question that is written to be answered elsewhere."""


def checksum_of(path: str) -> str:
    with open(path, "rb") as file:
        return hashlib.sha256(file.read()).hexdigest()


class Kept:
    """A folder of answers, each in a file whose name is the checksum of the question. What was cut off in it is no answer."""

    def __init__(self, folder: str, program: str) -> None:
        self.folder, self.program, self.found = folder, checksum_of(program), 0
        make_folder(os.path.join(folder, "answers"))

    def key(self, command: str, texts: Sequence[str], options: Sequence[str]) -> str:
        parts = [self.program, command, *options, *(hashlib.sha256(text.encode("latin-1")).hexdigest() for text in texts)]
        return hashlib.sha256("\n".join(parts).encode()).hexdigest()

    def path(self, key: str, ending: str = "") -> str:
        return os.path.join(self.folder, "answers", key[:2], key + ending)

    def answer(self, command: str, texts: Sequence[str], options: Sequence[str]) -> Optional[Given]:
        """The status, the output and the errors of a question that was answered, or None."""
        try:
            with open(self.path(self.key(command, texts, options)), encoding="latin-1", newline="") as file:
                head, text = file.readline().split(), file.read()
            status, output, error = int(head[0]), text[:int(head[1])], text[int(head[1]):]
            if len(error) != int(head[2]):
                return None
            whole(command, status, output, error)
        except (OSError, ValueError, IndexError, Malformed):
            return None
        self.found += 1
        return status, output, error

    def keep(self, command: str, texts: Sequence[str], options: Sequence[str], status: int, output: str, error: str) -> None:
        """Keeps an answer; it is in its place at once."""
        if status not in KEPT:
            return
        path = self.path(self.key(command, texts, options))
        try:
            os.makedirs(os.path.dirname(path), exist_ok=True)
            handle, new = tempfile.mkstemp(dir=os.path.dirname(path))
            with open(handle, "w", encoding="latin-1", newline="") as file:
                file.write(f"{status} {len(output)} {len(error)}\n{output}{error}")
            os.replace(new, path)
        except OSError as problem:
            raise Unwritten(f"{path} could not be written: {problem.strerror}") from None


class Planned(Kept):
    """A folder of questions: what is answered there is taken, and what is not is written there, with a line of the job list. A job
    writes its status last, so that of a job that was ended there is none."""

    def __init__(self, folder: str, program: str, asks: bool) -> None:
        super().__init__(folder, program)
        self.asks = asks
        self.planned: Set[str] = set()
        self.lock = threading.Lock()
        make_folder(os.path.join(folder, "questions"))
        if not asks:
            self.write(os.path.join(folder, "jobs"), "", "w")

    @staticmethod
    def write(path: str, text: str, mode: str) -> None:
        try:
            with open(path, mode, encoding="latin-1", newline="") as file:
                file.write(text)
        except OSError as problem:
            raise Unwritten(f"{path} could not be written: {problem.strerror}") from None

    def answer(self, command: str, texts: Sequence[str], options: Sequence[str]) -> Optional[Given]:
        key = self.key(command, texts, options)
        found = self.read(key, command)
        if found is not None or self.asks:
            self.found += found is not None
            return found
        with self.lock:
            if key not in self.planned:
                self.planned.add(key)
                self.plan(key, command, texts, options)
        raise Open

    def read(self, key: str, command: str) -> Optional[Given]:
        parts = []
        try:
            for ending in ("status", "out", "err"):
                with open(os.path.join(self.folder, "answers", f"{key}.{ending}"), encoding="latin-1", newline="") as file:
                    parts.append(file.read())
            status, output, error = int(parts[0]), parts[1], parts[2]
            whole(command, status, output, error)
        except (OSError, ValueError, Malformed):
            return None
        return (status, output, error) if status in KEPT else None

    def plan(self, key: str, command: str, texts: Sequence[str], options: Sequence[str]) -> None:
        paths = [f"questions/{key}.{number}" for number in range(len(texts))]
        for path, text in zip(paths, texts):
            self.write(os.path.join(self.folder, path), text, "w")
        words = " ".join([command, *paths, *options])
        job = f"${{DCVALID:-dcvalid}} {words} >answers/{key}.out 2>answers/{key}.err; echo $? >answers/{key}.status\n"
        self.write(os.path.join(self.folder, "jobs"), job, "a")

    def keep(self, command: str, texts: Sequence[str], options: Sequence[str], status: int, output: str, error: str) -> None:
        key = self.key(command, texts, options)
        for ending, text in (("out", output), ("err", error), ("status", f"{status}\n")):
            self.write(os.path.join(self.folder, "answers", f"{key}.{ending}"), text, "w")


def whole(command: str, status: int, output: str, error: str) -> None:
    """Raises Malformed where this is no answer, and no refusal either."""
    if status in (0, 1) and command in SHAPES:
        check_shape(command, status, output)
    elif status in (3, 4) and not (error.startswith(("fault ", "budget ")) and error.endswith("\n")):
        raise Malformed("the line of the refusal is cut off")
