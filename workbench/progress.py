"""How far a long run is: a line on standard error that tells how many questions of how many are answered, and what was found as it comes."""
import threading
import time
from typing import List

from program import complain

LEAST, SECONDS = 300, 5  # of fewer questions nothing is told; seconds between two lines


class Progress:
    def __init__(self) -> None:
        self.what, self.done, self.total, self.last = "", 0, 0, time.monotonic()
        self.lock = threading.Lock()
        self.long = False

    def begin(self, what: str, total: int) -> None:
        self.what, self.done, self.total = what, 0, total
        self.long = self.long or total >= LEAST

    def found(self, lines: List[str]) -> None:
        """Tells what was found."""
        if self.long:
            with self.lock:
                for line in lines:
                    complain(line)

    def step(self) -> None:
        with self.lock:
            self.done += 1
            now = time.monotonic()
            if self.long and (now - self.last > SECONDS or self.done == self.total):
                self.last = now
                complain(f"{self.what}: {self.done} of {self.total}")
