"""The letters of a requirement since it began, and the program's tables that are run over them, from their first state on."""
from typing import Dict, Sequence

import limits
import observers
from automaton import Automaton
from monitors import Codes
from program import Program

HELD = 1 << 16  # letters that are not in the file yet
SHORT, MOST_SHORT = 64, 1 << 12  # letters of a trace whose answers are kept, and how many such traces there are


class Unconfirmed(Exception):
    """The program does not confirm what the automaton's text says."""


class Trace:
    """The letters by their codes, most of them in a file. `most` letters of the log are the most, and with those in front of them as many as a
    trace may have: `shorten` makes room."""

    def __init__(self, program: Program, text: str, automaton: Automaton, codes: Codes, path: str, most: int) -> None:
        self.program, self.text, self.automaton, self.codes = program, text, automaton, codes
        self.path, self.most = path, most
        self.tables = ""  # as the program writes them; they are asked for when they are first run
        self.known: Dict[str, str] = {}  # the answers to short traces
        self.restart()

    def restart(self, word: Sequence[str] = ()) -> None:
        """Forgets all letters; a word comes in their place."""
        self.held = self.coded(word)
        self.size, self.front = 0, len(word)  # letters of the log, and those in front of them
        self.is_filed = False

    def coded(self, word: Sequence[str]) -> str:
        return "".join(map(self.codes.code, word))

    def add(self, codes: str) -> None:
        self.held += codes
        self.size += len(codes)
        if len(self.held) > HELD:
            with open(self.path, "a" if self.is_filed else "w", encoding="utf-8", errors="surrogatepass", newline="") as file:
                file.write(self.held)
            self.held, self.is_filed = "", True

    def all(self) -> str:
        if not self.is_filed:
            return self.held
        with open(self.path, encoding="utf-8", errors="surrogatepass", newline="") as file:
            return file.read() + self.held

    def has_room(self, count: int) -> bool:
        return self.size + count <= min(self.most, limits.TRACE_LINES - self.front)

    def answers(self) -> str:
        """What the tables answer at each letter of the log, a digit each."""
        self.tables = self.tables or self.program.observer(self.text, "tables")
        codes = self.all()
        if codes not in self.known:
            digits = self.run(self.tables, codes)
            if len(codes) > SHORT:
                return digits[self.front:]
            if len(self.known) == MOST_SHORT:
                self.known.clear()
            self.known[codes] = digits
        return self.known[codes][self.front:]

    def run(self, tables: str, codes: str) -> str:
        lines = {number: letter + "\n" for number, letter in enumerate(self.codes.letters)}
        return self.program.digits(tables, codes.translate(lines), len(codes), "tables")

    def shorten(self, state: int, confirm: bool) -> bool:
        """Puts a shortest word to the state of the automaton to which the letters lead in their place; False where it is to be confirmed that
        the tables come to this state by both, and they do not."""
        word = self.automaton.access_word(state)
        if confirm:
            asked = observers.asks_state(self.tables, state)
            if any(not self.run(asked, codes).endswith("1") for codes in (self.all(), self.coded(word))):
                return False
        self.restart(word)
        return True
