"""The words of a command of dcvalid taken apart: which of them are files, and what they hold."""
import os
import re
from typing import Dict, List, Sequence

from commands import LIMITS, PROGRAM
from expand import Text
from language import MOST_BYTES, MOST_TEXT, read_text
from streams import copy_stream, is_stream

WITH_VALUES = ("--states", "--nodes", "--inputs", "--to", "--tuples")
OF_FORMULAS = {command.name for command in PROGRAM if set(LIMITS) <= set(command.options)}


class Question:
    """The words of a command. A file that can be read once only is kept in `room`, and so is what a source becomes."""

    def __init__(self, words: Sequence[str], room: str) -> None:
        self.words, self.places = list(words), self.operands(words)
        self.command = words[self.places[0]] if self.places else ""
        self.shown = [words[place] for place in self.places[1:]]  # the files as they were named
        self.most = MOST_BYTES if self.command in OF_FORMULAS else MOST_TEXT
        self.wholes: Dict[int, Text] = {}  # the files that are sources
        for number, place in enumerate(self.places[1:]):
            kept = os.path.join(room, str(number))
            if self.command != "sweep" and (is_stream(words[place]) or os.path.isfile(words[place]) and not words[place].isprintable()):
                copy_stream(words[place], kept, self.most)
                self.words[place] = kept
            if self.command in OF_FORMULAS and os.path.isfile(self.words[place]) and os.access(self.words[place], os.R_OK):
                self.expand(number, place, kept)
        self.paths = [self.words[place] for place in self.places[1:]]

    @staticmethod
    def operands(words: Sequence[str]) -> List[int]:
        """The places of the words that are no options, and no values of these."""
        found, skip, only_operands = [], False, False
        for place, word in enumerate(words):
            if skip:
                skip = False
            elif word == "--" and not only_operands:
                only_operands = True
            elif not only_operands and word in WITH_VALUES:
                skip = True
            elif only_operands or word == "-" or not word.startswith("-"):
                found.append(place)
        return found

    def expand(self, number: int, place: int, kept: str) -> None:
        """Puts what a source becomes in its place."""
        whole = Text(self.words[place], self.shown[number])
        if whole.expansion is not None:
            self.wholes[number] = whole
            with open(kept, "w", encoding="latin-1", newline="") as file:
                file.write(whole.text)
            self.words[place] = kept

    def text(self, number: int = 0) -> str:
        """The text of a file, or nothing where it cannot be read."""
        try:
            return read_text(self.paths[number], self.most)
        except (OSError, IndexError):
            return ""

    def variables(self) -> List[str]:
        """The names that the first file declares."""
        match = re.match(r"\s*var\s+([^;]*);", re.sub(r"//[^\n]*", " ", self.text()))
        return [name.strip() for name in match.group(1).split(",")] if match else []
