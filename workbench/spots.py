"""A place of a text, and the line around it as a person reads it, with a mark below the place."""
import re
import shutil
from typing import List, Tuple

from language import TOKEN


class Spot:
    """A place of a text: its row and column, its line as it is shown, and what stands before and after it."""

    def __init__(self, text: str, place: int) -> None:
        self.text, self.size = text, len(text)
        self.begins_with_mark = text.startswith("\xef\xbb\xbf")
        self.at_end = place >= len(text)
        if self.at_end:  # the end of the last line that holds more than white space and comments
            place = max([match.end() for match in TOKEN.finditer(text) if match.group("blank") is None], default=0)
        self.place = place
        self.row = text.count("\n", 0, place) + 1
        self.start = text.rfind("\n", 0, place) + 1
        end = text.find("\n", place)
        self.line = text[self.start:len(text) if end < 0 else end].rstrip("\r")
        self.rest = "" if self.at_end else self.line[place - self.start:]

    @property
    def front(self) -> str:
        return self.line[:self.place - self.start]

    @property
    def column(self) -> int:
        return len(shown(self.front.replace("\xef\xbb\xbf", "") if self.row == 1 else self.front)) + 1

    def token(self) -> str:
        match = re.match(r"[A-Za-z]\w*|[0-9]+|<=>|<=|>=|<>|=>|&&|\|\||\[\]|\[\[|\]\]|\{\{|\}\}", self.rest, re.A)
        return match.group() if match else self.rest[:1]

    def before(self) -> Tuple[str, int]:
        """What stands in front of the place without comments and white space, and the row that it ends in."""
        row = self.row
        lines = self.text[:self.place].split("\n")[-200:]
        for line in reversed(lines):
            bare = re.sub(r"//.*", "", line).strip(" \t\r")
            if bare:
                return bare[-2000:], row
            row -= 1
        return "", row

    def pointed(self) -> List[str]:
        """The line with its number, and a mark below the place. A line wider than the terminal is cut around it."""
        line, front = self.line, self.front
        if self.row == 1 and self.begins_with_mark:
            line, front = line[3:], front[3:]
        line, front = shown(line), shown(front)
        room = max(40, shutil.get_terminal_size((100, 24)).columns - 10)
        if len(line) > room:
            cut = max(0, min(len(front) - room // 2, len(line) - room))
            if cut:
                line, front = "..." + line[cut + 3:], front[cut:]
            if len(line) > room:
                line = line[:room - 3] + "..."
        blank = "".join("\t" if character == "\t" else " " for character in front)
        return [f"{self.row:5} | {line}", f"      | {blank}^"]


def utf8(text: str) -> str:
    """A text of bytes as characters."""
    return text.encode("latin-1").decode("utf-8", "replace")


def printable(text: str) -> str:
    return "".join(it if it == "\t" or it.isprintable() else "?" for it in text)


def shown(text: str) -> str:
    """A text of bytes as characters; what no terminal shows is a question mark."""
    return printable(utf8(text))
