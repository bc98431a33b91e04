"""Texts as an editor has them: positions in lines and UTF-16 units, changes, and edits from one text to another."""
import bisect
import os
import re
import urllib.parse
from typing import Tuple

from protocol import Message
from spots import utf8

Span = Tuple[int, int]


class Document:
    """A version of a text. `raw` is its UTF-8 with a character for each byte, as the workbench has texts; places are offsets in it."""

    def __init__(self, uri: str, raw: str, version: int) -> None:
        self.uri, self.raw, self.version = uri, raw, version
        self.lines = [0] + [match.end() for match in re.finditer(r"\r\n|\n|\r", raw)]

    def line_end(self, line: int) -> int:
        """The end of a line without its line break."""
        end = self.lines[line + 1] if line + 1 < len(self.lines) else len(self.raw)
        return self.lines[line] + len(self.raw[self.lines[line]:end].rstrip("\r\n"))

    def offset(self, position: Message) -> int:
        """The place of a position; one after the end of its line is that end."""
        line, units = max(0, int(position["line"])), int(position["character"])
        if line >= len(self.lines):
            return len(self.raw)
        place, end = self.lines[line], self.line_end(line)
        while units > 0 and place < end:
            lead = ord(self.raw[place])
            size = 1 if lead < 0xC0 else 2 if lead < 0xE0 else 3 if lead < 0xF0 else 4
            units -= 2 if size == 4 else 1
            if units < 0:  # between the two units of a character
                break
            place += size
        return min(place, end)

    def position(self, place: int) -> Message:
        line = bisect.bisect_right(self.lines, place) - 1
        front = utf8(self.raw[self.lines[line]:place])
        return {"line": line, "character": len(front) + sum(it > "\uffff" for it in front)}

    def range(self, start: int, end: int) -> Message:
        return {"start": self.position(start), "end": self.position(end)}

    def span(self, asked: Message) -> Span:
        return self.offset(asked["start"]), self.offset(asked["end"])

    def changed(self, change: Message, version: int) -> "Document":
        """The next version, by a change of a part or of all."""
        text = raw_of(change["text"])
        if change.get("range"):
            start, end = self.span(change["range"])
            text = self.raw[:start] + text + self.raw[end:]
        return Document(self.uri, text, version)

    def edit_to(self, changed: str) -> Message:
        """The smallest one edit that makes the text this one; it ends within no character and no line break."""
        old, most = self.raw, min(len(self.raw), len(changed))
        front = len(os.path.commonprefix([old, changed]))
        back = min(most - front, len(os.path.commonprefix([old[::-1], changed[::-1]])))
        while front and is_inside(old, changed, front):
            front -= 1
        while back and is_inside(old[::-1], changed[::-1], back, backwards=True):
            back -= 1
        return {"range": self.range(front, len(old) - back), "newText": utf8(changed[front:len(changed) - back])}


def is_inside(old: str, changed: str, place: int, backwards: bool = False) -> bool:
    """Whether a place of either text is inside of a character or a line break."""
    for text in (old, changed):
        before, after = text[place - 1:place], text[place:place + 1]
        if backwards:
            before, after = after, before
        if "\x80" <= after < "\xc0" or before + after == "\r\n":
            return True
    return False


def raw_of(text: str) -> str:
    return text.encode("utf-8", "surrogatepass").decode("latin-1")


def path_of(uri: str) -> str:
    return urllib.parse.unquote(re.sub(r"^file://(localhost)?", "", uri))


def uri_of(path: str) -> str:
    return "file://" + urllib.parse.quote(os.path.abspath(path))
