"""What is read and written beside formula files: inputs that can be read once only, and outputs that other tools read."""
import os
import re

# Control bytes, which a terminal acts on and XML has not, but for tabs and ends of lines; and what stands for bytes of names that are no text.
PLAIN = {**{place: "?" for place in [*range(9), 11, 12, *range(14, 32), *range(127, 160)]}, 13: "", 0x2028: "?", 0x2029: "?",
         **{place: "?" for place in [*range(0x202A, 0x202F), *range(0x2066, 0x206A)]}}
NO_TEXT = re.compile("[\ud800-\udfff\ufffe\uffff]")


class Unwritten(Exception):
    """Something could not be written; the message says what and why."""


def plain(text: str) -> str:
    """A text as it may stand in XML and on a terminal."""
    return NO_TEXT.sub("?", text.translate(PLAIN))


def write_text(path: str, text: str, encoding: str = "utf-8") -> None:
    """Writes a file; Unwritten says why it can't be."""
    try:
        with open(path, "w", encoding=encoding, errors="replace", newline="\n") as file:
            file.write(text)
    except OSError as error:
        raise Unwritten(f"{path} could not be written: {error.strerror}") from None


def make_folder(path: str) -> None:
    try:
        os.makedirs(path, exist_ok=True)
    except OSError as error:
        raise Unwritten(f"the folder {path} could not be made: {error.strerror}") from None


def is_stream(path: str) -> bool:
    """Whether a file can be read once only."""
    return os.path.exists(path) and not os.path.isfile(path) and not os.path.isdir(path)


def copy_stream(path: str, target: str, most: int) -> None:
    """A copy of what can be read once only, with one byte more than there may be where it has more."""
    with open(path, "rb") as source, open(target, "wb") as copy:
        left = most + 1
        while left > 0:
            block = source.read(min(left, 1 << 20))
            if not block:
                break
            copy.write(block)
            left -= len(block)
