"""Pieces of HTML for the page of `report`: texts, tables, marks, pictures and the coloured text of a file. All that comes from files is escaped."""
import re
from typing import Iterable, Iterator, Optional, Sequence

from glossary import declared
from words import RESERVED
from pictures import GAP, HEAD, HIGH, Behaviour, escaped, rows_svg
from shapes import TOKEN
from waves import in_line, instants

WIDEST, MOST_ROWS, FEW_ROWS = 640, 10, 3  # of a picture: A4 is so wide in a browser; rows of a behaviour, or of one of many, above which it is a text
MOST_LETTERS, MOST_LINES = 400, 500  # of a behaviour as a text, and of a file
MOST_TOGETHER, HIGHEST = 6, 300  # rows of a table, and the height of pictures, that are not parted in print
SIGNS = {"ok": "&#10003;", "warn": "!", "bad": "&#10007;", "none": "?"}
PIECE = re.compile(rf"(?P<comment>//[^\n]*)|(?P<other>[^\x00-\x7f]+)|{TOKEN.pattern}|.", re.S)


def of_bytes(text: str) -> str:
    """A text with a character for each byte as HTML."""
    return escaped(text.encode("latin-1", "replace").decode("utf-8", "replace"))


def tag(name: str, inside: str, **attributes: object) -> str:
    """An element; the attribute `class_` is `class`, and `aria_label` is `aria-label`."""
    said = "".join(f' {key.strip("_").replace("_", "-")}="{escaped(str(value))}"' for key, value in attributes.items() if value is not None)
    return f"<{name}{said}>{inside}</{name}>"


def code(text: str) -> str:
    return tag("code", escaped(text))


def prose(text: str) -> str:
    """A comment as HTML: what is in backquotes is code."""
    return re.sub(r"`([^`]+)`", r"<code>\1</code>", escaped(text))


def badge(kind: str, text: str) -> str:
    """A status: a sign, a word and a colour."""
    return f'<span class="badge {kind}"><span aria-hidden="true">{SIGNS[kind]}</span> {escaped(text)}</span>'


def table(heads: Sequence[str], rows: Sequence[Sequence[str]], caption: str) -> str:
    """A table of cells that are HTML; the first cell of a row is its head. On a small screen a row is a block."""
    head = "".join(tag("th", it, scope="col") for it in heads)
    body = "\n".join("<tr>" + tag("th", row[0], scope="row") + "".join(tag("td", cell, data_head=name) for name, cell in zip(heads[1:], row[1:])) + "</tr>"
                     for row in rows)
    inside = f'<caption class="unseen">{escaped(caption)}</caption><thead><tr>{head}</tr></thead><tbody>\n{body}\n</tbody>'
    return tag("table", inside, class_="long" if len(rows) > MOST_TOGETHER else None)


def items(lines: Sequence[str]) -> str:
    return tag("ul", "".join(tag("li", line) for line in lines)) if lines else ""


def scrolled(inside: str, label: str) -> str:
    """A box that is scrolled where its contents are wider; the keyboard reaches it."""
    return tag("div", inside, class_="scroll", tabindex=0, role="group", aria_label=label)


def picture(svg: str, label: str) -> str:
    """A picture with a text for readers who do not see it."""
    return svg.replace("<svg ", f'<svg role="img" aria-label="{escaped(label)}" ', 1).rstrip("\n")


def word_label(variables: Sequence[str], word: Sequence[str]) -> str:
    """A behaviour as a text of any length that is read aloud."""
    said = in_line(word)
    said = said if len(said) <= MOST_LETTERS else said[:MOST_LETTERS] + " .."
    return f"{said}; an instant is the digits of {' '.join(variables) or 'no variable'}"


def behaviour(variables: Sequence[str], word: Sequence[str], marked: Optional[int] = None, most: int = MOST_ROWS) -> str:
    """A behaviour as pictures, a row of instants in each; one that is too long for them, or has no variable, is a text."""
    rows = rows_svg(Behaviour("", variables, word, marked), WIDEST) if variables else []
    label = word_label(variables, word)
    if not 0 < len(rows) <= most:
        return tag("p", code(label.split(";")[0]))
    first = [picture(rows[0], label)] + [it.replace("<svg ", '<svg aria-hidden="true" ', 1).rstrip("\n") for it in rows[1:]]
    return scrolled("\n".join(first), "Behaviour")


def figure(caption: str, variables: Sequence[str], word: Sequence[str], marked: Optional[int] = None, most: int = MOST_ROWS) -> str:
    """A behaviour below its caption, which is HTML."""
    return captioned(f"{caption}, {instants(len(word))}", variables, behaviour(variables, word, marked, most))


def captioned(caption: str, variables: Sequence[str], pictures: str) -> str:
    """Pictures of behaviours below a caption; in print several of them that are high are parted between two."""
    rows = pictures.count("<svg ")
    is_long = rows > 1 and rows * (HEAD + len(variables) * (HIGH + GAP)) > HIGHEST
    return tag("figure", tag("figcaption", caption) + "\n" + pictures, class_="long" if is_long else None)


def figures(those: Iterable[str]) -> str:
    return tag("div", "\n".join(those), class_="figures")


# ---- the text of a file


def coloured(text: str) -> str:
    """A file with numbered lines and its words in colours; of a long file its beginning."""
    lines = "".join(pieces(text)).rstrip("\n").split("\n")
    numbered = "\n".join(f'<span class="number" aria-hidden="true">{number}</span>{line}' for number, line in enumerate(lines[:MOST_LINES], 1))
    more = tag("p", f"The first {MOST_LINES} of {len(lines)} lines.") if len(lines) > MOST_LINES else ""
    return tag("pre", numbered, class_="scroll", tabindex=0, role="group", aria_label="Text of the requirement") + more


def pieces(text: str) -> Iterator[str]:
    """The text in pieces, each in the colour of its kind; no piece with a colour goes on in another line."""
    names = {name for name, _ in declared(text)}
    for match in PIECE.finditer(text):
        piece = match.group()
        kind = None
        if match.group("comment") is not None:
            kind = "comment"
        elif piece in RESERVED or piece in ("const", "use"):
            kind = "word"
        elif piece.isascii() and piece.isdigit():
            kind = "digits"
        elif piece in names:
            kind = "name"
        yield tag("span", of_bytes(piece), class_=kind) if kind else of_bytes(piece)

