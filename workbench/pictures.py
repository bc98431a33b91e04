"""Behaviours as pictures: waves as SVG, in which long runs are folded, and VCD for wave viewers."""
import re
from typing import Dict, Iterable, Iterator, List, NamedTuple, Optional, Sequence, Tuple

from streams import plain
from waves import Column, check_columns, columns

# The classes of the parts of pictures, each with its properties; a page that holds pictures gives them colours of its own.
COLOURS = {
    "paper": {"fill": "#ffffff"}, "text": {"fill": "#222222"}, "title": {"fill": "#1b3a5c"}, "note": {"fill": "#5f6973"},
    "broken-text": {"fill": "#b03427"}, "line": {"stroke": "#1b3a5c"}, "arrow": {"fill": "#1b3a5c"}, "grid": {"stroke": "#e6e9ec"},
    "high": {"fill": "#d6e6f5"}, "high-folded": {"fill": "#e9f1f9"}, "mark": {"fill": "#fdecea"},
    "holds": {"fill": "#e3f1e4", "stroke": "#2e7d32"}, "open": {"fill": "#f4f4f4", "stroke": "#6b7580"},
    "broken": {"fill": "#f3d9d6", "stroke": "#c0392b"},
}
CELL, FOLD, HIGH, GAP, HEAD = 34, 64, 20, 14, 44  # widths of an instant and of a fold, heights of a wave, between two, and of a head
WIDEST = 1400  # a picture wider than this goes on below


class Behaviour(NamedTuple):
    """A word with what a picture of it says: a title, the variables, and the instant that is marked, if any."""

    title: str
    variables: Sequence[str]
    word: Sequence[str]
    marked: Optional[int] = None


def escaped(text: str) -> str:
    return plain(text).replace("&", "&amp;").replace("<", "&lt;").replace(">", "&gt;").replace('"', "&quot;")


def text_width(text: str, size: int) -> float:
    """The width of a text in a monospaced font, with some room."""
    return 0.61 * size * len(text) + 1


def words(x: float, y: float, text: str, size: int = 11, kind: str = "text", anchor: str = "start", weight: str = "normal") -> str:
    return (f'<text class="{kind}" x="{x:.1f}" y="{y:.1f}" font-size="{size}" text-anchor="{anchor}" font-weight="{weight}" '
            f'xml:space="preserve">{escaped(text)}</text>')


def rules(colours: Dict[str, Dict[str, str]], within: str = "") -> str:
    """The colours of the classes as rules of CSS, for what is within elements of a kind."""
    return "".join(f"{within}.{kind}{{{';'.join(f'{name}:{value}' for name, value in those.items())}}}" for kind, those in colours.items())


def page(width: float, height: float, parts: Iterable[str], is_styled: bool = True) -> str:
    """A picture, with its colours unless a page gives them."""
    style = f"<style>{rules(COLOURS)}</style>\n" if is_styled else ""
    return (f'<svg xmlns="http://www.w3.org/2000/svg" width="{width:.0f}" height="{height:.0f}" viewBox="0 0 {width:.0f} {height:.0f}" '
            f'font-family="DejaVu Sans Mono, monospace">\n{style}<rect class="paper" width="100%" height="100%"/>\n' + "\n".join(parts) + "\n</svg>\n")


def waves_svg(behaviours: Iterable[Behaviour]) -> str:
    """One picture of behaviours below one another."""
    parts: List[str] = []
    width, y = 0.0, 0
    for title, variables, word, marked in behaviours:
        parts.append(words(12, y + 20, title, 13, "title", weight="bold"))
        width = max(width, text_width(title, 13) + 24)
        y += 28
        for block in _blocks(variables, word, marked, WIDEST):
            drawn, right = _block(variables, word, block, y, marked)
            parts += drawn
            width = max(width, right + 16)
            y += HEAD + len(variables) * (HIGH + GAP)
        y += 10
    return page(width, y, parts)


def rows_svg(it: Behaviour, widest: int) -> List[str]:
    """A picture without a title and colours for each row of instants, so that a page breaks between them."""
    found = []
    for block in _blocks(it.variables, it.word, it.marked, widest):
        parts, right = _block(it.variables, it.word, block, 0, it.marked)
        found.append(page(right + 16, HEAD - 8 + len(it.variables) * (HIGH + GAP), parts, is_styled=False))
    return found


def _width(column: Column) -> int:
    return CELL if column.count == 1 else FOLD


def _margin(variables: Sequence[str]) -> float:
    return 22 + max(text_width(name, 12) for name in (*variables, "instant"))


def _columns(word: Sequence[str], marked: Optional[int]) -> Iterator[Column]:
    """The columns of a word, of which the marked instant is one."""
    for it in columns(word):
        if marked is None or not it.first <= marked < it.first + it.count:
            yield it
            continue
        parts = ((it.first, marked), (marked, marked + 1), (marked + 1, it.first + it.count))
        yield from (Column(first, end - first) for first, end in parts if end > first)


def _blocks(variables: Sequence[str], word: Sequence[str], marked: Optional[int], widest: int) -> List[List[Column]]:
    """The columns in rows that are not too wide."""
    shown = list(_columns(word, marked))
    check_columns(word, shown)
    blocks: List[List[Column]] = [[]]
    used = _margin(variables)
    for column in shown:
        if blocks[-1] and used + _width(column) > widest:
            blocks.append([])
            used = _margin(variables)
        blocks[-1].append(column)
        used += _width(column)
    return blocks


def _block(variables: Sequence[str], word: Sequence[str], block: Sequence[Column], y: float, marked: Optional[int]) -> Tuple[List[str], float]:
    """The parts of one row of columns, and its right end."""
    left, top = _margin(variables), y + 26
    edges = [left]
    for column in block:
        edges.append(edges[-1] + _width(column))
    bottom = top + len(variables) * (HIGH + GAP)
    parts = [words(left - 10, top - 8, "instant", 11, "note", "end")]
    for column, begin, end in zip(block, edges, edges[1:]):
        if column.first == marked:
            parts.append(f'<rect class="mark" x="{begin}" y="{top - 2}" width="{end - begin}" height="{bottom - top + 4}"/>')
        said = str(column.first) if column.count == 1 else f"{column.count} more"
        parts.append(words((begin + end) / 2, top - 8, said, 11 if column.count == 1 else 10, "note", "middle"))
        parts.append(f'<line class="grid" x1="{begin}" x2="{begin}" y1="{top - 2}" y2="{bottom}"/>')
    for place, name in enumerate(variables):
        parts += _wave(name, [word[column.first][place] == "1" for column in block], block, edges, top + place * (HIGH + GAP) + GAP / 2)
    return parts, edges[-1]


def _wave(name: str, levels: Sequence[bool], block: Sequence[Column], edges: Sequence[float], top: float) -> List[str]:
    """One variable's wave: solid where instants are drawn, dashed where they are folded."""
    parts = [words(edges[0] - 10, top + HIGH - 5, name, 12, anchor="end")]
    solid, dashed, before = "", "", None
    for high, column, begin, end in zip(levels, block, edges, edges[1:]):
        y = top if high else top + HIGH
        if high:
            kind = "high" if column.count == 1 else "high-folded"
            parts.append(f'<rect class="{kind}" x="{begin}" y="{top}" width="{end - begin}" height="{HIGH}"/>')
        if before is not None and before != y:
            solid += f"M{begin} {before}V{y}"
        if column.count == 1:
            solid += f"M{begin} {y}H{end}"
        else:
            dashed += f"M{begin} {y}H{end}"
        before = y
    parts.append(f'<path class="line" d="{solid}" stroke-width="2" fill="none" stroke-linecap="square"/>')
    if dashed:
        parts.append(f'<path class="line" d="{dashed}" stroke-width="2" fill="none" stroke-dasharray="3 4"/>')
    return parts


def vcd(variables: Sequence[str], word: Sequence[str]) -> str:
    """A behaviour as a value change dump; an instant is a millisecond."""
    def changed(letter: str, before: Optional[str]) -> List[str]:
        return [f"{value}{_code(place)}" for place, value in enumerate(letter[:len(variables)]) if before is None or before[place] != value]

    lines = ["$timescale 1 ms $end", "$scope module behaviour $end"]
    lines += [f"$var wire 1 {_code(place)} {name} $end" for place, name in enumerate(_signals(variables))]
    lines += ["$upscope $end", "$enddefinitions $end", "#0", "$dumpvars", *changed(word[0], None), "$end"]
    for instant in range(1, len(word)):
        values = changed(word[instant], word[instant - 1])
        lines += [f"#{instant}", *values] if values else []
    return "\n".join([*lines, f"#{len(word)}", ""])


def _code(place: int) -> str:
    """The code of a signal: as many of the 94 characters as it takes."""
    code = ""
    while place >= 0:
        place, digit = divmod(place, 94)
        code, place = chr(33 + digit) + code, place - 1
    return code


def _signals(variables: Sequence[str]) -> List[str]:
    """The names as a dump may have them, each once."""
    found: List[str] = []
    for name in variables:
        name = re.sub(r"[^A-Za-z0-9_.\[\]]", "_", name) or "_"
        found.append(name if name not in found else f"{name}_{len(found)}")
    return found
