"""An automaton as a picture: its states side by side in the order of the text, arcs to later states above, to earlier ones below."""
from typing import Dict, List, Tuple

from automaton import Automaton
from conditions import conditions, is_final
from pictures import page, text_width, words

Arc = Tuple[int, int, List[str]]  # from a state to another one, and the lines of its label
Line = Tuple[str, int, str, str]  # its text, size, class and weight

MOST_STATES = 12  # a larger automaton is a table
LINE, LABEL = 15, 13  # heights of a line in a box, and of one of a label


def arrow(name: str) -> str:
    """The head of the arcs, which are drawn with it by its id."""
    return (f'<defs><marker id="{name}" viewBox="0 0 8 8" refX="7" refY="4" markerWidth="8" markerHeight="8" orient="auto">'
            f'<path class="arrow" d="M0 0L8 4L0 8z"/></marker></defs>')


def lines_of(found: List[str]) -> List[str]:
    """Conditions as a few short lines."""
    joined = " or ".join(found)
    if len(joined) <= 26:
        return [joined]
    return found[:1] + [f"or {condition}" for condition in found[1:3]] + ([f"or {len(found) - 3} more"] if len(found) > 3 else [])


class Diagram:
    """Where everything of the picture stands."""

    def __init__(self, automaton: Automaton) -> None:
        self.automaton = automaton
        edges = [conditions(automaton, state) for state in range(automaton.states)]
        self.lost = {state for state in range(automaton.states) if is_final(automaton, state) and not automaton.accept[state]}
        self.shown = [state for state in range(automaton.states) if state not in self.lost or state == 0]
        self.position = {state: place for place, state in enumerate(self.shown)}
        self.boxes = {state: self._box(state, edges[state]) for state in self.shown}
        self.arcs = [(state, target, lines_of(found)) for state in self.shown for target, found in edges[state].items()
                     if target != state and target in self.position]
        self._measure()
        self.ports = self._ports()

    def _box(self, state: int, edges: Dict[int, List[str]]) -> List[Line]:
        """The lines in a state's box: its number, by what it is kept, and by what the requirement is lost."""
        lines = [(str(state), 13, "text", "bold")]
        own = [(edges[state], "stays: ", "text")] if state in edges else []
        own += [(found, "broken: ", "broken-text") for target, found in edges.items() if target in self.lost and target != state]
        for found, head, kind in own:
            for number, text in enumerate(lines_of(found)):
                lines.append(((head if number == 0 else " " * len(head)) + text, 11, kind, "normal"))
        return lines

    def _measure(self) -> None:
        most_lines = max([len(label) for _, _, label in self.arcs], default=1)
        self.level = 44 + LABEL * (most_lines - 1)
        self.box_width = max([60] + [text_width(text, size) + 20 for box in self.boxes.values() for text, size, _, _ in box])
        self.box_height = max(len(box) for box in self.boxes.values()) * LINE + 14
        labels = [text_width(text, 11) + 20 for _, _, label in self.arcs for text in label]
        self.distance = max([self.box_width + 34] + labels)
        above = [self.height(arc) + LABEL * len(arc[2]) + 4 for arc in self.arcs if self.goes_on(arc)]
        below = [self.height(arc) + LABEL * len(arc[2]) + 4 for arc in self.arcs if not self.goes_on(arc)]
        self.top = 36 + max(above, default=8)
        self.bottom = self.top + self.box_height
        self.size = (48 + self.distance * (len(self.shown) - 1) + self.box_width + 20, self.bottom + max(below, default=4) + 14)

    def goes_on(self, arc: Arc) -> bool:
        return self.position[arc[1]] > self.position[arc[0]]

    def height(self, arc: Arc) -> int:
        return 26 + self.level * (abs(self.position[arc[1]] - self.position[arc[0]]) - 1)

    def middle(self, state: int) -> float:
        return 48 + self.position[state] * self.distance + self.box_width / 2

    def _ports(self) -> Dict[Tuple[int, int, str], float]:
        """Where each arc touches a box: side by side, the long arcs nearest to the middle so that they go round the short ones."""
        ports = {}
        for on in (True, False):
            arcs = [arc for arc in self.arcs if self.goes_on(arc) == on]
            for state in self.shown:
                ends = [(arc[1], arc, "from") for arc in arcs if arc[0] == state] + [(arc[0], arc, "to") for arc in arcs if arc[1] == state]
                for sign in (1, -1):
                    side = [end for end in ends if (self.position[end[0]] - self.position[state]) * sign > 0]
                    side.sort(key=lambda end: -abs(self.position[end[0]] - self.position[state]))
                    gap = min(11, (self.box_width / 2 - 14) / max(1, len(side)))
                    for number, (_, arc, end) in enumerate(side):
                        ports[(arc[0], arc[1], end)] = self.middle(state) + sign * (8 + gap * number)
        return ports


def automaton_svg(automaton: Automaton, title: str, name: str = "arrow", is_styled: bool = True) -> str:
    """The picture; `name` is the id of its arrows, which no other picture of a page has."""
    drawn = Diagram(automaton)
    width = max(drawn.size[0], text_width(title, 13) + 24)
    parts, labels = [arrow(name), words(12, 22, title, 13, "title", weight="bold")], []
    for arc in drawn.arcs:
        path, label = _arc(drawn, arc, name)
        parts.append(path)
        labels += label
    for state in drawn.shown:
        labels += _boxed(drawn, state)
    y = (drawn.top + drawn.bottom) / 2
    parts.append(f'<path class="line" d="M10 {y:.1f}H44" fill="none" marker-end="url(#{name})"/>')
    return page(width, drawn.size[1], parts + labels, is_styled)


def _arc(drawn: Diagram, arc: Arc, name: str) -> Tuple[str, List[str]]:
    state, target, label = arc
    begin, end = drawn.ports[(state, target, "from")], drawn.ports[(state, target, "to")]
    y, sign = (drawn.top, -1) if drawn.goes_on(arc) else (drawn.bottom, 1)
    pull = y + sign * drawn.height(arc) * 4 / 3
    path = (f'<path class="line" d="M{begin:.1f} {y} C{begin:.1f} {pull:.1f} {end:.1f} {pull:.1f} {end:.1f} {y + sign * 2}" fill="none" '
            f'marker-end="url(#{name})"/>')
    middle, parts = (begin + end) / 2, []
    top = y + sign * drawn.height(arc) + 4 - (LABEL * (len(label) - 1) if sign < 0 else 0)
    for number, text in enumerate(label):
        line, half = top + LABEL * number, text_width(text, 11) / 2
        parts.append(f'<rect class="paper" x="{middle - half - 3:.1f}" y="{line - 10:.1f}" width="{2 * half + 6:.1f}" height="{LABEL}"/>')
        parts.append(words(middle, line, text, 11, "text", "middle"))
    return path, parts


def _boxed(drawn: Diagram, state: int) -> List[str]:
    kind = "holds" if drawn.automaton.accept[state] else "broken" if state in drawn.lost else "open"
    left = drawn.middle(state) - drawn.box_width / 2
    parts = [f'<rect class="{kind}" x="{left:.1f}" y="{drawn.top}" width="{drawn.box_width:.1f}" height="{drawn.box_height}" rx="8" stroke-width="2"/>']
    for number, (text, size, kind, weight) in enumerate(drawn.boxes[state]):
        parts.append(words(left + 9, drawn.top + 19 + LINE * number, text, size, kind, weight=weight))
    return parts
