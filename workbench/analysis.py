"""All that the program says of one version of a text, found in stages: its fault with what may stand there, or verdict, states and stuck."""
import os
import re
import threading
from typing import Callable, List, Optional, Sequence, Tuple

import hints
import repairs
from answers import Word
from documents import Document, path_of
from expand import is_source
from expansion import Expansion
from language import MOST_BYTES, Fault as Unread, parse
from program import NO_PROGRAM, Fault, Program, Refusal, Verdict
from protocol import Message
from shapes import SourceFault, Tokens
from sources import Source
from spots import Spot, utf8
from waves import instants

ERROR, WARNING, INFORMATION = 1, 2, 3


class Analysis:
    """`publish` is called each time that there is more to show, and `done` is set when no more will come."""

    def __init__(self, document: Document, program: Program, publish: Callable[["Analysis"], None], limit: float) -> None:
        self.document, self.program, self.publish = document, program, publish
        self.done = threading.Event()
        self.diagnostics: List[Message] = []
        self.fixes: List[Tuple[Message, repairs.Repair]] = []
        self.text: Optional[str] = None  # in the language, where there is no fault
        self.expansion: Optional[Expansion] = None  # of a source
        self.verdict: Optional[Verdict] = None
        self.states: Optional[int] = None
        self.stuck: Optional[Word] = None
        self.is_stuck_known = self.is_late = self.is_stopped = False
        self.problem: Optional[str] = None  # why there is no verdict
        self.limit = limit

    def run(self) -> None:
        """Asks the program; Refusal where it gives no answer, though the formula is within the limits."""
        clock = threading.Timer(self.limit, self.is_over)
        clock.daemon = True
        clock.start()
        try:
            if self.read():
                self.publish(self)
                self.decide()
        except Refusal as refusal:
            self.refused(refusal)
        finally:
            clock.cancel()
            self.done.set()
            self.publish(self)

    def stop(self) -> None:
        """A newer version is there: nothing is shown any more."""
        self.is_stopped = True
        self.program.stop()
        self.done.set()

    def is_over(self) -> None:
        self.is_late = True
        self.program.stop()

    def diagnostic(self, start: int, end: int, severity: int, code: str, lines: Sequence[str]) -> Message:
        found: Message = {"range": self.document.range(start, end), "severity": severity, "code": code, "source": "dcvalid",
                          "message": "\n".join(utf8(line.strip()) for line in lines)}
        self.diagnostics.append(found)
        return found

    # ---- faults

    def read(self) -> bool:
        """Whether there is no fault; then the text in the language is there."""
        raw = self.document.raw
        fault = self.program.fault(raw)
        if fault is None:
            self.text = raw
            return True
        path = path_of(self.document.uri)
        try:
            source = Source(path, os.path.basename(path), raw)
            if not is_source(source):
                return self.plain_fault(fault)
            self.expansion = Expansion(source)
        except SourceFault as told:
            if not any(token.text in ("use", "const") for token in Tokens("", "", raw).tokens):
                return self.plain_fault(fault)
            return self.source_fault(told.source, told.place, "source", [told.message])
        fault = self.program.fault(self.expansion.text)
        if fault is None:
            self.text = self.expansion.text
            return True
        piece, place = self.expansion.origin(fault.place)
        return self.source_fault(piece.source, place, fault.kind, hints.of_fault(fault.kind, Spot(piece.source.text, place)))

    def source_fault(self, where: Tokens, place: int, kind: str, lines: Sequence[str]) -> bool:
        """A fault of a source; that of another file is shown at its name."""
        raw, name = self.document.raw, os.path.basename(where.path)
        if where.text != raw:
            place, end = next((token[1:] for token in Tokens("", "", raw).tokens if token.text.endswith(f'{name}"')), (0, 1))
            lines = [f"in {name}:", *lines]
        else:
            place, end = self.token(place)
        self.diagnostic(place, end, ERROR, kind, lines or [kind])
        return False

    def token(self, place: int) -> Tuple[int, int]:
        """The token of a fault, or where the text is at its end the last character."""
        spot = Spot(self.document.raw, place)
        return (max(0, spot.place - 1), spot.place) if spot.at_end else (spot.place, spot.place + max(1, len(spot.token())))

    def plain_fault(self, fault: Fault) -> bool:
        raw = self.document.raw
        shown = self.diagnostic(*self.token(fault.place), ERROR, fault.kind, hints.of_fault(fault.kind, Spot(raw, fault.place)) or [fault.kind])
        self.publish(self)
        tokens: List[str] = []
        if fault.kind in ("syntax", "byte") and fault.place + repairs.ROOM <= MOST_BYTES:
            tokens = repairs.may_stand(self.program, raw, fault.place)
            shown["message"] += "\nMay stand here: " + utf8(repairs.spoken(raw, fault.place, tokens))
            self.publish(self)
        if fault.kind in ("syntax", "byte", "unknown", "kind"):
            self.fixes = [(shown, repair) for repair in repairs.repairs(self.program, raw, fault, tokens)]
        return False

    # ---- answers

    def decide(self) -> None:
        text = self.text or ""
        self.verdict = self.program.check(text)
        span = goal(self.document.raw)
        if not self.verdict.satisfiable:
            self.diagnostic(*span, WARNING, "unsatisfiable", ["No behaviour satisfies this requirement."])
        elif self.verdict.valid:
            self.diagnostic(*span, INFORMATION, "valid", ["Every behaviour satisfies this: it is a theorem, or it asks for nothing."])
        self.publish(self)
        states = re.search(r"^states (\d+)$", self.program.automaton_text(text), re.M)  # a large automaton is not read: that would hold up all threads
        self.states = int(states.group(1)) if states else None
        self.publish(self)
        if self.verdict.satisfiable and not self.verdict.valid:
            self.stuck, self.is_stuck_known = self.program.stuck(text), True

    def refused(self, refusal: Refusal) -> None:
        """What is so of a formula that the program does not decide. That there is no program is for the server."""
        if self.is_stopped:
            return
        if self.is_late:
            self.problem = f"not decided in {self.limit:g} s"
            self.diagnostic(*goal(self.document.raw), WARNING, "late", [f"The program has not decided this in {self.limit:g} s."])
            return
        if refusal.status == NO_PROGRAM:
            self.problem = "not decided"
            raise refusal
        if self.verdict is not None:  # what is over the budget is the question of what gets stuck, or the whole automaton
            return
        match = re.match(r"budget (\w+) (\d+) at (\d+) step (\d+)", refusal.message)
        self.problem = f"over the budget: a step needs more than {match.group(2)} {match.group(1)}" if match else refusal.message
        span = goal(self.document.raw)
        if match and self.expansion is None:
            span = part(self.document.raw, int(match.group(3)))
        lines = hints.of_budget(match.group(1), int(match.group(2)), int(match.group(4))) if match else [refusal.message, *hints.of_message(refusal.message)]
        self.diagnostic(*span, ERROR, "budget" if match else "refused", lines)

    def summary(self) -> Optional[str]:
        """The verdict in one line, as far as it is known."""
        if self.problem or self.verdict is None:
            return self.problem
        word = self.verdict.counterexample
        found = ["valid: every behaviour satisfies it" if self.verdict.valid else "no behaviour satisfies it" if not self.verdict.satisfiable
                 else f"not valid: {instants(len(word or ()))}"]
        if self.states is not None:
            found.append("1 state" if self.states == 1 else f"{self.states} states")
        if self.is_stuck_known:
            found.append("never stuck" if self.stuck is None else f"stuck after {instants(len(self.stuck))}" if self.stuck else "judged at the end")
        return "; ".join(found)


def goal(raw: str) -> Tuple[int, int]:
    """The word `infer` of the goal, or the first character."""
    return next((token[1:] for token in Tokens("", "", raw).tokens if token.text == "infer"), (0, min(1, len(raw))))


def part(raw: str, place: int) -> Tuple[int, int]:
    """The largest part of a text that begins at a place: the program names the step's place, and of several parts that begin there not which."""
    try:
        file = parse(raw)
    except Unread:
        return place, place + 1
    trees = [tree for body in (file.goal, *(macro.body for macro in file.listed)) for tree in body.walk() if tree.start == place]
    return place, max((tree.end for tree in trees), default=place + 1)
