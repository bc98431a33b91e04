"""Completion: the tokens that may stand at a place, by asking the program, the names in sight that fit, and patterns as snippets."""
import re
from functools import lru_cache
from typing import List, Sequence, Tuple

import library
import repairs
from documents import Document
from hovering import MEANINGS
from words import RESERVED
from navigation import KINDS
from program import Program
from protocol import Message
from scopes import Names, Symbol, comments

TEMPLATES = {"<": "<${1:p}>", "[": "[${1:p}]", "[[": "[[${1:p}]]", "{{": "{{${1:p}}}", "slen": "slen ${1|=,<,<=,>,>=|} ${2:n}",
             "scount": "scount ${1:p} ${2|=,<,<=,>,>=|} ${3:n}", "sdur": "sdur ${1:p} ${2|=,<,<=,>,>=|} ${3:n}", "ex": "ex ${1:q}. ", "all": "all ${1:q}. ",
             "define": "define ${1:name}(${2:p}) as ${3:[[p]]};", "prop": "prop ${1:name} as ${2:p};", "infer": "infer ${1:[[p]]};", "var": "var ${1:p};"}
WORD, SIGN, SNIPPET = 14, 24, 15  # kinds of items


class Completion:
    """Answers for a client, which takes snippets or does not. What may stand at a place is asked once while a word is typed."""

    def __init__(self, takes_snippets: bool) -> None:
        self.takes_snippets = takes_snippets
        self.known: Tuple[str, List[str]] = "\0", []  # the last text before a place, and what may stand there

    def items(self, document: Document, params: Message, program: Program) -> List[Message]:
        place, raw = document.offset(params["position"]), document.raw
        start = place - len((re.search(r"[A-Za-z0-9_]*$", raw[:place]) or [""])[0])
        if any(begin < place <= end for begin, end, _ in comments(raw)):
            return []
        names = Names(raw)
        front = in_the_language(raw[:start], names)
        before, tokens = self.known
        if front != before:
            tokens = may_stand(program, front, start)
            self.known = front, tokens
        where = document.range(start, place)
        return [*self.names(tokens, names, start, where), *self.words(tokens, where), *self.patterns(tokens, names, document, where)]

    def names(self, tokens: Sequence[str], names: Names, start: int, where: Message) -> List[Message]:
        """The names in sight of the kind that the place asks for."""
        wanted = ["constant"] if repairs.NUMBER in tokens else []
        if repairs.NAME in tokens and "-" in tokens:
            wanted += ["variable", "parameter", "quantified", "prop"]
        elif "<>" in tokens:
            wanted += ["define"]
        return [self.item(it.name, KINDS[it.kind][0], it.kind, f"0{it.name}", where, call(it)) for it in names.in_sight(start).values() if it.kind in wanted]

    def words(self, tokens: Sequence[str], where: Message) -> List[Message]:
        return [self.item(token, WORD if token[0].isalpha() else SIGN, MEANINGS.get(token, ""), f"{1 if token[0].isalpha() else 2}{token}", where,
                          TEMPLATES.get(token, token)) for token in tokens if token not in (repairs.NAME, repairs.NUMBER)]

    def patterns(self, tokens: Sequence[str], names: Names, document: Document, where: Message) -> List[Message]:
        """In the place of a formula a call of a pattern, with its `use`; in an empty text a whole requirement."""
        is_empty = not names.tokens or len(names.tokens) == 1 and where["start"] != where["end"]
        if "<>" not in tokens and not is_empty or not self.takes_snippets:
            return []
        found = []
        for it in library_patterns():
            arguments = [f"${{{at}:{it.numbers.get(name, name)}}}" for at, name in enumerate(it.parameters, 1)]
            line, body = f'use "patterns/{it.name}.dc";\n', f"{it.name}({', '.join(arguments)})"
            if is_empty:
                body = f"// {it.fields['sentence']}\n{line}var {', '.join(it.propositions)};\ninfer {body};\n"
            item: Message = {**self.item(it.name, SNIPPET, "pattern", f"5{it.name}", where, body), "documentation": it.fields["sentence"]}
            if not is_empty and line.strip() not in document.raw:
                top = {"line": next((at for at, row in enumerate(document.raw.split("\n")) if not row.startswith("//")), 0), "character": 0}
                item["additionalTextEdits"] = [{"range": {"start": top, "end": top}, "newText": line}]
            found.append(item)
        return found

    def item(self, label: str, kind: int, detail: str, order: str, where: Message, snippet: str) -> Message:
        is_snippet = self.takes_snippets and "${" in snippet
        return {"label": label, "kind": kind, "detail": detail, "sortText": order, "filterText": label, "insertTextFormat": 2 if is_snippet else 1,
                "textEdit": {"range": where, "newText": snippet if is_snippet else label}}


@lru_cache(maxsize=None)
def library_patterns() -> List[library.Pattern]:
    return library.patterns()


def call(symbol: Symbol) -> str:
    """A macro's call as a snippet, or a name."""
    arguments = ", ".join(f"${{{at}:{it.name}}}" for at, it in enumerate(symbol.parameters, 1))
    return f"{symbol.name}({arguments})" if arguments else symbol.name


def may_stand(program: Program, front: str, start: int) -> List[str]:
    """The tokens that may stand after a text; where a fault is further up, all, since nothing is known there."""
    fault = program.fault(front + "\n$")
    if fault and fault.kind in ("syntax", "byte") and fault.place < start:
        return [*RESERVED, *repairs.MARKS, repairs.NUMBER]
    return repairs.may_stand(program, front, start)


def in_the_language(front: str, names: Names) -> str:
    """A text before a place as the program reads it: const and use are blanks, and constants are digits."""
    for statement in names.statements:
        start, end = statement.span
        if statement.head in ("const", "use") and end <= len(front):
            front = front[:start] + re.sub(r"[^\n]", " ", front[start:end]) + front[end:]
    for symbol in names.symbols:
        for start, end in symbol.uses if symbol.kind == "constant" else ():
            if symbol.whole[1] < start and end <= len(front):
                front = front[:start] + "1".rjust(end - start) + front[end:]
    return front
