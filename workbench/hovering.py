"""What an editor shows beside a text: the verdict with its waves, the meaning of a name or a word, and quick fixes."""
import re
from typing import List, Optional, Tuple

import library
from analysis import Analysis, goal
from documents import Document
from glossary import glossary
from language import parse
from navigation import edit_of
from protocol import Message
from scopes import Names, Symbol, block_above
from spots import utf8
from waves import heading, waves

WIDTH, MOST_LINES = 78, 40  # of a picture
MEANINGS = {"pt": "one instant", "ext": "more than one instant", "slen": "the length of the interval: its last instant less its first",
            "scount": "the number of instants at which it is true", "sdur": "the number of instants at which it is true, the last one left out",
            "ex": "for some values at each instant", "all": "for all values at each instant", "true": "always", "false": "never"}
KINDS = {"variable": "a variable", "parameter": "a parameter of its macro", "quantified": "a quantified name"}


def hover(document: Document, params: Message, analysis: Optional[Analysis]) -> Optional[Message]:
    """`analysis` is as far as it came while a person waits."""
    place, raw = document.offset(params["position"]), document.raw
    names = Names(raw)
    token = names.token_at(place)
    if token is None:
        return None
    symbol = names.bound.get(token.start)
    if token.text == "infer":
        said: Optional[str] = of_goal(analysis) if analysis else None
    else:
        said = of_name(raw, symbol) if symbol else of_pattern(token.text, names) or MEANINGS.get(token.text)
    return {"contents": {"kind": "markdown", "value": said}, "range": document.range(token.start, token.end)} if said else None


def of_name(raw: str, symbol: Symbol) -> str:
    """The meaning of a name by the glossary; of a macro its text and the comment above it, too."""
    meaning = glossary(raw).get(symbol.name, "") if symbol.kind not in ("parameter", "quantified") else ""
    if symbol.kind in KINDS:
        said = f"**{symbol.name}**: {KINDS[symbol.kind]}"
    else:
        said = f"```dc\n{utf8(raw[symbol.whole[0]:symbol.whole[1]])}\n```"
        meaning = meaning or utf8(block_above(raw, symbol.whole[0]))
    return said + (f"\n\n{escaped(meaning)}" if meaning else "")


def of_pattern(word: str, names: Names) -> Optional[str]:
    """The sentence of a pattern, where the text uses its file."""
    found = library.pattern(word) if any(token.text.endswith(f'{word}.dc"') for token in names.files) else None
    return f"**{word}** ({', '.join(found.parameters)})\n\n{escaped(found.fields['sentence'])}\n\nAt the end: {escaped(found.fields['end'])}" if found else None


def of_goal(analysis: Analysis) -> str:
    summary = analysis.summary()
    if summary is None:
        return "The text has a fault." if analysis.done.is_set() else "Being decided .."
    said, verdict = [f"**{summary}**"], analysis.verdict
    for title, word in ((("A shortest behaviour that breaks it", verdict.counterexample), ("A shortest behaviour that satisfies it", verdict.example),
                         ("A behaviour that cannot go on", analysis.stuck)) if verdict and analysis.text else ()):
        lines = waves(parse(analysis.text or "").variables, word, WIDTH) if word else []
        if 0 < len(lines) <= MOST_LINES:
            said.append(heading(title, word or []) + "\n```text\n" + "\n".join(lines) + "\n```")
    return "\n\n".join(said)


def lens(document: Document, analysis: Optional[Analysis]) -> List[Message]:
    """The verdict in a line above the goal."""
    summary = analysis.summary() if analysis else None
    if analysis and summary is None and not analysis.done.is_set():
        summary = "being decided .."
    return [{"range": document.range(*goal(document.raw)), "command": {"title": summary, "command": ""}}] if summary else []


def actions(document: Document, params: Message, analysis: Optional[Analysis], client: Message) -> List[Message]:
    """The changes after each of which no fault is left, where the text is still the one that was asked about."""
    if analysis is None or analysis.document.version != document.version:
        return []
    found = []
    for diagnostic, repair in analysis.fixes:
        if overlap(diagnostic["range"], params["range"]):
            change = {"documentChanges": [{"textDocument": {"uri": document.uri, "version": document.version}, "edits": [document.edit_to(repair.text)]}]}
            title = utf8(repair.phrase[:1].upper() + repair.phrase[1:])
            found.append({"title": title, "kind": "quickfix", "diagnostics": [diagnostic], "isPreferred": len(analysis.fixes) == 1,
                          "edit": edit_of(client, change)})
    return found


def overlap(one: Message, other: Message) -> bool:
    def key(position: Message) -> Tuple[int, int]:
        return position["line"], position["character"]
    return key(one["start"]) <= key(other["end"]) and key(other["start"]) <= key(one["end"])


def escaped(text: str) -> str:
    """A text in which Markdown means nothing."""
    return re.sub(r"([\\`*_{}\[\]<>#|])", r"\\\1", text)
