"""What an editor asks about names and lines, answered without the program: definitions, uses, renaming, symbols, folds, formatting."""
import os
import re
from typing import Any, List, Optional

from documents import Document, path_of, uri_of
from glossary import glossary
from language import read_text
from layout import formatted
from protocol import Failed, Message
from scopes import Names, comments
from shapes import is_name
from spots import utf8
from sources import ROOT

# The kinds of LSP: of an item of completion, and of a symbol.
KINDS = {"variable": (6, 13), "define": (3, 12), "prop": (3, 12), "parameter": (6, 13), "quantified": (6, 13), "constant": (21, 14)}
NOWHERE = {"line": 0, "character": 0}


def used_path(uri: str, name: str) -> Optional[str]:
    """The file that `use` names: beside the text, or in the root of the repository."""
    for folder in (os.path.dirname(path_of(uri)), ROOT):
        path = os.path.normpath(os.path.join(folder, utf8(name)))
        if os.path.isfile(path):
            return path
    return None


def definition(document: Document, params: Message) -> Optional[Message]:
    names, place = Names(document.raw), document.offset(params["position"])
    paths = {file.start: used_path(document.uri, file.text.strip('"')) for file in names.files}
    for file in names.files:
        path = paths[file.start]
        if file.start <= place <= file.end:
            return {"uri": uri_of(path), "range": {"start": NOWHERE, "end": NOWHERE}} if path else None
    symbol, token = names.at(place), names.token_at(place)
    if symbol:
        return {"uri": document.uri, "range": document.range(*symbol.span)}
    for path in filter(None, paths.values()):
        other = Document(uri_of(path), read_text(path), 0)
        found = Names(other.raw).globals.get(token.text) if token else None
        if found and found.kind != "variable":
            return {"uri": other.uri, "range": other.range(*found.span)}
    return None


def references(document: Document, params: Message) -> List[Message]:
    symbol = Names(document.raw).at(document.offset(params["position"]))
    with_declaration = (params.get("context") or {}).get("includeDeclaration", True)
    return [{"uri": document.uri, "range": document.range(*use)} for use in symbol.uses if with_declaration or use != symbol.span] if symbol else []


def highlights(document: Document, params: Message) -> List[Message]:
    return [{"range": it["range"]} for it in references(document, {**params, "context": None})]


def prepare_rename(document: Document, params: Message) -> Optional[Message]:
    names, place = Names(document.raw), document.offset(params["position"])
    token = names.token_at(place)
    return {"range": document.range(token.start, token.end), "placeholder": token.text} if token and names.at(place) else None


def rename(document: Document, params: Message) -> Message:
    """The edits that give a name another spelling; Failed where a name would then stand for something else."""
    new, names = params["newName"], Names(document.raw)
    symbol = names.at(document.offset(params["position"]))
    if symbol is None:
        raise Failed("no name that this file declares is here")
    if not (re.fullmatch(r"\w{1,24}", new, re.A) and is_name(new)):
        raise Failed(f"{new} is no name: a letter, then letters, digits and _, 24 at most, and no word of the language")
    text = document.raw
    for start, end in sorted(symbol.uses, reverse=True):
        text = text[:start] + new + text[end:]
    after = Names(text)
    twice = [it.name for it in after.symbols if it.kind not in ("parameter", "quantified")]
    if after.shape() != names.shape() or symbol.kind not in ("parameter", "quantified") and twice.count(new) > 1:
        raise Failed(f"{new} is taken, or would be another name where it is used")
    return {"documentChanges": [{"textDocument": {"uri": document.uri, "version": document.version},
                                 "edits": [{"range": document.range(*use), "newText": new} for use in symbol.uses]}]}


def symbols(document: Document, _: Message) -> List[Message]:
    names, meanings = Names(document.raw), glossary(document.raw)
    found: List[Message] = []
    for it in names.symbols:
        if it.kind not in ("parameter", "quantified"):
            parameters = f"({', '.join(parameter.name for parameter in it.parameters)}) " if it.parameters else ""
            found.append({"name": it.name, "detail": (parameters + meanings.get(it.name, it.kind))[:80], "kind": KINDS[it.kind][1],
                          "range": document.range(*(it.span if it.kind == "variable" else it.whole)), "selectionRange": document.range(*it.span)})
    for statement in names.statements:
        if statement.head == "infer":
            start, end = statement.span
            found.append({"name": "infer", "kind": 24, "range": document.range(start, end), "selectionRange": document.range(start, start + 5)})
    return found


def folding(document: Document, _: Message) -> List[Message]:
    """Statements of several lines, and comments in lines of their own."""
    found: List[Message] = []
    for statement in Names(document.raw).statements:
        first, last = (document.position(place)["line"] for place in statement.span)
        found += [{"startLine": first, "endLine": last}] if last > first else []
    lines = {document.position(start)["line"] for start, _, alone in comments(document.raw) if alone}
    begins = sorted(line for line in lines if line - 1 not in lines)
    ends = sorted(line for line in lines if line + 1 not in lines)
    return found + [{"startLine": first, "endLine": last, "kind": "comment"} for first, last in zip(begins, ends) if last > first]


def formatting(document: Document, _: Message) -> List[Message]:
    made = formatted(document.raw)
    return [document.edit_to(made)] if made is not None and made != document.raw else []


def edit_of(client: Any, change: Message) -> Message:
    """An edit with its version, so that one of an older text does no harm; without it where the client takes none."""
    if ((client.get("workspace") or {}).get("workspaceEdit") or {}).get("documentChanges"):
        return change
    return {"changes": {it["textDocument"]["uri"]: it["edits"] for it in change["documentChanges"]}}
