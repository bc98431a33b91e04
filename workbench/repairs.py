"""The tokens that may stand where a fault is, and the texts that one change repairs. Each answer is the program's.

`fault syntax at N` names the first token that no file goes on with, so a token may stand at N exactly where the text before N with
that token after it has no fault there. A change is told only where the program finds no fault in the whole changed file.
"""
import difflib
import itertools
import re
from typing import Callable, Dict, Iterator, List, NamedTuple, Sequence, Tuple, Union

import limits
from language import TOKEN, Token, tokens_before
from words import BRACKETS, RELATIONS, RESERVED
from program import Fault, Program
from spots import shown


class Repair(NamedTuple):
    """A change: its phrase, such as `write && for and`, in which HERE is for the token, and the whole text after it."""

    pattern: str
    token: str
    text: str

    @property
    def phrase(self) -> str:
        return self.pattern.replace(HERE, self.token)


NAME, NUMBER = "a name", "a number"
MARKS = "; , . ( ) [ ] [[ ]] < > {{ }} ! - + && || => <=> ^ * <> [] = <= >=".split()
ROOM = 16  # bytes that a question adds to the text before a place
HERE = "\0"  # where the tokens of phrases of one shape go
FILLERS = (NAME, NUMBER, "true", "false", "pt", "ext", "*")  # what fits without saying anything
OPERATORS = "^ && || => <=> *".split()
ENDS = ") ] ]] > }} , . ;".split()
FORMULAS = "< [ [[ {{ <> [] ! ( slen scount sdur pt ext true false ex all".split()
PROPOSITIONS = "! - + ( true false".split()

# What other notations write, and what is written here for it.
FOREIGN: Dict[str, List[str]] = {
    "and": ["&&"], "or": ["||"], "not": ["!"], "implies": ["=>"], "iff": ["<=>"], "xor": [], "AND": ["&&"], "OR": ["||"], "NOT": ["!"],
    "&": ["&&"], "|": ["||"], "~": ["!"], "->": ["=>"], "<->": ["<=>"], "==": ["<=>", "="], "==>": ["=>"], "-->": ["=>"], "&&&": ["&&"],
    "|||": ["||"], "=<": ["<="], "=>": [">="], "forall": ["all"], "exists": ["ex"], "A": ["all"], "E": ["ex"], ":": [".", "as"], ":=": ["as"],
    "=": ["as", "<=>"], "#": ["//"], "--": ["//"], "let": ["define"], "goal": ["infer"], "assert": ["infer"], "check": ["infer"],
    "bool": ["var"], "input": ["var"],
    "True": ["true"], "False": ["false"], "TRUE": ["true"], "FALSE": ["false"], "length": ["slen"], "len": ["slen"], "count": ["scount"],
}
# Pieces around a fault that other notations write, and what is written here for them.
REWRITES: Sequence[Tuple[str, Union[str, Callable[["re.Match[str]"], str]]]] = (
    (r"/\*.*?\*/", " "),
    *((re.escape(mark.encode().decode("latin-1")), written) for mark, written in (
        ("\u2264", "<="), ("\u2265", ">="), ("\u00ac", "!"), ("\u2227", "&&"), ("\u2228", "||"), ("\u2192", "=>"), ("\u21d2", "=>"),
        ("\u2194", "<=>"), ("\u21d4", "<=>"), ("\u2203", "ex"), ("\u2200", "all"), ("\u25c7", "<>"), ("\u25a1", "[]"))),
    (r"\bcount(?=\s+[\w(!])", "scount"), (r"\b(?:dur|duration)(?=\s+[\w(!])", "sdur"),
    (r"\b\d+(?:_\d+)+\b", lambda match: match.group().replace("_", "")),
    (r",\s*(?=(?:infer|define|prop)\b)", "; "),
    (r"(slen|(?:scount|sdur)\s*(?:[A-Za-z]\w*|\([^()]*\)))\s*(?:!=|<>|/=)\s*([0-9]+)", r"!(\1 = \2)"),
    (r"([A-Za-z]\w*)\s*(?:!=|/=)\s*([A-Za-z]\w*)", r"!(\1 <=> \2)"),
    (r"[A-Za-z]\w*(?:-[A-Za-z]\w*)+", lambda match: match.group().replace("-", "_")),
    (r"(scount|sdur)\s+([A-Za-z]\w*\s*(?:&&|\|\||=>|<=>)\s*[^()<>=]*?[\w)])(?=\s*(?:<|>|=))", r"\1 (\2)"),
    (r"==+", "="), (r"==+", "<=>"),
    (r"(?<!\{)\{([^{}]*)\}(?!\})", r"{{\1}}"),
    (r"\[\[\s*<([^<>]*)>\s*\]\]", r"[[\1]]"),
    (r":\s*(?:bool|boolean|bit|int|BOOL)\b", ""),
    (r"\bforall(?=\s+\w+\s*\.)", "all"), (r"\bexists(?=\s+\w+\s*\.)", "ex"),
    (r"\b(?:ex|all)\s+\w+\s*\.[^;]*[^;\s]", r"(\g<0>)"),
)


def may_stand(program: Program, text: str, place: int) -> List[str]:
    """The tokens that may stand at a place that no token before it is a fault of."""
    front = text[:place] + "\n"
    found = []
    for token in (NAME, NUMBER, *RESERVED, *MARKS):
        written = {NAME: "x", NUMBER: "1"}.get(token, token)
        fault = program.fault(front + written + "\n$")
        if fault is None or (fault.kind, fault.place) not in (("syntax", place + 1), ("nest", place + 1)):
            found.append(token)
    return found


def names_that_fit(text: str, place: int, tokens: Sequence[str]) -> List[str]:
    """The names in sight that a proposition or a formula at this place may begin with."""
    statements: List[List[str]] = [[]]
    for token in tokens_before(text, place)[0]:
        if token.text == ";":
            statements.append([])
        else:
            statements[-1].append(token.text)
    named: Dict[str, List[str]] = {"var": [], "prop": [], "define": []}
    for head, *words in filter(None, statements[:-1]):
        if head in named:
            named[head] += [word for word in words if word != ","] if head == "var" else words[:1]
    here = statements[-1]
    local = [name for word, name in zip(here, here[1:]) if word in ("ex", "all")]
    if here[:1] in (["define"], ["prop"]) and here[2:3] == ["("] and ")" in here:
        local += [word for word in here[3:here.index(")")] if word != ","]
    if "-" in tokens:
        return list(dict.fromkeys(local + named["var"] + named["prop"]))
    return named["define"] if "<>" in tokens else []


def spoken(text: str, place: int, tokens: Sequence[str]) -> str:
    """What may stand at a place, in groups, as one phrase."""
    left = [token for token in tokens if token not in (NAME, NUMBER)]
    before = [token.text for token in tokens_before(text, place)[0]][-1:]
    if "(" in left and NAME not in tokens and before and not re.search(r"\b(define|prop)\s+%s\b" % re.escape(before[0]), text):
        left.remove("(")  # the arguments of what has no parameters
    names, parts = names_that_fit(text, place, tokens), []

    def group(title: str, members: Sequence[str], also: Sequence[str] = ()) -> None:
        found = [token for token in members if token in left]
        if found or also:
            parts.append(" ".join([title, *also, *found]))
            left[:] = [token for token in left if token not in found]

    if "<>" in tokens:
        group("a formula", FORMULAS, _few(names))
    elif "-" in tokens:
        group("a proposition", PROPOSITIONS, _few(names))
    elif NAME in tokens:
        parts.append("a new name")
    if NUMBER in tokens:
        parts.append(f"a number 0 .. {limits.NUMBER}")
    if "=" in left:
        group("a comparison", RELATIONS)
    group("an operator", OPERATORS)
    group("a list of parameters or arguments", ["("])
    group("an end", ENDS)
    group("a word", RESERVED)
    group("also", MARKS)
    return ", ".join(parts) or "the end of the text"


def _few(names: List[str]) -> List[str]:
    return names if len(names) <= 6 else names[:5] + [".."]


def repairs(program: Program, text: str, fault: Fault, tokens: Sequence[str] = ()) -> List[Repair]:
    """The changes after each of which the program finds no fault; the likeliest alone where one is likely."""
    if fault.kind in ("syntax", "byte"):
        likely, others = _token_changes(text, fault.place, tokens)
    else:
        likely, others = _name_changes(text, fault), []
    for repair in itertools.chain(_rewritten(text, fault.place), likely):
        if program.fault(repair.text) is None:
            return [repair]
    return [repair for repair in others if program.fault(repair.text) is None]


def _rewritten(text: str, place: int) -> Iterator[Repair]:
    """The text with a piece of another notation around the place put right, there alone or everywhere."""
    start = text.rfind("\n", 0, place) + 1
    end = (text + "\n").index("\n", place)
    for pattern, new in REWRITES:
        for match in re.finditer(pattern, text[start:min(end, start + 10_000)], re.S | re.A):
            if match.start() <= place - start <= match.end() + 1:
                written, piece = re.sub(pattern, new, match.group(), 1, re.S | re.A) if callable(new) else match.expand(new), match.group()
                phrase = f"write {written.strip()} for {shown(piece.strip())}" if written.strip() else f"leave out {shown(piece)}"
                yield Repair(phrase, "", text[:start + match.start()] + written + text[start + match.end():])
                if text.count(piece) > 1:
                    yield Repair(phrase + " everywhere", "", text.replace(piece, written))


def _token_changes(text: str, place: int, tokens: Sequence[str]) -> Tuple[List[Repair], List[Repair]]:
    """Changes at a token: the likely ones, and all others."""
    match = TOKEN.match(text, place)
    token = match.group() if match and match.group("blank") is None else text[place:place + 1]
    found = re.match(r"[-=<>!&|~^+*/%:]+|[A-Za-z]\w*", text[place:])
    piece = found.group() if found else token
    fit = names_that_fit(text, place, tokens)[:4]
    usual = fit + [mark for mark in tokens if mark not in FILLERS] + ([NUMBER] if NUMBER in tokens else [])
    likely = [Repair(f"write {new} for {old}", new, text[:place] + new + text[place + len(old):])
              for old in dict.fromkeys((piece, token)) if old for new in FOREIGN.get(old, [])]
    behind = tokens_before(text, place)[0]
    where = f"before {token}" if token.strip() else "at the end"
    fresh_line = bool(behind) and "\n" in text[behind[-1].end:place]
    if fresh_line or not token.strip():
        likely += [Repair(f"put ; {'after ' + behind[-1].text if behind else where}", ";", _put(text, behind, ";"))]
    others = []
    for new in usual:
        written = " 1 " if new == NUMBER else f" {new} "
        others.append(Repair(f"put {HERE} {where}", new, text[:place] + written + text[place:]))
        for old in dict.fromkeys((token, piece)):
            if old.strip():
                others.append(Repair(f"write {HERE} for {old}", new, text[:place] + written + text[place + len(old):]))
    for old in dict.fromkeys((token, piece)):
        if old.strip():
            others.append(Repair(f"leave out {old}", "", text[:place] + " " + text[place + len(old):]))
    if behind and behind[-1].text != token:
        last = behind[-1]
        others.append(Repair(f"leave out {last.text} in front of it", "", text[:last.start] + " " + text[place:]))
    return likely, others


def _put(text: str, behind: Sequence[Token], new: str) -> str:
    end = behind[-1].end if behind else 0
    return text[:end] + new + text[end:]


def _name_changes(text: str, fault: Fault) -> List[Repair]:
    """Changes of a name that is unknown, or that stands for another kind of thing than its place asks for."""
    match = re.match(r"[A-Za-z]\w*(\s*\([^()]*\))?", text[fault.place:])
    if match is None:
        return []
    name = re.split(r"\W", match.group(), maxsplit=1)[0]
    end = fault.place + match.end()
    found = []
    if fault.kind == "unknown":
        known = sorted({token.text for token in tokens_before(text, fault.place)[0] if token.text[0].isalpha()} - set(RESERVED) - {name})
        for new in FOREIGN.get(name, []) + difflib.get_close_matches(name, known, 3, 0.6):
            found.append(Repair(f"write {new} for {name}", new, text[:fault.place] + new + text[fault.place + len(name):]))
    elif fault.kind == "kind":
        call = match.group()
        for opening, closing in (("[[", "]]"), ("<><", ">")):
            found.append(Repair(f"write {opening}{call}{closing} for {call}", "", text[:fault.place] + opening + call + closing + text[end:]))
        for opening, closing in sorted(BRACKETS.values(), key=lambda pair: -len(pair[0])):
            front, rest = text[:fault.place].rstrip(), text[end:].lstrip()
            if front.endswith(opening) and rest.startswith(closing):
                bare = front[:-len(opening)] + call + rest[len(closing):]
                found.insert(0, Repair(f"write {call} for {opening}{call}{closing}", "", bare))
    return found


def phrases(found: Sequence[Repair]) -> List[str]:
    """Repairs in words, those of one shape together: `put ^, && or || before [`."""
    shapes: Dict[str, List[str]] = {}
    for repair in found:
        shapes.setdefault(repair.pattern, []).append(repair.token)
    told = []
    for pattern, tokens in shapes.items():
        tokens = [token for token in dict.fromkeys(tokens) if token]
        spoken_tokens = ", ".join(tokens[:-1]) + (" or " if len(tokens) > 1 else "") + tokens[-1] if tokens else ""
        told.append(pattern.replace(HERE, spoken_tokens))
    return told[:4]
