"""Formatting: the blanks between the tokens of each line, and nothing else: line breaks, comments and parentheses stay.

A tree has no comments and no line breaks, so its text is of no use here. A formatted text has the tokens of the other one.
"""
import re
from typing import Dict, List, Optional, Sequence, Set

from language import Token
from shapes import Tokens, is_name, is_number
from words import BRACKETS, LENGTH, MEASURES

OPENING = ("(", *(opening for opening, _ in BRACKETS.values() if opening != "<"))  # < is a relation too
CLOSING = (")", *(closing for _, closing in BRACKETS.values() if closing != ">"), ",", ";", ".", "*")
PREFIX = ("!", "<>", "[]", "-", "+")
HEADS = ("var", "define", "prop", "infer", "const", "use")


def operators(tokens: Sequence[Token]) -> Set[int]:
    """The numbers of the tokens of which the text alone does not say that they are between two others: the relations of slen, scount and
    sdur, of which < and > are brackets elsewhere, and the + and - of sums."""
    found = {at for at, token in enumerate(tokens) if at and token.text in ("+", "-") and (is_name(tokens[at - 1].text) or is_number(tokens[at - 1].text))}
    return found | {relation_after(tokens, at) for at, token in enumerate(tokens) if token.text in MEASURES}


def relation_after(tokens: Sequence[Token], at: int) -> int:
    """The number of the relation of a measure: after slen at once, and else after its operand, a name, a call or a parenthesis."""
    if tokens[at].text == LENGTH:
        return at + 1
    first = next((place for place in range(at + 1, len(tokens)) if tokens[place].text not in PREFIX), len(tokens))
    depth = 0
    for place in range(first, len(tokens)):
        depth += (tokens[place].text == "(") - (tokens[place].text == ")")
        if depth <= 0 and tokens[place].text != ")" and place > first:
            return place
    return len(tokens)


def formatted(text: str) -> Optional[str]:
    """The text with the blanks of each line put right; None where that would change a token."""
    tokens = Tokens("", "", text).tokens
    between, rows = operators(tokens), rows_of(text, tokens)
    lines, is_open = [], False
    for number, old in enumerate(text.split("\n")):
        row = rows.get(number, [])
        lines.append(written(old, [tokens[at] for at in row], [is_glued(tokens, at, between) for at in row], is_open))
        is_open = tokens[row[-1]].text != ";" if row else is_open
    made = re.sub(r"\n{3,}", "\n\n", "\n".join(lines)).strip("\n") + "\n"
    return made if [token.text for token in Tokens("", "", made).tokens] == [token.text for token in tokens] else None


def rows_of(text: str, tokens: Sequence[Token]) -> Dict[int, List[int]]:
    """For each line the numbers of its tokens."""
    found: Dict[int, List[int]] = {}
    line, seen = 0, 0
    for number, token in enumerate(tokens):
        line += text.count("\n", seen, token.start)
        seen = token.start
        found.setdefault(line, []).append(number)
    return found


def written(old: str, row: Sequence[Token], glued: Sequence[bool], is_open: bool) -> str:
    """A line: its tokens, and its comment after them or by itself."""
    line = "".join(("" if is_glued or not at else " ") + token.text for at, (token, is_glued) in enumerate(zip(row, glued)))
    if row and is_open and row[0].text not in HEADS:
        line = "  " + line
    match = re.match(r'(?:"[^"]*"|[^"/]|/(?!/))*(//.*)', old)
    if match is None:
        return line
    if not row:
        return (re.match(r"[ \t]*", old) or [""])[0] * is_open + match.group(1).rstrip()
    return f"{line}{'  ' if '  //' in old else ' '}{match.group(1).rstrip()}"


def is_glued(tokens: Sequence[Token], at: int, between: Set[int]) -> bool:
    """Whether no blank is before a token."""
    if at == 0:
        return True
    word, before = tokens[at].text, tokens[at - 1].text
    if word in CLOSING or word == ">" and at not in between:
        return True
    if before in OPENING or before == "<" and at - 1 not in between or before in PREFIX and at - 1 not in between:
        return True
    return word == "(" and is_name(before)
