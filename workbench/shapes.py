"""The tokens of a source, and the shapes that they have: parentheses, arguments, propositions, sums in the place of numbers."""
import re
from typing import Dict, List, Mapping, Optional, Set, Tuple

import language
import limits
from language import Token, natural
from words import COUNTS, MEASURES, RELATIONS, RESERVED

TOKEN = re.compile(language.TOKEN.pattern + r'|"[^"\n]*"')
MOST = limits.NUMBER


class SourceFault(Exception):
    """A fault of the notation, at a place of a source."""

    def __init__(self, source: "Tokens", place: int, message: str) -> None:
        super().__init__(message)
        self.source, self.place, self.message = source, place, message


def is_name(word: str) -> bool:
    return word[:1].isalpha() and word.isascii() and word not in RESERVED


def is_number(word: str) -> bool:
    return word.isascii() and word.isdigit()


class Tokens:
    """The text of a file as tokens. `shown` is its name in messages."""

    def __init__(self, path: str, shown: str, text: str) -> None:
        self.path, self.shown, self.text = path, shown, text
        self.tokens = self.read_tokens()

    def fault(self, at: int, message: str) -> SourceFault:
        """A fault at a token."""
        place = self.tokens[at].start if at < len(self.tokens) else len(self.text)
        return SourceFault(self, place, message)

    def read_tokens(self) -> List[Token]:
        found, at = [], 0
        while at < len(self.text):
            match = TOKEN.match(self.text, at)
            if match is None:
                found.append(Token(self.text[at], at, at + 1))  # the program tells that nothing begins there
                at += 1
                continue
            if match.group("blank") is None:
                found.append(Token(match.group(), at, match.end()))
            at = match.end()
        return found

    def word(self, at: int) -> str:
        return self.tokens[at].text if at < len(self.tokens) else ""

    def words(self, first: int, last: int) -> List[str]:
        return [token.text for token in self.tokens[first:last]]

    def nothing(self, at: int) -> Token:
        """An empty token after the one before `at`."""
        end = self.tokens[at - 1].end
        return Token("", end, end)

    def begins(self, at: int) -> bool:
        word, after = self.word(at), self.words(at + 1, at + 3)
        return word in ("var", "define", "prop", "infer") or word == "use" and after[:1] != [] and after[0][0] == '"' or \
            word == "const" and len(after) == 2 and after[1] == "="

    def quantified(self, first: int, last: int) -> Set[str]:
        return {self.word(at + 1) for at in range(first, last) if self.word(at) in ("ex", "all") and self.word(at + 2) == "."}

    # ---- shapes

    def closing(self, at: int, last: int) -> Optional[int]:
        """The number of the ) that belongs to the ( at `at`, or None."""
        depth = 0
        for place in range(at, last):
            depth += {"(": 1, ")": -1}.get(self.word(place), 0)
            if depth == 0:
                return place
        return None

    def arguments(self, at: int, last: int) -> List[Tuple[int, int]]:
        """The arguments in the parentheses at `at` as ranges of tokens; none where there are none."""
        close = self.closing(at, last) if self.word(at) == "(" else None
        if close is None:
            return []
        found, first, depth = [], at + 1, 0
        for place in range(at + 1, close + 1):
            word = self.word(place)
            if place == close or word == "," and depth == 0:
                found.append((first, place))
                first = place + 1
            depth += {"(": 1, ")": -1}.get(word, 0)
        return found

    def operand_end(self, at: int, last: int) -> int:
        """Where the proposition after scount or sdur ends; at `last` where there is none."""
        while self.word(at) in ("!", "-", "+"):
            at += 1
        if is_name(self.word(at)) or self.word(at) in ("true", "false"):
            at += 1
        elif self.word(at) != "(":
            return last
        if self.word(at) == "(":
            close = self.closing(at, last)
            return last if close is None else close + 1
        return at

    def number_places(self, first: int, last: int) -> Dict[int, int]:
        """Where numbers stand after slen, scount and sdur: the first token of each, and the end."""
        found = {}
        for at in range(first, last):
            if self.word(at) in MEASURES:
                relation = self.operand_end(at + 1, last) if self.word(at) in COUNTS else at + 1
                if self.word(relation) in RELATIONS and re.match(r"\w", self.word(relation + 1) or "?"):
                    end = relation + 2
                    while self.word(end) in ("+", "-") and re.match(r"\w", self.word(end + 1) or "?"):
                        end += 2
                    found[relation + 1] = end
        return found

    def number(self, at: int, last: int, values: Mapping[str, int]) -> Tuple[int, int]:
        """The value of the sum that begins at `at`, and where it ends."""
        value, sign, begin = 0, 1, at
        while True:
            word = self.word(at) if at < last else ""
            if is_number(word):
                value += sign * natural(word)
            elif word in values:
                value += sign * values[word]
            else:
                raise self.fault(at, f"{word} is no constant, and no number of this macro" if word and is_name(word) else "a number is expected here")
            at += 1
            if at >= last or self.word(at) not in ("+", "-"):
                break
            sign = 1 if self.word(at) == "+" else -1
            at += 1
        if not 0 <= value <= MOST:
            raise self.fault(begin, f"this is {value}, and a number is 0 to {MOST}")
        return value, at
