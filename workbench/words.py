"""The words and signs of formula files, each named once: a measure, a bracket or an operator that is added here is known to the tokens, the hints and the layout."""
from typing import Dict, Tuple

COUNTS = ("scount", "sdur")  # of a proposition, with a relation and a number
LENGTH = "slen"  # with a relation and a number alone
MEASURES = (LENGTH, *COUNTS)
MOMENTS = ("pt", "ext")  # formulas that are one word
CONSTANTS = ("true", "false")
QUANTIFIERS = ("ex", "all")
RESERVED = ("var", "define", "prop", "as", "infer", *QUANTIFIERS, *CONSTANTS, *MOMENTS, *MEASURES)
RELATIONS = ("=", "<", "<=", ">", ">=")
# The operators of lists, the signs before an operand, and the brackets of each kind.
LISTS = {"iff": "<=>", "or": "||", "and": "&&", "chop": "^", "p_iff": "<=>", "p_or": "||", "p_and": "&&"}
PREFIXES = {"not": "!", "diamond": "<>", "box": "[]", "p_not": "!", "prior": "-", "next": "+"}
BRACKETS: Dict[str, Tuple[str, str]] = {"point": ("<", ">"), "run": ("[", "]"), "every": ("[[", "]]"), "unit": ("{{", "}}")}
ANY_COUNT = "|".join(COUNTS)  # for regular expressions
ANY_MEASURE = "|".join(MEASURES)
