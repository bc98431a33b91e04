"""What the program's faults mean, and what a person may have wanted to write there."""
import re
from typing import Callable, List, Sequence, Tuple

import limits
from spots import Spot
from words import ANY_COUNT, ANY_MEASURE, LENGTH, MEASURES, MOMENTS

FORMULAS = (*MEASURES, *MOMENTS, "<", "[", "[[", "<>", "[]", "^")  # what begins or joins formulas alone

# Hints at a syntax fault: each is asked in turn of the text after it (`rest`), the token there (`word`) and the text before it (`ahead`).
SYNTAX: Sequence[Tuple[Callable[[str, str, str], object], str]] = (
    (lambda rest, word, ahead: re.match(r'const\s+\w+\s*=|use\s+"', rest), "const and use are for ./ask expand, which writes a file of the language."),
    (lambda rest, word, ahead: re.search(r"\b[GFX]\s*\([^()]*$|\b[GFX]\s+\S*$", ahead) or word in ("U", "W", "R", "S"),
     'There are no G, F, X and U. "Always p" is [[p]], "at some time q" is <><q>; ./ask patterns has what is said of p, q and their order.'),
    (lambda rest, word, ahead: word.isdigit() and re.search(r"\b\w+\s*\((.*,)?$", ahead) and not re.search(rf"\b({ANY_MEASURE}|infer|as)\s*\($", ahead),
     "Arguments are propositions. In a source of ./ask expand they may be numbers, where the macro has them in the place of one."),
    (lambda rest, word, ahead: word in ("infer", "define", "prop") and re.search(r"\bvar\s[^;]*,$", ahead),
     "After the last name stands a ; and no comma: var p, q;"),
    (lambda rest, word, ahead: rest.startswith("->"), 'Write => for "implies".'),
    (lambda rest, word, ahead: word in "+-" and not re.search(r"(^|\W)(infer|as)$|[(\]>})]$", ahead),
     "There is no arithmetic (./ask expand writes out sums), and no - in names: write _ there. In brackets -p is p one instant earlier and +p one later, as in [[-p]]."),
    (lambda rest, word, ahead: re.search(r"infer(\W.*)?;$", ahead, re.A), "A file has one goal, and nothing after it."),
    (lambda rest, word, ahead: word in ("=>", "=") and re.search(rf"\b({LENGTH}|({ANY_COUNT})\s+\S+)$", ahead) and rest[:2] in ("=>", "=<"),
     'The relation "at least" is written >=, and "at most" <=.'),
    (lambda rest, word, ahead: word in ("=>",) and re.search(rf"({ANY_COUNT})\s+[^<>=]*$|{LENGTH}$", ahead), 'The relation "at least" is written >=.'),
    (lambda rest, word, ahead: rest.startswith("!=") or word == "=" and ahead.endswith("!"), "There is no !=. Write !(slen = 3), for example."),
    (lambda rest, word, ahead: word in ("=", ">", "<") and re.search(rf"\b({ANY_MEASURE})\b[^<>=]*[=<>]$", ahead), "Relations are =, <, <=, > and >=."),
    (lambda rest, word, ahead: word in ("[", "(", "[[", "<") and re.search(rf"\b({ANY_MEASURE})$", ahead),
     "A count is written scount p >= 2, and slen >= 2 has no proposition."),
    (lambda rest, word, ahead: re.search(rf"({ANY_COUNT})[ \t]+[A-Za-z0-9_!]+$", ahead),
     "A proposition with operators needs parentheses there: scount (p && q) >= 2."),
    (lambda rest, word, ahead: re.search(rf"({LENGTH}|({ANY_COUNT})\s.*)(<|>|=)$", ahead) and word[:1].isalpha(),
     "A count is compared with a number alone; ./ask expand writes out constants and sums."),
    (lambda rest, word, ahead: re.search(r"(\]|\}\}|>|\)|\bpt|\bext|\btrue|\bfalse|[0-9])$", ahead) and word in ("[", "[[", "<", "{{", "(", "[]", "<>", "!"),
     "Between two formulas stands an operator: D ^ E is first D and then E, and D && E is both on the same interval."),
    (lambda rest, word, ahead: word in ("var", "define", "prop"), "Variables come first, then macros, then the goal."),
    (lambda rest, word, ahead: word in ("ex", "all"), "A quantified formula that is an operand needs parentheses: (ex p. <p>) ^ <q>."),
    (lambda rest, word, ahead: re.search(r"(^|\W)(\[|\[\[|<|\{\{)[^\]>}]*$", ahead) and word in FORMULAS,
     "In brackets stands a proposition, which is true or false at an instant; this is a formula, which is judged on an interval."),
)

BYTES = (
    ("&", 'Write && for "and".'), ("|", 'Write || for "or".'), ("{}", "Braces come in pairs: {{p}} is two instants with p at the first."),
    ("~", 'Write ! for "not".'), ("/", "A comment is // and the rest of the line; there is no /* */ and no division."),
    ("#", "A comment begins with //."), ("_", "A name begins with a letter; after that it may have letters, digits and _."),
    ("'\"", "There are no quoted texts and no characters."),
)

# Kinds of faults that mean the same wherever they stand; the word at the place is put in.
OTHERS = {
    "number": [f"A number is {limits.NUMBER} at most."],
    "nest": [f"More than {limits.NESTED} of the tokens ( ! <> [] ex all => * - + are one inside another in one definition or in the goal. Give parts of it names "
             "of their own by define."],
    "length": [f"A file has {limits.FILE_BYTES} bytes at most."],
    "many": [f"There may be {limits.VARIABLES} variables, {limits.MACROS} macros, and {limits.PARAMETERS} parameters of a macro; this is one more."],
    "duplicate": ["The name {word} stands a second time in its list."],
    "taken": ["The name {word} is that of a variable or a macro already."],
    "unknown": ["The name {word} means nothing here.",
                "  Is it spelt as it was declared? A macro sees the variables, its own parameters, and the macros before it."],
    "arity": ["The macro {word} is used with another number of arguments than it has parameters."],
    "size": [f"The goal, with each macro in the place of its call, has more than {limits.GOAL_NODES} nodes."],
    "depth": [f"The goal, with each macro in the place of its call, nests more than {limits.GOAL_DEPTH} nodes one below another."],
    "names": [f"The files have {limits.JOINT_NAMES} names at most together; {{word}} is one more."],
    "slots": [f"Declared variables, those of all files where there are several, different prior and next propositions, and quantifiers that stand one inside another, are more than {limits.SLOTS} together."],
    "shift": ["A quantified variable has no value of its own at another instant: -P and +P may look at declared variables alone."],
}

MESSAGES = (
    (r"fault declarations", "Both files have to declare the same variables in the same order."),
    (r"fault outputs", f"The first variables, as many as --inputs says, are the inputs: that is more than the file declares, or it leaves more than {limits.OUTPUTS} outputs."),
    (r"budget .* in product", "Each of the two automata is within the limit, but what is compared has a state for each pair that a behaviour leads to."),
    (r"budget tuples ", f"More tuples of states, one of each file, are reached before an answer; --tuples N sets the limit (up to {limits.TUPLES})."),
    (r"fault write", "The report could not be written: the disk is full, or the reader of the output has gone."),
    (r"fault memory", "Memory ran out. A smaller --states, --nodes or --tuples ends such a run with the step that is too large."),
    (r"fault line ", "That line of the trace, counted from 1, is no instant: a 0 or 1 for each input of the observer, or - where it has none."),
    (r"fault trace empty", "The trace has no line."),
    (r"fault trace length", f"A trace has {limits.TRACE_LINES} lines at most."),
    (r"fault observer length", "An observer has 134217728 bytes at most."),
    (r"fault automaton length", "The text of an automaton has 134217728 bytes at most."),
)


def of_fault(kind: str, spot: Spot) -> List[str]:
    """The lines that say what a fault of a formula file means."""
    word = spot.token()
    if kind == "byte":
        return of_byte(spot)
    if kind == "syntax":
        return of_syntax(spot, word)
    if kind == "name":
        return [f"A word has {limits.NAME} characters at most; this one has {len(word)}."]
    if kind == "kind":
        return of_kind(spot, word)
    return [line.format(word=word) for line in OTHERS.get(kind, [])]


def of_byte(spot: Spot) -> List[str]:
    first, lines = spot.rest[:1], ["No token of the language begins with this character."]
    if spot.begins_with_mark:
        return lines + ["  The file begins with a byte order mark (the bytes EF BB BF). Save it without one."]
    if first == "_" and re.search(r"[0-9]$", spot.front):
        return lines + [f"  A number is digits alone, and {limits.NUMBER} at most."]
    if first == ":" and re.search(r"\b(ex|all)\s+\w+$", spot.before()[0]):
        return lines + ["  Behind a quantified name stands a full stop: ex q. [[q]]"]
    if first == ":":
        return lines + ["  Variables have no types: all are true or false. A definition is: define f(a) as [[a]];"]
    if first >= "\x80":
        return lines + ["  It is no ASCII character. Names and operators are ASCII; other characters may stand in comments alone."]
    return lines + [f"  {hint}" for characters, hint in BYTES if first in characters]


def of_syntax(spot: Spot, word: str) -> List[str]:
    if spot.at_end:
        return ["The text ends before the file is whole.",
                "  A file ends with a goal, as in: infer [[p]]; - is its ; missing, or a bracket not closed?"]
    ahead, row = spot.before()
    lines = ["No file goes on with this after what stands before it."]
    if ahead and not spot.rest.startswith("->") and row < spot.row and not ahead.endswith(";") and not re.search(r"([&|^=<>(,.!*+-]|\bas|\binfer)$", ahead):
        return lines + [f"  Is a ; missing at the end of line {row}?"]
    for applies, hint in SYNTAX:
        if applies(spot.rest, word, ahead):
            return lines + [f"  {hint}"]
    return lines


def of_kind(spot: Spot, word: str) -> List[str]:
    """A name of another kind: what it was made by says how it is written."""
    made = re.findall(r"\b(define|prop)\s+%s\b" % re.escape(word), re.sub(r"//[^\n]*", "", spot.text[:spot.place]))
    lines = [f"The name {word} stands for another kind of thing than its place asks for."]
    if made == ["define"]:
        return lines + [f"  {word} was made by define, so it is a formula, which is judged on an interval and stands in no brackets."]
    if made == ["prop"]:
        return lines + [f"  {word} was made by prop, so it is a proposition, true or false at an instant: it stands in brackets, as [[{word}]]."]
    return lines + [f"  A variable is true or false at an instant, and a formula is judged on an interval: write <{word}>, [[{word}]] or <><{word}>."]


def of_budget(what: str, limit: int, step: int) -> List[str]:
    most = limits.STATES if what == "states" else limits.NODES
    return [f"Step {step} of the formula, whose part of the text begins here, needs more than {limit} {what}.",
            f'  docs/LANGUAGE.md, "The budget", says what helps; --{what} N sets the limit (up to {most}).']


def of_message(message: str) -> List[str]:
    """What a line means that names no place in a formula file."""
    return [f"{hint}" for pattern, hint in MESSAGES if re.match(pattern, message)][:1]
