"""The page of `report`: its head, the index, the requirements together, the signals, a chapter for each requirement, and who answered."""
import re
from collections import Counter
from typing import TYPE_CHECKING, Dict, Iterator, List, Sequence, Tuple

from asked import Finding
from joined import Requirement, names_of
from markup import badge, code, figure, figures, items, prose, table, tag
from pictures import escaped
from report_chapter import TOGETHER, Chapter, chapter
from report_style import style
from sets_report import all_of, grouped, sentence, unasked_lines, what_follows

if TYPE_CHECKING:
    from sets import Answers

ORDER = ("bad", "warn", "none", "ok")
POLICY = "default-src 'none'; style-src 'unsafe-inline'"
Apart = List[Tuple[Requirement, Sequence[Requirement], Sequence[str]]]  # a requirement, the others, and a behaviour that keeps to these


def anchors(requirements: Sequence[Requirement]) -> List[str]:
    """An id of each for links, which stays the same as long as its id, or its name where it has none."""
    found: List[str] = []
    for it in requirements:
        base = "r-" + re.sub(r"[^A-Za-z0-9_.-]+", "-", it.id or it.name).strip("-")
        same = sum(other == base or other.startswith(base + "--") for other in found)
        found.append(f"{base}--{same + 1}" if same else base)
    return found


def page(title: str, date: str, made: str, chapters: Sequence[Chapter], answers: "Answers", apart: Dict[Finding, Apart]) -> str:
    """The page as HTML; `made` says which program answered."""
    body = [tag("a", "To the contents", class_="unseen", href="#main"), head(title, date, chapters), '<main id="main">']
    if len(chapters) > 1:
        body += [index(chapters), together(chapters, answers, apart), glossary(chapters)]
    body += [chapter(it, chapters, answers.inputs) for it in chapters]
    body += ["</main>", foot(made)]
    return ('<!DOCTYPE html>\n<html lang="en">\n<head>\n<meta charset="utf-8">\n<meta name="viewport" content="width=device-width,initial-scale=1">\n'
            f'<meta http-equiv="Content-Security-Policy" content="{POLICY}">\n<title>{escaped(title)}</title>\n<style>{style()}</style>\n</head>\n'
            "<body>\n" + "\n".join(body) + "\n</body>\n</html>\n")


def head(title: str, date: str, chapters: Sequence[Chapter]) -> str:
    names = {name for it in chapters for name in it.it.variables}
    facts = [f"{len(chapters)} requirements"] * (len(chapters) > 1) + [f"{len(names)} signal{'s' * (len(names) != 1)}"] * bool(names) + [date] * bool(date)
    counts = sorted(Counter(it.status for it in chapters).items(), key=lambda it: (ORDER.index(it[0][0]), it[0][1]))
    marks = "".join(tag("li", badge(kind, f"{number} {word}")) for (kind, word), number in counts)
    counted = tag("ul", marks, class_="counts", aria_label="How many requirements have each status") if len(chapters) > 1 else ""
    return tag("header", tag("h1", escaped(title)) + tag("p", escaped(", ".join(facts)), class_="soft") + counted)


def foot(made: str) -> str:
    return tag("footer", tag("p", f"The verdicts and behaviours are the answers of {escaped(made)}.") + tag(
        "p", "The workbench asked for them and made this page; the workbench is not proved. An instant is one step of time. A behaviour is the values "
        "of the signals at the instants 0, 1, 2 and so on, up to its last one. In a picture a wave is high where the signal is true; "
        "&ldquo;5 more&rdquo; is for 5 instants that are all equal to the one before them."))


def index(chapters: Sequence[Chapter]) -> str:
    rows = [[it.link, badge(*it.status), prose(first_sentence(it.it.sentence)), str(it.automaton.states) if it.automaton else ""] for it in chapters]
    return tag("nav", tag("h2", "Index") + table(("requirement", "status", "sentence", "states"), rows, "Requirements"), aria_label="Requirements")


def first_sentence(text: str) -> str:
    return re.split(r"(?<=[.;]) ", text)[0]


def glossary(chapters: Sequence[Chapter]) -> str:
    """All signals with their meanings and the requirements that have them."""
    uses: Dict[str, List[Chapter]] = {}
    for it in chapters:
        for name in it.it.variables:
            uses.setdefault(name, []).append(it)
    meanings = {name: "<br>".join(dict.fromkeys(prose(it.meanings[name]) for it in those if name in it.meanings)) for name, those in uses.items()}
    has_any = any(meanings.values())
    rows = [[code(name)] + [meanings[name]] * has_any + [", ".join(it.link for it in those)] for name, those in sorted(uses.items())]
    heads = ["signal"] + ["meaning"] * has_any + ["requirements"]
    return tag("section", tag("h2", "Signals") + table(heads, rows, "Signals"), id="signals") if rows else ""


# ---- the requirements together


def together(chapters: Sequence[Chapter], answers: "Answers", apart: Dict[Finding, Apart]) -> str:
    link = {it.it: it.link for it in chapters}
    unwell = [tag("div", "\n".join(finding_parts(it, answers.inputs, link, apart.get(it, []))), class_="finding") for it in answers.findings]
    lists = (("Names that are not signals", answers.strange), ("Names that are near each other", answers.near),
             ("What follows from what", what_follows(answers)), ("Well together", grouped(answers)), ("Not asked", unasked_lines(answers, False)))
    parts = ([tag("h3", "Not well together"), *unwell] if unwell else []) + [part for title, lines in lists if lines for part in (
        tag("h3", title), items(list(map(escaped, lines))))]
    nothing = tag("p", "Nothing is to be said of them together: " + ("they share no names." if not answers.pairs else "nothing is wrong with them."))
    return tag("section", tag("h2", "The requirements together") + "\n" + ("\n".join(parts) or nothing), id="together")


def finding_parts(finding: Finding, inputs: Sequence[str], link: Dict[Requirement, str], apart: Apart) -> Iterator[str]:
    """What is not well with some requirements together, and the behaviours that show it."""
    yield tag("p", f"{badge(*TOGETHER[finding.kind])} {escaped(sentence(finding, inputs))}.")
    if finding.word:
        names = names_of(finding.members)
        caption = f"It keeps to {all_of(finding.members)} at each instant, and no next instant does"
        yield figure(caption, names, finding.word, len(finding.word) - 1)
    yield figures(figure(f"It keeps to {' and '.join(map(escaped, [it.name for it in rest]))}, so it breaks {escaped(one.name)}", names_of(rest), word)
                  for one, rest, word in apart)
    yield tag("p", "See " + ", ".join(link[it] for it in finding.members) + ".")
