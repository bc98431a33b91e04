"""Texts of an editor: UTF-16 positions, changes and edits against Python's own strings; names by scopes; formatting."""
import random
import unittest

from documents import Document, raw_of
from language import read_text
from layout import formatted
from navigation import folding, rename
from protocol import Failed
from scopes import Names
from spots import utf8
from support import examples

PIECES = ("a", "é", "\U0001F600", "\n", "\r\n", "\r", " ", "infer", "//")


def drawn(draw, length):
    return "".join(draw.choice(PIECES) for _ in range(length))


def utf16(text):
    """The text as a list of UTF-16 units."""
    data = text.encode("utf-16-le", "surrogatepass")
    return [data[at:at + 2] for at in range(0, len(data), 2)]


def applied(document, edit):
    """An edit as an editor does it: its positions count UTF-16 units in lines."""
    lines = utf8(document.raw).replace("\r\n", "\0\n").replace("\r", "\1\n").split("\n")  # each break with one mark and one feed

    def place(position):
        before = "".join(line + "\n" for line in lines[:position["line"]])
        return len(utf16(before)) + position["character"]

    units = utf16("\n".join(lines))
    start, end = place(edit["range"]["start"]), place(edit["range"]["end"])
    units[start:end] = utf16(edit["newText"])
    return b"".join(units).decode("utf-16-le").replace("\0\n", "\r\n").replace("\1\n", "\r")


class Documents(unittest.TestCase):
    def test_positions_by_hand(self):
        """Before `b` in the second line are é (one unit) and a character of two units."""
        document = Document("u", raw_of("x\r\né\U0001F600b\n"), 1)
        place = document.raw.index("b")
        self.assertEqual(document.position(place), {"line": 1, "character": 3})
        self.assertEqual(document.offset({"line": 1, "character": 3}), place)
        self.assertEqual(document.offset({"line": 1, "character": 2}), document.offset({"line": 1, "character": 1}))  # inside of a character
        self.assertEqual(document.offset({"line": 0, "character": 99}), 1)
        self.assertEqual(document.offset({"line": 9, "character": 0}), len(document.raw))

    def test_edits(self):
        """The edit between two drawn texts, done by an editor, gives the second."""
        draw = random.Random(1)
        for _ in range(300):
            parts = [drawn(draw, draw.randrange(6)) for _ in range(4)]
            old, new = parts[0] + parts[1] + parts[2], parts[0] + parts[3] + parts[2]
            document = Document("u", raw_of(old), 1)
            edit = document.edit_to(raw_of(new))
            self.assertEqual(applied(document, edit), new, (old, edit))
            self.assertEqual(document.changed({"range": edit["range"], "text": edit["newText"]}, 2).raw, raw_of(new))

    def test_folds(self):
        document = Document("u", "// a\n// b\nvar p;\n// c\ninfer [[p]] &&\n  <p>;\n", 1)
        self.assertEqual([(it["startLine"], it["endLine"]) for it in folding(document, {})], [(4, 5), (0, 1)])


class Scopes(unittest.TestCase):
    TEXT = "var p, q;\ndefine m(p) as <p> && (ex q. [q]) && <q>;\ninfer m(p) && (all p. <p>) ^ [p];\n"

    def uses(self, text, place):
        return [text[:start].count("\n") for start, _ in Names(text).at(place).uses]

    def test_parameters_and_quantifiers(self):
        """Lines of the uses: of the variable p, the parameter p, the variable q, and the two quantified names."""
        text = self.TEXT
        cases = {text.index("p"): [0, 2, 2], text.index("(p)") + 1: [1, 1], text.index("q"): [0, 1], text.index("ex q") + 3: [1, 1], text.index("all p") + 4: [2, 2]}
        for place, lines in cases.items():
            self.assertEqual(self.uses(text, place), lines, text[place:])

    def test_a_text_with_faults(self):
        text = "var p\ndefine m as [[p]]\ninfer m && [[p"
        self.assertEqual(self.uses(text, text.index("p")), [0, 1, 2])

    def new(self, place, name):
        document = Document("u", self.TEXT, 1)
        changes = rename(document, {"position": document.position(place), "newName": name})["documentChanges"][0]["edits"]
        text = self.TEXT
        for edit in sorted(changes, key=lambda it: -document.offset(it["range"]["start"])):
            start, end = document.span(edit["range"])
            text = text[:start] + edit["newText"] + text[end:]
        return text

    def test_renaming(self):
        self.assertEqual(self.new(self.TEXT.index("ex q") + 3, "r"), self.TEXT.replace("ex q. [q]", "ex r. [r]"))
        for place, name in ((self.TEXT.index("q"), "p"), (self.TEXT.index("q"), "m"), (self.TEXT.index("(p)") + 1, "q"), (self.TEXT.index("p"), "infer"),
                            (self.TEXT.index("p"), "1a"), (self.TEXT.index("infer"), "a")):
            with self.assertRaises(Failed, msg=name):
                self.new(place, name)


class Layout(unittest.TestCase):
    def test_by_hand(self):
        old = "// é\nvar a,b ;// of a\ninfer   [[ a&&!b ]]=>\nscount a<3 ^ ( <b>||[]<a> ) ;\n\n\n\nconst n=1+ 2;"
        new = "// é\nvar a, b; // of a\ninfer [[a && !b]] =>\n  scount a < 3 ^ (<b> || []<a>);\n\nconst n = 1 + 2;\n"
        self.assertEqual(utf8(formatted(raw_of(old))), new)

    def test_what_would_be_another_token(self):
        self.assertIsNone(formatted("var a; infer [ ]<a>;"))

    def test_a_formatted_text_stays(self):
        for path in examples():
            self.assertEqual(formatted(read_text(path)), read_text(path), path)

    def test_what_is_formatted_twice(self):
        """Without a blank, and then twice: the examples with their line breaks."""
        for path in examples():
            once = formatted(read_text(path).replace(" && ", "&&").replace(", ", ","))
            self.assertEqual(formatted(once), once, path)


if __name__ == "__main__":
    unittest.main()
