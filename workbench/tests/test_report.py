"""`report`: what is on the page, that it is a whole page, that nothing of a file acts in it, and its colours."""
import hashlib
import os
import re
import shutil
import unittest
from html.parser import HTMLParser
from unittest import mock

import report_style
import revision
from pictures import HIGH, Behaviour, rows_svg
from program import Program
from support import PROGRAM, ROOT, WithFolder, needs_program, run

EMPTY = {"meta", "br"}  # elements that have no end
SET = {
    "guard.dc": "// REQ-1: While the guard is open the motor stops within 3 instants.\n// motor: the saw runs\nvar guard, motor;\n"
                "infer []([[motor && !guard]] => slen < 3);\n",
    "strict.dc": "// REQ-2: The motor never runs while the guard is open.\nvar guard, motor; infer [[motor => guard]];\n",
    "opens.dc": "// REQ-3: At first the guard is open, and the motor runs.\nvar guard, motor; infer <motor && !guard> ^ true;\n",
    "fault.dc": "// REQ-4: <script>alert(1)</script> & \"quoted\" 'text' \x1b[1m\nvar p; infer [[p and p]];\n",
}


class Page(HTMLParser):
    """A page as it is read: elements with their attributes, ids, links and texts; AssertionError where an end is missing."""

    def __init__(self, text):
        super().__init__()
        self.elements, self.open, self.texts = [], [], []
        self.feed(text)
        self.close()
        assert not self.open, self.open

    def handle_starttag(self, tag, attrs):
        self.elements.append((tag, dict(attrs)))
        if tag not in EMPTY:
            self.open.append(tag)

    def handle_startendtag(self, tag, attrs):
        self.elements.append((tag, dict(attrs)))

    def handle_endtag(self, tag):
        assert self.open.pop() == tag, tag

    def handle_data(self, data):
        if self.open and self.open[-1] != "style":
            self.texts.append(data)

    @property
    def said(self):
        return " ".join(" ".join(self.texts).split())


@needs_program
class Report(WithFolder):
    def files(self, texts):
        return [self.file(name, text) for name, text in texts.items()]

    def page(self, *words, status=0, **variables):
        out = os.path.join(self.folder, "page.html")
        found, output, error = run("ask", "report", *words, "--out", out, "--jobs", "2", **variables)
        self.assertEqual((found, error), (status, ""), output)
        with open(out, encoding="utf-8") as file:
            return file.read()

    def assert_whole(self, text):
        """Each id is there once, each link leads to one, each picture has a text or is hidden, and nothing acts or comes from elsewhere."""
        page = Page(text)
        ids = [attributes["id"] for _, attributes in page.elements if "id" in attributes]
        self.assertEqual(len(ids), len(set(ids)))
        for name, attributes in page.elements:
            self.assertNotIn(name, ("script", "link", "img", "iframe", "object"))
            self.assertFalse([key for key in attributes if key.startswith("on") or key in ("src", "action")])
            if "href" in attributes:
                self.assertIn(attributes["href"][1:], ids)
            if name == "svg":
                self.assertTrue(attributes.get("aria-label") or attributes.get("aria-hidden") == "true")
        self.assertEqual(set(re.findall(r"url\((.*?)\)", text)), {f"#{it}" for it in ids if it.endswith("-arrow")})
        self.assertNotRegex(text, "[\x00-\x08\x0b-\x1f\x7f]")
        return page

    def test_one(self):
        """A request is broken by three instants without a grant after it: so 10 00 00 00 is the shortest, as worked out by hand; with 2
        for 3 an instant fewer is."""
        page = self.assert_whole(self.page(os.path.join(ROOT, "examples", "response.dc")))
        labels = [attributes["aria-label"] for name, attributes in page.elements if name == "svg" and "aria-label" in attributes]
        self.assertEqual(labels[0], "10 00 x3; an instant is the digits of request grant")
        for words in ("A request is granted within 3 instants", "Some behaviours satisfy it, and some break it. A behaviour that has kept to it so far can",
                      "line 7: slen >= 3 with 2 : good now, bad then, 3 instants", "grant has to be true at instant 3", "[!p] may be true and the meaning is",
                      "5 states", "whether it is proved"):
            self.assertIn(words, page.said)

    def test_set(self):
        """Of 2 and 3 the first instant says opposite things; 2 implies 1; and 1 has a meaning for the motor."""
        page = self.assert_whole(self.page(*self.files(SET), "--title", "<b>Saw</b>", "--date", "today & now", status=1))
        for words in ("<b>Saw</b> 4 requirements, 2 signals, today & now", "✗ 2 contradiction", "✗ 1 fault", "✓ 1 well",
                      "strict (REQ-2) and opens (REQ-3) contradict each other: no behaviour satisfies both.",
                      "It keeps to opens, so it breaks strict, 1 instant", "strict (REQ-2) implies guard (REQ-1)", "It follows from strict (REQ-2) .",
                      "No behaviour satisfies it together with opens (REQ-3) . It implies guard (REQ-1) .",
                      "the saw runs", "<script>alert(1)</script> & \"quoted\" 'text' ?[1m", "No fault is left if you write && for and."):
            self.assertIn(words, page.said)
        index = [attributes["href"] for name, attributes in page.elements if name == "a"][1:5]
        self.assertEqual(index, ["#r-REQ-1", "#r-REQ-2", "#r-REQ-3", "#r-REQ-4"])

    def test_names_of_files(self):
        """Names with quotes, marks and control bytes, two that give one id, and one that is no text."""
        files = self.files({"a\"><script>x.dc": "var p; infer [[p]];", "a'&lt;\x1b x.dc": "var p; infer [[p]];", "a-script-x.dc": "infer pt;"})
        self.assert_whole(self.page(*files, os.fsencode(self.folder).decode() + "/\udce9.dc", status=1))

    def test_same_bytes(self):
        """However many questions are asked at a time, and however wide the terminal is, in which messages are cut."""
        files = self.files({**SET, "long.dc": "var p; infer [[p]]" + " && [[p]]" * 40 + " and p;"})
        self.assertEqual(self.page(*files, status=1), self.page(*files, "--jobs", "1", status=1, COLUMNS="50"))

    def test_stuck_and_not_decided(self):
        """What gets stuck after one instant with p; and one that is over the least budget of nodes."""
        page = self.page(*self.files({"stuck.dc": "var p; infer [[p]] && slen < 1;"}), status=1)
        self.assertIn("It gets stuck after 1 : no next instant keeps to it.", self.assert_whole(page).said)
        big = "var a, b; infer " + " && ".join(f"[]({{{{a}}}} ^ slen = {number} ^ <b> => scount a > {number})" for number in range(9, 500, 7)) + ";"
        page = self.page(*self.files({"big.dc": big}), "--brief")
        self.assertIn("big ? not decided", self.assert_whole(page).said)

    def test_a_program_that_is_killed(self):
        """No page is written of what is no answer."""
        path = self.file("stub", "#!/bin/sh\nkill -KILL $$\n")
        os.chmod(path, 0o755)
        out = os.path.join(self.folder, "page.html")
        status, _, error = run("ask", "report", os.path.join(ROOT, "examples", "lamp.dc"), "--out", out, program=path)
        self.assertEqual(status, 125)
        self.assertIn("SIGKILL", error)
        self.assertFalse(os.path.exists(out))

    def test_words(self):
        path, out = self.file("a.dc", "var p; infer [[p]];"), os.path.join(self.folder, "no", "page.html")
        self.assertEqual(run("ask", "report", path, "--out", out)[::2], (6, f"ask report: {out} could not be written: No such file or directory\n"))
        self.assertEqual(run("ask", "report", path, "--out", out, "--inputs", "q")[::2], (2, "ask report: no file has a variable q\n"))
        self.assertEqual(run("ask", "report", "/dev/stdin", "--out", out)[0], 5)

    @unittest.skipUnless(shutil.which("chromium") and shutil.which("pdfinfo"), "the Debian packages chromium and poppler-utils are not installed")
    def test_pdf(self):
        import subprocess
        pdf = os.path.join(self.folder, "page.pdf")
        self.page(*self.files(SET), "--pdf", pdf, status=1)
        said = subprocess.run(["pdfinfo", pdf], stdout=subprocess.PIPE, check=True).stdout.decode()
        self.assertRegex(said, r"Page size: .*\(A4\)")


class Revision(WithFolder):
    def test_installed_or_another(self):
        """An installed program is known by its checksum in the record of what is installed; of another one nothing is known."""
        path = self.file("program", "anything")
        record = self.file("VERSION", "dcvalid 1.0.0\nproved: yes: all of it\n" + hashlib.sha256(b"anything").hexdigest() + "  bin/dcvalid\n")
        with mock.patch("revision.RECORD", record):
            self.assertEqual(revision.revision(Program(path)), "dcvalid 1.0.0, proved: yes: all of it")
            self.assertIn("not known here", revision.revision(Program(self.file("other", "something else"))))

    def test_found_in_the_search_path(self):
        """A program that is named without a folder is the one that the search path finds."""
        path = self.file("named-alone", "anything")
        os.chmod(path, 0o755)
        with mock.patch.dict(os.environ, {"PATH": self.folder}):
            self.assertEqual(revision.revision(Program("named-alone")), revision.revision(Program(path)))


class Pictures(unittest.TestCase):
    def test_rows(self):
        """A behaviour of 100 instants that never folds: no row is wider than A4, and each instant is in one."""
        word = [format(number % 3, "02b") for number in range(100)]
        rows = rows_svg(Behaviour("", ["request", "grant"], word, 50), 640)
        self.assertEqual([int(it) for row in rows for it in re.findall(r">(\d+)</text>", row)], list(range(100)))
        self.assertLessEqual(max(float(re.search(r'width="(\d+)"', row).group(1)) for row in rows), 640 + 16)
        self.assertEqual(sum(row.count('class="mark"') for row in rows), 1)


# ---- colours


def luminance(colour):
    """As WCAG 2 defines it."""
    parts = [int(colour[place:place + 2], 16) / 255 for place in (1, 3, 5)]
    red, green, blue = [it / 12.92 if it <= 0.04045 else ((it + 0.055) / 1.055) ** 2.4 for it in parts]
    return 0.2126 * red + 0.7152 * green + 0.0722 * blue


def contrast(one, other):
    lighter, darker = sorted((luminance(one), luminance(other)), reverse=True)
    return (lighter + 0.05) / (darker + 0.05)


class Colours(unittest.TestCase):
    def test_texts(self):
        """Each colour of a text, on the ground of its rule or where it has none on both grounds, has 4.5 in light and dark."""
        rules = re.findall(r"\{([^{}]*)\}", report_style.SCREEN)
        pairs = set()
        for rule in rules:
            text, ground = (re.search(rf"(?:^|;){name}:var\(--([\w-]+)\)", rule) for name in ("color", "background"))
            if text:
                pairs |= {(text.group(1), it) for it in ([ground.group(1)] if ground else ["paper", "wash"])}
        self.assertGreater(len(pairs), 12)
        for colours in (report_style.LIGHT, report_style.DARK):
            for text, ground in pairs | {("ink", "wash")}:
                self.assertGreaterEqual(contrast(colours[text], colours[ground]), 4.5, (text, ground))

    def test_pictures(self):
        """Texts of pictures have 4.5 on what they stand on, waves and borders 3 on what is beside them; in light and dark each class has
        a colour, and a picture's paper is the page's."""
        self.assertEqual(report_style.COLOURS.keys(), report_style.DARK_PICTURES.keys())
        for colours, page in ((report_style.COLOURS, report_style.LIGHT), (report_style.DARK_PICTURES, report_style.DARK)):
            self.assertEqual(colours["paper"]["fill"], page["paper"])
            pairs = [(text, "paper", 4.5) for text in ("text", "title", "note")] + [("note", "mark", 4.5), ("arrow", "paper", 3)]
            pairs += [(text, ground, 4.5) for text in ("text", "broken-text") for ground in ("holds", "open", "broken")]
            for text, ground, least in pairs:
                self.assertGreaterEqual(contrast(colours[text]["fill"], colours[ground]["fill"]), least, (text, ground))
            lines = [("line", ground) for ground in ("paper", "high", "high-folded", "mark")] + [(it, "paper") for it in ("holds", "open", "broken")]
            for line, ground in lines:
                self.assertGreaterEqual(contrast(colours[line]["stroke"], colours[ground]["fill"]), 3, (line, ground))


if __name__ == "__main__":
    unittest.main()
