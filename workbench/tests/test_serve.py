"""`serve`: a session of an editor. What is slow blocks nothing, an old answer is not shown, and whatever comes is answered."""
import os
import random
import time
import unittest

from client import Client
from support import ROOT, WithFolder, needs_program, run

FAULT = "// \U0001F600 é\nvar a, b; // ü\ninfer [[a]] and [[b]];\n"
GOOD = FAULT.replace("and", "&&")
WHERE = {"start": {"line": 2, "character": 13}, "end": {"line": 2, "character": 13}}


class Session(WithFolder):
    def client(self, *words, **options):
        client = Client(*words, **options)
        self.addCleanup(client.close)
        return client

    def ended(self, client):
        self.assertEqual(client.end(), (0, b""))

    def uri(self, name="a.dc"):
        return f"file://{self.folder}/{name}"


@needs_program
class Answers(Session):
    def test_a_fault_and_its_fix(self):
        client, uri = self.client(), self.uri()
        client.open(uri, FAULT)
        client.until(lambda: any(shown and "May stand" in shown[0]["message"] for shown in client.shown(uri, 1)))
        shown = client.shown(uri, 1)[-1]
        self.assertEqual(shown[0]["range"], {"start": {"line": 2, "character": 12}, "end": {"line": 2, "character": 15}})
        self.assertIn("May stand here: an operator ^ && || => <=> *, an end ;", shown[0]["message"])
        fixes = client.at("codeAction", uri, range=WHERE, context={"diagnostics": []})
        self.assertEqual([it["title"] for it in fixes], ["Write && for and"])
        edit = fixes[0]["edit"]["changes"][uri][0]
        client.change(uri, 2, {"range": edit["range"], "text": edit["newText"]})
        self.assertEqual(client.lens(uri), "not valid: 1 instant; 2 states; never stuck")
        self.assertEqual(client.shown(uri, 2)[-1], [])
        self.ended(client)

    def test_verdicts(self):
        """A line for each: by hand, or by the definition."""
        client = self.client()
        for number, (goal, title) in enumerate((("[[p]] || !([[p]])", "valid: every behaviour satisfies it; 1 state"), ("<p && !p>", "no behaviour satisfies it; 1 state"),
                                                ("slen = 1", "not valid: 1 instant; 4 states; judged at the end"), ("[[p]] && slen < 2", "not valid: 1 instant; 4 states; stuck after 2 instants"),
                                                ("scount p = 300 && scount q = 300", "over the budget: a step needs more than 30000 states"))):
            uri = self.uri(f"{number}.dc")
            client.open(uri, f"var p, q;\ninfer {goal};\n")
            self.assertEqual(client.lens(uri), title)
            self.assertEqual(len(client.shown(uri, 1)[-1]), int(title[:9] != "not valid"), goal)
        self.ended(client)

    def test_hover(self):
        client, uri = self.client(), self.uri()
        client.open(uri, "// gate: the gate is *open*\nvar gate, b; \n// Never.\ndefine never(x) as [[!x]];\ninfer never(gate) && slen < 5;\n")
        client.lens(uri)
        said = {word: (client.at("hover", uri, line, character) or {"contents": {"value": ""}})["contents"]["value"] for word, line, character in
                (("infer", 4, 1), ("never", 4, 7), ("gate", 4, 13), ("slen", 4, 23), ("b", 1, 10), ("nothing", 4, 19))}
        self.assertIn("```text\ninstant   0\ngate    ###\n", said["infer"])
        self.assertEqual(said["never"], "```dc\ndefine never(x) as [[!x]];\n```\n\nNever.")
        self.assertEqual(said["gate"], "**gate**: a variable\n\nthe gate is \\*open\\*")
        self.assertEqual((said["b"], said["nothing"]), ("**b**: a variable", ""))
        self.assertIn("length", said["slen"])
        self.ended(client)

    def labels(self, client, uri, line, character):
        return {it["label"]: it for it in client.at("completion", uri, line, character)}

    def test_completion(self):
        """In a proposition, in a formula, after one, for a number, in a comment, in an empty text."""
        client, uri = self.client(), self.uri()
        client.open(uri, "const n = 3;\nvar p, q;\ndefine m(x) as <x>;\ninfer [[p]] && slen < 3; // p\n")
        inside, formula = self.labels(client, uri, 3, 8), self.labels(client, uri, 3, 15)
        self.assertLess({"p", "q", "true", "!"}, set(inside))
        self.assertFalse({"m", "slen", "bounded_response"} & set(inside))
        self.assertLess({"m", "slen", "[[", "bounded_response"}, set(formula))
        self.assertFalse({"p", "n"} & set(formula))
        self.assertEqual(formula["m"]["textEdit"]["newText"], "m(${1:x})")
        self.assertIn('use "patterns/bounded_response.dc";', formula["bounded_response"]["additionalTextEdits"][0]["newText"])
        self.assertIn("n", self.labels(client, uri, 3, 22))
        self.assertFalse({"p", "m"} & set(self.labels(client, uri, 3, 11)))
        self.assertEqual(self.labels(client, uri, 3, 28), {})
        client.open(self.uri("empty.dc"), "")
        self.assertIn("infer bounded_response(", self.labels(client, self.uri("empty.dc"), 0, 0)["bounded_response"]["textEdit"]["newText"])
        self.ended(client)

    def test_without_snippets(self):
        client, uri = self.client(snippets=False), self.uri()
        client.open(uri, "var p;\ninfer [[p]];\n")
        self.assertFalse([it for it in client.at("completion", uri, 1, 6) if "$" in it["textEdit"]["newText"]])
        self.ended(client)

    def test_sources(self):
        """Faults of the notation and of the language at their places; a definition in a used file."""
        self.file("used.dc", "var p;\ndefine m(x, n) as [[x]] && slen < n;\ninfer m(p, 3);\n")
        client, uri = self.client(), self.uri()
        text = 'use "used.dc";\nvar p;\nconst n = 3;\ninfer m(p, n + 1);\n'
        client.open(uri, text)
        self.assertEqual(client.lens(uri), "not valid: 1 instant; 6 states; stuck after 4 instants")
        place = client.at("definition", uri, 3, 6)
        self.assertEqual((place["uri"], place["range"]["start"]), (f"file://{self.folder}/used.dc", {"line": 1, "character": 7}))
        self.assertEqual(client.at("definition", uri, 0, 6)["uri"], f"file://{self.folder}/used.dc")
        for number, (old, new, line, code) in enumerate((("n + 1", "k + 1", 3, "source"), ("used.dc", "none.dc", 0, "source"), ("m(p,", "m(q,", 3, "unknown")), 2):
            client.change(uri, number, {"text": text.replace(old, new)})
            client.until(lambda: [shown for shown in client.shown(uri, number) if shown])
            shown = client.shown(uri, number)[-1][0]
            self.assertEqual((shown["range"]["start"]["line"], shown["code"]), (line, code))
        self.ended(client)

    def test_project(self):
        """Each requirement of the example project opens without a fault, and has a verdict."""
        client = self.client()
        folder = os.path.join(ROOT, "examples", "project", "requirements")
        for name in os.listdir(folder):
            uri = f"file://{folder}/{name}"
            with open(os.path.join(folder, name)) as file:
                client.open(uri, file.read())
            self.assertRegex(client.lens(uri), r"^not valid: \d+ instants?; \d+ states; ")
            self.assertEqual(client.shown(uri, 1)[-1], [])
        self.ended(client)


class Slow(Session):
    """A program that never ends, but where it is asked whether a text has a fault: what waits for it has no answer."""

    SCRIPT = "#!/bin/sh\ncase \"$*\" in *'--states 1 --nodes 1'*) echo 'budget states 1 at 0 step 0' >&2; exit 4;; esac\ncat >>'{log}' <<END\nbegun\nEND\nexec tail -f /dev/null\n"

    def setUp(self):
        super().setUp()
        self.log = self.file("log", "")
        self.program = self.file("slow", self.SCRIPT.format(log=self.log))
        os.chmod(self.program, 0o755)

    def begun(self):
        with open(self.log) as file:
            return len(file.readlines())

    def test_typing(self):
        """While the program runs, requests are answered, and a change stops it; of the old version nothing is shown after that of the new one."""
        client, uri = self.client(self.program), self.uri()
        client.open(uri, GOOD)
        client.until(lambda: client.shown(uri, 1))
        while not self.begun():
            time.sleep(0.02)
        for version in range(2, 12):
            client.change(uri, version, {"range": {"start": {"line": 0, "character": 3}, "end": {"line": 0, "character": 3}}, "text": "x"})
            self.assertEqual(client.at("documentSymbol", uri)[0]["name"], "a")
            client.until(lambda: client.shown(uri, version))
        self.assertEqual(client.at("hover", uri, 2, 1)["contents"]["value"], "Being decided ..")
        versions = [it["params"]["version"] for it in client.notes if it["method"] == "textDocument/publishDiagnostics"]
        self.assertEqual(versions, sorted(versions))
        self.ended(client)

    def test_cancelling(self):
        client, uri = self.client(self.program, patience=3600), self.uri()
        client.open(uri, GOOD)
        number = client.start("textDocument/hover", {"textDocument": {"uri": uri}, "position": {"line": 2, "character": 1}})
        client.note("$/cancelRequest", {"id": number})
        self.assertEqual(client.wait(number)["error"]["code"], -32800)
        self.ended(client)

    def test_a_limit(self):
        client, uri = self.client(self.program, limit=0.3), self.uri()
        client.open(uri, GOOD)
        client.until(lambda: any(shown and shown[0]["code"] == "late" for shown in client.shown(uri, 1)))
        self.assertEqual(client.shown(uri, 1)[-1][0]["message"], "The program has not decided this in 0.3 s.")
        self.ended(client)


class Hostile(Session):
    def told(self, client):
        return client.until(lambda: [it["params"]["message"] for it in client.notes if it["method"] == "window/showMessage"])

    def test_programs_that_give_no_answer(self):
        """One that is missing, one that kills itself, one that says what is no answer: a message each, and the rest is there."""
        killed, strange = self.file("killed", "#!/bin/sh\nkill -9 $$\n"), self.file("strange", "#!/bin/sh\necho hello\n")
        for path in (killed, strange):
            os.chmod(path, 0o755)
        for path, said in ((os.path.join(self.folder, "none"), "could not be run"), (killed, "was ended by SIGKILL"), (strange, "gave no answer")):
            client, uri = self.client(path), self.uri()
            client.open(uri, GOOD)
            self.assertIn(said, self.told(client)[0])
            self.assertEqual(len(client.at("documentSymbol", uri)), 3)
            self.assertNotIn("valid", str(client.at("hover", uri, 2, 1)))
            self.ended(client)

    def test_messages(self):
        """Messages of another form have an error as their answer, or none; the server goes on after each."""
        client, uri = self.client("/bin/false"), self.uri()
        client.open(uri, GOOD)
        for data in (b"{x}", b"[]", b"\xff\xff", b"7"):
            client.bytes(b"Content-Length: %d\r\n\r\n%s" % (len(data), data))
        for method in ("hover", "definition", "rename", "completion", "codeAction", "codeLens", "formatting", "nothing"):
            for params in (None, {}, [], {"textDocument": {"uri": uri}, "position": {"line": "a"}}, {"textDocument": {"uri": "file:///closed"}}, {"textDocument": 7}):
                client.wait(client.start(f"textDocument/{method}", params))
        for method in ("textDocument/didChange", "textDocument/didClose", "textDocument/didOpen", "$/cancelRequest", "nothing"):
            client.note(method, {"textDocument": {"uri": "file:///closed"}})
        client.send({"id": [1], "method": "shutdown"})
        client.send({"id": 900, "result": None})
        self.assertEqual(len(client.at("documentSymbol", uri)), 3)
        status, error = client.end()
        self.assertEqual(status, 0)
        self.assertNotIn(b"Traceback", error)

    def test_the_end_of_the_stream(self):
        """Within a message, and after a length that is none."""
        for data in ("Content-Length: 50\r\n\r\n{}", "Content-Length: x\r\n\r\n", "Content-Length: 99999999999\r\n\r\n", ""):
            self.assertEqual(run("ask", "serve", stdin=data)[::2], (1, ""), data)

    @needs_program
    def test_drawn_edits(self):
        """Drawn changes with drawn requests in between: each has an answer, none is a fault of the server, and the text is the editor's."""
        draw, client, uri = random.Random(3), self.client(delay=0.02), self.uri("with%20blank.dc")
        text, numbers = GOOD, []
        client.open(uri, text)
        for version in range(2, 80):
            line, character = draw.randrange(4), draw.randrange(30)
            lines = text.split("\n")
            units = lines[line].encode("utf-16-le") if line < len(lines) else b""
            at = min(2 * character, len(units))
            while at and units[at + 1:at + 2] and 0xDC <= units[at + 1] < 0xE0:  # not inside of a character
                at -= 2
            new = draw.choice(("", "(", "]", "infer ", "é", "\U0001F600", '"', ";", 'use "x";', "const n = 3;", "\n"))
            if line < len(lines):
                lines[line] = (units[:at] + new.encode("utf-16-le") + units[at:]).decode("utf-16-le")
                text = "\n".join(lines)
                here = {"line": line, "character": at // 2}
                client.change(uri, version, {"range": {"start": here, "end": here}, "text": new})
            for kind in draw.sample(["hover", "definition", "references", "documentHighlight", "prepareRename", "rename", "documentSymbol", "foldingRange",
                                     "formatting", "completion", "codeAction", "codeLens"], 2):
                place = {"line": draw.randrange(6), "character": draw.randrange(30)}
                numbers.append(client.start(f"textDocument/{kind}", {"textDocument": {"uri": uri}, "position": place, "newName": "zz",
                                                                     "range": {"start": place, "end": place}, "context": {}}))
        answers = [client.wait(number) for number in numbers]
        self.assertFalse([it for it in answers if it is None or it.get("error", {}).get("code") in (-32603, -32602)])
        symbols = [it["name"] for it in client.at("documentSymbol", uri)]
        client.open(self.uri("same.dc"), text)
        self.assertEqual(symbols, [it["name"] for it in client.at("documentSymbol", self.uri("same.dc"))])
        self.ended(client)


if __name__ == "__main__":
    unittest.main()
