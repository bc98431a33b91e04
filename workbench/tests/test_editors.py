"""`editors/`: sessions of Neovim and Emacs, without a screen, and what can be seen of the files for VS Code without it."""
import json
import os
import re
import subprocess
import unittest

from words import RESERVED
from support import PROGRAM, ROOT, WithFolder, needs_program, needs_tool

EDITORS = os.path.join(ROOT, "editors")
FAULT = "// \U0001F600 é\nvar a, b; // ü \U0001F600\ninfer [[a]] and [[b]];\n"
SOURCE_WORDS = ["const", "use"]
HOVER = "**not valid: 1 instant; 2 states; never stuck**\n\nA shortest behaviour that breaks it, 1 instant:\n```text\ninstant   0\na       ___\n"


def words_in(text):
    return set(re.findall(r"[a-z]+", text))


@needs_program
class Sessions(WithFolder):
    def session(self, *words):
        """All that an editor saw."""
        path, out = os.path.join(self.folder, "a.dc"), os.path.join(self.folder, "out")
        with open(path, "w", encoding="utf-8") as file:
            file.write(FAULT)
        environment = {**os.environ, "DCVALID": os.path.abspath(PROGRAM), "ROOT": ROOT, "FILE": path, "OUT": out, "HOME": self.folder}
        done = subprocess.run(words, env=environment, stdout=subprocess.PIPE, stderr=subprocess.STDOUT, stdin=subprocess.DEVNULL, timeout=300)
        self.assertTrue(os.path.exists(out), done.stdout.decode(errors="replace")[-2000:])
        with open(out, encoding="utf-8") as file:
            return dict(json.loads(line) for line in file)

    @needs_tool("nvim", "neovim")
    def test_neovim(self):
        """The place of the fault is in bytes here, as Neovim has it."""
        seen = self.session("nvim", "--headless", "-u", "NONE", "-i", "NONE", "-n", "-S", os.path.join(ROOT, "workbench", "tests", "session.lua"))
        self.assertEqual((seen["type"], seen["colours"], seen["diagnostic"]), ("dcvalid", ["dcStatement", "dcComment"], [2, 12, 15]))
        self.assertEqual((seen["fix"], seen["fixed"]), ("Write && for and", "infer [[a]] && [[b]];"))
        self.assertEqual(seen["lens"], "not valid: 1 instant; 2 states; never stuck")
        self.assertIn(HOVER, seen["hover"])
        self.assertEqual(seen["renamed"], ["var alarm, b; // ü \U0001F600", "infer [[alarm]] && [[b]];"])

    @needs_tool("emacs", "emacs-nox")
    def test_emacs(self):
        """Emacs 28 of Debian 12 has no eglot of its own: the package elpa-eglot has it."""
        if subprocess.run(["emacs", "--batch", "-f", "package-initialize", "-l", "eglot"], stdout=subprocess.DEVNULL, stderr=subprocess.DEVNULL).returncode:
            self.skipTest("there is no eglot: Debian has it in the package elpa-eglot")
        seen = self.session("emacs", "--batch", "-l", os.path.join(ROOT, "workbench", "tests", "session.el"))
        self.assertEqual((seen["type"], seen["diagnostic"]), ("dcvalid-mode", "and"))
        self.assertEqual(seen["colours"], ["font-lock-keyword-face", "font-lock-comment-face"])
        self.assertEqual((seen["fix"], seen["fixed"]), ("Write && for and", "infer [[a]] && [[b]];"))
        self.assertIn(HOVER, seen["hover"])
        self.assertEqual(seen["renamed"], "var alarm, b; // ü \U0001F600\ninfer [[alarm]] && [[b]];")
        self.assertEqual(seen["formatted"], "infer [[alarm && !b]];")


class Files(unittest.TestCase):
    def text(self, *path):
        with open(os.path.join(EDITORS, *path), encoding="utf-8") as file:
            return file.read()

    def test_each_word_has_a_colour(self):
        """The words of the language and of its sources are in each of the three lists."""
        for path in (("vim", "syntax", "dcvalid.vim"), ("emacs", "dcvalid-mode.el"), ("vscode", "syntaxes", "dcvalid.tmLanguage.json")):
            self.assertEqual({*RESERVED, *SOURCE_WORDS} - words_in(self.text(*path)), set(), path)

    def test_vs_code(self):
        """The manifest names files that are there, and the grammar's expressions can be read and find what they are for."""
        manifest = json.loads(self.text("vscode", "package.json"))
        places = [manifest["main"], manifest["contributes"]["grammars"][0]["path"], manifest["contributes"]["languages"][0]["configuration"]]
        self.assertTrue(all(os.path.exists(os.path.join(EDITORS, "vscode", place)) for place in places))
        json.loads(self.text("vscode", "language-configuration.json"))
        grammar = json.loads(self.text("vscode", "syntaxes", "dcvalid.tmLanguage.json"))
        self.assertEqual(grammar["scopeName"], manifest["contributes"]["grammars"][0]["scopeName"])
        found = {}
        for rule in grammar["patterns"]:
            for match in re.finditer(rule["match"], 'use "a.dc"; define m(p) as slen <= 3 && true; // x'):
                found.setdefault(match.group(), rule.get("name", "declaration").split(".")[0])
        self.assertEqual({word: found[word] for word in ("use", '"a.dc"', "define m", "slen", "<=", "3", "&&", "true", "// x")},
                         {"use": "keyword", '"a.dc"': "string", "define m": "declaration", "slen": "support", "<=": "keyword", "3": "constant", "&&": "keyword",
                          "true": "constant", "// x": "comment"})


if __name__ == "__main__":
    unittest.main()
