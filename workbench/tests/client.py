"""A small client of language servers, for tests: it starts ./ask serve, and keeps what the server sends."""
import json
import os
import re
import subprocess
import threading

from support import PROGRAM, ROOT

SECONDS = 60  # that a test waits for an answer at most


class Client:
    def __init__(self, program=None, snippets=True, **options):
        environment = {**os.environ, "DCVALID": program or PROGRAM or ""}
        self.process = subprocess.Popen([os.path.join(ROOT, "ask"), "serve"], stdin=subprocess.PIPE, stdout=subprocess.PIPE, stderr=subprocess.PIPE, env=environment)
        self.number, self.answers, self.notes, self.changed = 0, {}, [], threading.Condition()
        self.listener = threading.Thread(target=self.listen, daemon=True)
        self.listener.start()
        completion = {"completionItem": {"snippetSupport": snippets}}
        self.started = self.ask("initialize", {"processId": None, "rootUri": None, "initializationOptions": {"delay": 0, **options},
                                               "capabilities": {"textDocument": {"completion": completion}}})
        self.note("initialized", {})

    def listen(self):
        while True:
            length = None
            line = self.process.stdout.readline()
            while line not in (b"\r\n", b""):
                length = int(line.split(b":")[1])
                line = self.process.stdout.readline()
            if not line:
                return
            message = json.loads(self.process.stdout.read(length))
            with self.changed:
                if "method" in message:
                    self.notes.append(message)
                else:
                    self.answers[message["id"]] = message
                self.changed.notify_all()

    def bytes(self, data):
        self.process.stdin.write(data)
        self.process.stdin.flush()

    def send(self, message):
        data = json.dumps({"jsonrpc": "2.0", **message}).encode()
        self.bytes(b"Content-Length: %d\r\n\r\n" % len(data) + data)

    def note(self, method, params):
        self.send({"method": method, "params": params})

    def start(self, method, params):
        self.number += 1
        self.send({"id": self.number, "method": method, "params": params})
        return self.number

    def until(self, found):
        """Waits until there is something, which is returned."""
        with self.changed:
            self.changed.wait_for(found, SECONDS)
            return found()

    def wait(self, number):
        return self.until(lambda: self.answers.get(number))

    def ask(self, method, params):
        """The result, or the error as a text."""
        answer = self.wait(self.start(method, params))
        return answer["result"] if "result" in answer else answer["error"]["message"]

    # ---- texts

    def open(self, uri, text, version=1):
        self.note("textDocument/didOpen", {"textDocument": {"uri": uri, "languageId": "dcvalid", "version": version, "text": text}})

    def change(self, uri, version, *changes):
        self.note("textDocument/didChange", {"textDocument": {"uri": uri, "version": version}, "contentChanges": list(changes)})

    def shown(self, uri, version):
        """All that was shown of a version, the newest last."""
        return [it["params"]["diagnostics"] for it in self.notes if it["method"] == "textDocument/publishDiagnostics"
                and it["params"]["uri"] == uri and it["params"].get("version") == version]

    def at(self, kind, uri, line=0, character=0, **more):
        return self.ask(f"textDocument/{kind}", {"textDocument": {"uri": uri}, "position": {"line": line, "character": character}, **more})

    def lens(self, uri):
        """The verdict at the goal, waited for until it is whole: of a requirement that may be broken its parts are three, and else two."""
        title = ""
        while not re.match(r"not valid:.*;.*;|valid:.*;|no behaviour.*;|over|not decided", title):
            found = self.at("codeLens", uri)
            title = found[0]["command"]["title"] if found else ""
        return title

    def end(self):
        """The status of an orderly end, and what was on standard error."""
        self.ask("shutdown", None)
        self.note("exit", None)
        status = self.process.wait(SECONDS)
        return status, self.process.stderr.read()

    def close(self):
        """Ends the server whatever happened before."""
        self.process.kill()
        self.process.wait()
        self.listener.join()
        for stream in (self.process.stdin, self.process.stdout, self.process.stderr):
            stream.close()
