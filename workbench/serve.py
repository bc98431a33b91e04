"""`serve`: a language server for formula files and sources of `expand`, over standard input and output (LSP 3.17).

One thread reads messages, and answers those that need no run of the program. The others, and the program's word on a text, have threads of
their own; a newer version of the text or a cancellation stops these, and ends the program that they wait for.
"""
import argparse
import sys
import threading
import time
from typing import Any, Callable, Dict, Optional, Set

import hovering
import navigation
from analysis import Analysis
from completion import Completion
from documents import Document, raw_of
from program import Program, Refusal, complain
from protocol import CANCELLED, INTERNAL, INVALID_PARAMS, INVALID_REQUEST, NOT_FOUND, Cancelled, Connection, Ended, Failed, Message

DELAY, LIMIT, PATIENCE = 0.15, 60.0, 2.0  # seconds: from a change to a question, of a decision, and that a request waits for it
CAPABILITIES: Message = {
    "positionEncoding": "utf-16", "textDocumentSync": {"openClose": True, "change": 2}, "hoverProvider": True, "definitionProvider": True,
    "referencesProvider": True, "documentHighlightProvider": True, "renameProvider": {"prepareProvider": True}, "documentSymbolProvider": True,
    "foldingRangeProvider": True, "documentFormattingProvider": True, "completionProvider": {"triggerCharacters": [*"[<{(!,.^ "]},
    "codeActionProvider": {"codeActionKinds": ["quickfix"]}, "codeLensProvider": {"resolveProvider": False}}
QUICK: Dict[str, Callable[[Document, Message], Any]] = {
    "definition": navigation.definition, "references": navigation.references, "documentHighlight": navigation.highlights,
    "prepareRename": navigation.prepare_rename, "rename": navigation.rename, "documentSymbol": navigation.symbols,
    "foldingRange": navigation.folding, "formatting": navigation.formatting}
SLOW = ("hover", "codeAction", "codeLens", "completion")


class Server:
    def __init__(self, connection: Connection, path: Optional[str]) -> None:
        self.connection, self.path, self.delay, self.limit, self.patience = connection, path, DELAY, LIMIT, PATIENCE
        self.documents: Dict[str, Document] = {}
        self.analyses: Dict[str, Analysis] = {}
        self.requests: Dict[Any, Program] = {}  # by the number of each that is not answered, what it asks
        self.lock = threading.Lock()
        self.client: Message = {}
        self.completion = Completion(False)
        self.told: Set[str] = set()
        self.asked, self.is_closing = 0, False

    def run(self) -> int:
        """Answers messages until `exit` or the end of the stream; the status."""
        try:
            while True:
                try:
                    message = self.connection.read()
                except Failed as failed:
                    self.connection.error(None, failed.code, failed.message)
                    continue
                if message.get("method") == "exit":
                    return 0 if self.is_closing else 1
                if "method" in message:  # else it answers a request of this server
                    self.take(message)
        except Ended:
            return 1
        finally:
            self.connection.close()
            for program in [*self.requests.values(), *(analysis.program for analysis in self.analyses.values())]:
                program.stop()

    def take(self, message: Message) -> None:
        method, params, number = str(message["method"]), message.get("params") or {}, message.get("id")
        if number is None:
            self.guarded(None, lambda _: self.noted(method, params))
            return
        if self.is_closing or not isinstance(number, (int, str)):
            self.connection.error(number if self.is_closing else None, INVALID_REQUEST, "the server is shut down" if self.is_closing else "a request's id is a number or a text")
            return
        kind = method[len("textDocument/"):] if method.startswith("textDocument/") else ""
        program = self.requests[number] = Program(self.path)
        if kind in SLOW:
            threading.Thread(target=self.guarded, args=(number, lambda it: self.slow(kind, params, it), program), daemon=True).start()
        else:
            self.guarded(number, lambda _: self.quick(method, kind, params), program)

    def guarded(self, number: Any, work: Callable[[Program], Any], program: Optional[Program] = None) -> None:
        """The one handler of whatever comes: a request has an answer, and the server goes on."""
        program = program or Program(self.path)
        try:
            found = work(program)
            if program.stopped:
                raise Cancelled
            if number is not None:
                self.connection.send({"id": number, "result": found})
        except BaseException as error:  # pylint: disable=broad-except
            self.failed(number, program, error)
        finally:
            self.requests.pop(number, None)

    def failed(self, number: Any, program: Program, error: BaseException) -> None:
        if isinstance(error, Refusal) and not program.stopped:
            self.missing(error.message)
        code, message = INTERNAL, f"a fault of the server: {type(error).__name__}: {error}"
        if isinstance(error, Cancelled) or program.stopped:
            code, message = CANCELLED, "cancelled"
        elif isinstance(error, (Failed, Refusal)):
            code, message = getattr(error, "code", INTERNAL), error.message
        elif isinstance(error, (KeyError, TypeError, AttributeError)) and number is not None:
            code, message = INVALID_PARAMS, f"the parameters are of another form: {error}"
        elif isinstance(error, OSError) and error.filename is None:  # the client has gone
            self.connection.close()
        if number is not None:
            self.connection.error(number, code, message)
        elif not isinstance(error, (Cancelled, Refusal)) and not program.stopped:
            complain(f"ask serve: {message}")
        if not isinstance(error, Exception):  # a signal
            raise error

    # ---- messages

    def noted(self, method: str, params: Message) -> None:
        """A message that has no answer."""
        it = params.get("textDocument") or {}
        if method == "textDocument/didOpen":
            self.documents[it["uri"]] = Document(it["uri"], raw_of(it["text"]), it["version"])
            self.analyse(it["uri"], 0)
        elif method == "textDocument/didChange":
            for change in params["contentChanges"]:
                self.documents[it["uri"]] = self.documents[it["uri"]].changed(change, it["version"])
            self.analyse(it["uri"], self.delay)
        elif method == "textDocument/didClose":
            self.stop(it["uri"])
            self.documents.pop(it["uri"], None)
            self.connection.notify("textDocument/publishDiagnostics", {"uri": it["uri"], "diagnostics": []})
        elif method == "$/cancelRequest" and params["id"] in self.requests:
            self.requests[params["id"]].stop()

    def quick(self, method: str, kind: str, params: Message) -> Any:
        """The answer of a request that needs no run of the program."""
        if method == "initialize":
            return self.initialise(params)
        if method == "shutdown":
            self.is_closing = True
            return None
        if kind not in QUICK:
            raise Failed(f"{method} is not known here", NOT_FOUND)
        found = QUICK[kind](self.document(params), params)
        return navigation.edit_of(self.client, found) if kind == "rename" else found

    def slow(self, kind: str, params: Message, program: Program) -> Any:
        """The answer of a request that waits for the program."""
        document = self.document(params)
        if kind == "completion":
            return self.completion.items(document, params, program) if self.is_there() else []
        analysis = self.waited(document.uri, program)
        if kind == "hover":
            return hovering.hover(document, params, analysis)
        return hovering.lens(document, analysis) if kind == "codeLens" else hovering.actions(document, params, analysis, self.client)

    def initialise(self, params: Message) -> Message:
        self.client, options = params.get("capabilities") or {}, params.get("initializationOptions") or {}
        self.path = options.get("program") or self.path
        self.delay, self.limit, self.patience = (float(options.get(name, getattr(self, name))) for name in ("delay", "limit", "patience"))
        self.completion = Completion(bool(self.can("textDocument", "completion", "completionItem", "snippetSupport")))
        return {"serverInfo": {"name": "dcvalid"}, "capabilities": CAPABILITIES}

    def can(self, *names: str) -> Any:
        """A capability of the client."""
        found: Any = self.client
        for name in names:
            found = (found or {}).get(name)
        return found

    def document(self, params: Message) -> Document:
        uri = params["textDocument"]["uri"]
        if uri not in self.documents:
            raise Failed("this text is not open")
        return self.documents[uri]

    # ---- what the program says of a text

    def analyse(self, uri: str, delay: float) -> None:
        """Asks about the newest version, after a while without a change; what an older one asked is stopped."""
        self.stop(uri)
        analysis = Analysis(self.documents[uri], Program(self.path), self.publish, self.limit)
        with self.lock:
            self.analyses[uri] = analysis
        if not self.is_there():
            analysis.done.set()
            return
        timer = threading.Timer(delay, self.guarded, (None, lambda _: analysis.run(), analysis.program))
        timer.daemon = True
        timer.start()

    def stop(self, uri: str) -> None:
        with self.lock:
            analysis = self.analyses.pop(uri, None)
        if analysis:
            analysis.stop()

    def publish(self, analysis: Analysis) -> None:
        """Shows the state of an analysis, where the text has no newer version."""
        document = analysis.document
        with self.lock:
            if self.analyses.get(document.uri) is not analysis:
                return
            self.connection.notify("textDocument/publishDiagnostics",
                                   {"uri": document.uri, "version": document.version, "diagnostics": analysis.diagnostics})
        if analysis.summary() and self.can("workspace", "codeLens", "refreshSupport"):
            self.asked += 1
            self.connection.send({"id": f"refresh {self.asked}", "method": "workspace/codeLens/refresh"})

    def waited(self, uri: str, program: Program) -> Optional[Analysis]:
        """The analysis of a text, which is waited for as long as a person waits."""
        end = time.monotonic() + self.patience
        while time.monotonic() < end:
            analysis = self.analyses.get(uri)
            if analysis is None or program.stopped or analysis.done.wait(0.05):
                break
        return self.analyses.get(uri)

    def is_there(self) -> bool:
        """Whether the program can be asked. That it is built takes a while, so the server does not."""
        if not Program(self.path).is_there():
            self.missing("the program is not built: run ./dcvalid --build, or name one by DCVALID or by the option `program`")
            return False
        return True

    def missing(self, message: str) -> None:
        """Says once why there is no answer of the program."""
        if message not in self.told:
            self.told.add(message)
            self.connection.notify("window/showMessage", {"type": 1, "message": f"dcvalid: {message}"})


def add_arguments(parser: argparse.ArgumentParser) -> None:
    parser.epilog = ("An editor starts it, see docs/EDITORS.md. Options of the request initialize: program (a path), and in seconds "
                     f"delay (after a change, {DELAY}), limit (for a decision, {LIMIT:g}) and patience (that a request waits for it, {PATIENCE:g}).")


def run(_: argparse.Namespace, program: Program) -> int:
    out, sys.stdout = sys.stdout, sys.stderr  # nothing else may be written between the messages
    try:
        return Server(Connection(sys.stdin.buffer, out.buffer), program.path).run()
    finally:
        sys.stdout = out
