"""The language server: the sources that an editor has open, and the messages about them."""
from __future__ import annotations

import os
import sys
import traceback
from typing import Any

from ..engine.deadline import deadline
from ..engine.sources import Assembler, Limit, Overrun
from ..model.errors import CorewarError
from ..model.settings import Settings
from .answers import ANSWERS, LEGEND, Params, diagnostic
from .text import Error, Text
from .wire import Message, Wire

# Errors are looked for once no message has come for this many seconds. A source is assembled within these limits, and
# the rest of an answer has the same limit of time.
IDLE_SECONDS, LIMIT = 0.05, Limit(2, 500)
CAPABILITIES = {
    "textDocumentSync": {"openClose": True, "change": 1},
    "hoverProvider": True,
    "definitionProvider": True,
    "referencesProvider": True,
    "renameProvider": {"prepareProvider": True},
    "completionProvider": {"triggerCharacters": ["."]},
    "documentSymbolProvider": True,
    "foldingRangeProvider": True,
    "codeActionProvider": {"codeActionKinds": ["quickfix"]},
    "semanticTokensProvider": {"legend": {"tokenTypes": LEGEND, "tokenModifiers": []}, "full": True},
}
CLOSED = "textDocument/didClose"
NOTICES = ("textDocument/didOpen", "textDocument/didChange", CLOSED)
# Error codes of the protocol.
NOT_JSON, NO_METHOD, INTERNAL, FAILED = -32700, -32601, -32603, -32803


class Server:
    """A server for one editor, with the sources that it has open."""

    def __init__(self, wire: Wire, settings: Settings, version: str) -> None:
        self.wire, self.settings, self.version = wire, settings, version
        self.texts: dict[str, Text] = {}
        self.versions: dict[str, Any] = {}
        # The sources that have changed since their errors were sent.
        self.changed: set[str] = set()
        self.assembler = Assembler(LIMIT)

    def serve(self) -> int:
        """Answers messages until the editor ends the server, and returns the exit status."""
        is_shut_down = False
        with self.assembler:
            while True:
                if self.changed and self.wire.is_quiet(IDLE_SECONDS):
                    self.send_errors()
                try:
                    message = self.wire.receive()
                except (ValueError, RecursionError) as error:
                    self.wire.send({"id": None, "error": {"code": NOT_JSON, "message": str(error)}})
                    continue
                if message is None or message.get("method") == "exit":
                    return 0 if is_shut_down else 1
                is_shut_down = is_shut_down or message.get("method") == "shutdown"
                self.handle(message)

    def handle(self, message: Message) -> None:
        """Takes a message, and answers a request."""
        method, params = message.get("method"), message.get("params") or {}
        if method is None:
            return
        try:
            with deadline(LIMIT):
                answer = {"result": self.answer(method, params)}
        except NotImplementedError:
            answer = {"error": {"code": NO_METHOD, "message": f"{method} is not supported"}}
        except CorewarError as refused:
            answer = {"error": {"code": FAILED, "message": str(refused)}}
        except Exception as error:
            # A mistake in this package must not end the server.
            traceback.print_exc()
            answer = {"error": {"code": INTERNAL, "message": f"internal error: {error!r}"}}
        if "id" in message:
            self.wire.send({"id": message["id"], **answer})

    def answer(self, method: str, params: Params) -> Any:
        """Returns the result of a request, or None for a notification. Raises CorewarError."""
        if method == "initialize":
            return {"capabilities": CAPABILITIES, "serverInfo": {"name": "corewar", "version": self.version}}
        if method == "shutdown":
            return None
        if method not in (*ANSWERS, *NOTICES):
            raise NotImplementedError
        uri = params["textDocument"]["uri"]
        if method in ANSWERS:
            if uri not in self.texts:
                raise CorewarError(f"{uri} is not open")
            return ANSWERS[method](self.texts[uri], params)
        if method == CLOSED:
            self.texts.pop(uri, None)
            self.versions.pop(uri, None)
        else:
            text = (params.get("contentChanges") or [params["textDocument"]])[-1]["text"]
            self.versions[uri] = params["textDocument"].get("version")
            # Until the text has been read, its error is that this takes too long.
            self.texts[uri] = self.text("", f"reading the source takes more than {LIMIT.seconds} s of CPU time")
            self.changed.add(uri)
            self.texts[uri] = self.text(text)
        self.changed.add(uri)
        return None

    def text(self, text: str, refused: str = "") -> Text:
        return Text(text, self.assembler.assemble, self.settings, refused)

    def send_errors(self) -> None:
        """Sends the errors of the sources that have changed."""
        while self.changed:
            uri = self.changed.pop()
            try:
                text = self.texts.get(uri)
                with deadline(LIMIT):
                    found = [diagnostic(text, error) for error in text.errors] if text else []
            except Overrun as overrun:
                found = [diagnostic(self.text(""), Error(str(overrun), []))]
            except Exception:
                # A mistake in this package must not end the server, here either.
                traceback.print_exc()
                continue
            params = {"uri": uri, "diagnostics": found}
            # By the version, an editor knows whether the text has changed again.
            version = {"version": self.versions[uri]} if self.versions.get(uri) is not None else {}
            self.wire.send({"method": "textDocument/publishDiagnostics", "params": {**params, **version}})


def serve(settings: Settings, version: str) -> int:
    """Serves an editor over standard input and output, which carries only messages."""
    # What anything else prints goes to standard error.
    writer = os.dup(sys.stdout.fileno())
    os.dup2(sys.stderr.fileno(), sys.stdout.fileno())
    return Server(Wire(sys.stdin.fileno(), writer), settings, version).serve()
