"""The server of the site. It answers only this machine, and only requests that have its token."""
from __future__ import annotations

import json
import os
import secrets
import webbrowser
from collections.abc import Callable, Iterator
from contextlib import contextmanager, nullcontext
from dataclasses import dataclass, field
from http.server import BaseHTTPRequestHandler, ThreadingHTTPServer
from pathlib import Path
from tempfile import NamedTemporaryFile
from typing import Any
from urllib.parse import unquote, urlsplit

from ..engine.sources import Assembler
from ..model.errors import CorewarError
from .contests import league
from .folder import ChangedOnDisk, Folder

HOST = "127.0.0.1"
TYPES = {".html": "text/html; charset=utf-8", ".js": "text/javascript; charset=utf-8", ".wasm": "application/wasm"}
HEADERS = {
    "Cache-Control": "no-cache",
    "Content-Security-Policy": "base-uri 'none'; form-action 'none'; frame-ancestors 'none'",
    "Cross-Origin-Resource-Policy": "same-origin",
    "Referrer-Policy": "no-referrer",
    "X-Content-Type-Options": "nosniff",
    "X-Frame-Options": "DENY",
}
# The maximum size of a message: a source as JSON has at most six times its bytes, and a league has many sources.
MAX_MESSAGE_SIZE = 64 << 20
# The element by which the page finds out that there is a server, with the key by which browsers store unsaved texts.
META = '<meta name="corewar-server" content="api" data-key="{}">\n<title>'


@dataclass
class ServedSite:
    """What is served: the folder of the built site, the sources, and the file of stored results."""

    site: Path
    folder: Folder
    results: str | None = None
    token: str = field(default_factory=lambda: secrets.token_urlsafe(16))
    assembler: Assembler = field(default_factory=Assembler)


class Handler(BaseHTTPRequestHandler):
    """Answers requests below `/TOKEN/`: the files of the site, and `api`, the sources and leagues."""

    served: ServedSite
    server: ThreadingHTTPServer

    def log_message(self, *_: object) -> None:
        """Logs nothing: the addresses contain the token."""

    def do_GET(self) -> None:
        path = self._path()
        if path == "api/sources":
            self._send_json(200, self.served.folder.all())
        elif path is not None:
            self._send_file(path or "index.html")

    def do_PUT(self) -> None:
        path = self._path()
        if path is not None and path.startswith("api/sources/"):
            name = path.removeprefix("api/sources/")
            self._handle(lambda given: self._save(name, given))
        elif path is not None:
            self._refuse(404, "not found")

    def do_POST(self) -> None:
        path = self._path()
        if path == "api/league":
            self._handle(self._run_league)
        elif path is not None:
            self._refuse(404, "not found")

    def _path(self) -> str | None:
        """Returns the path below the token, or None if the request was rejected."""
        host, port = self.headers.get("Host", ""), self.server.server_address[1]
        is_own = host in (f"{HOST}:{port}", f"localhost:{port}")
        path, below = urlsplit(self.path).path, f"/{self.served.token}/"
        if not is_own or self.headers.get("Origin", f"http://{host}") != f"http://{host}":
            self._refuse(403, "this server answers only its own page")
        elif not secrets.compare_digest(path[: len(below)].encode(), below.encode()):
            self._refuse(404, "not found")
        else:
            return unquote(path[len(below) :])
        return None

    def _refuse(self, status: int, why: str) -> None:
        # What was sent is not read, so nothing can follow it.
        self.close_connection = True
        self._send_json(status, {"fault": why})

    def _send_json(self, status: int, value: object) -> None:
        self._send(status, json.dumps(value).encode(), "application/json")

    def _send(self, status: int, body: bytes, kind: str) -> None:
        self._begin(status, {"Content-Type": kind, "Content-Length": str(len(body))})
        self.wfile.write(body)

    def _begin(self, status: int, headers: dict[str, str]) -> None:
        self.send_response(status)
        for name, value in {**HEADERS, **headers}.items():
            self.send_header(name, value)
        self.end_headers()

    def _send_file(self, name: str) -> None:
        path = self.served.site / name
        # Unlike `Path.is_file`, this raises no error for a name that is too long.
        if path.parent != self.served.site or path.suffix not in TYPES or not os.path.isfile(path):
            return self._refuse(404, "not found")
        body = path.read_bytes()
        if name == "index.html":
            body = body.replace(b"<title>", META.format(self.served.folder.key).encode(), 1)
        self._send(200, body, TYPES[path.suffix])

    def _handle(self, act: Callable[[dict[str, Any]], None]) -> None:
        """Calls a function with the message of the request. If the function raises an error, that is the answer."""
        length = self.headers.get("Content-Length", "")
        # Python reads no number of thousands of digits.
        if not length.isdecimal() or len(length) > 10 or int(length) > MAX_MESSAGE_SIZE:
            return self._refuse(413, f"expected a message of at most {MAX_MESSAGE_SIZE} bytes")
        try:
            act(json.loads(self.rfile.read(int(length))))
        except ChangedOnDisk as fault:
            self._send_json(409, {"fault": str(fault), "seen": fault.seen})
        except CorewarError as fault:
            self._send_json(400, {"fault": str(fault)})
        except (KeyError, TypeError, ValueError, AttributeError, OverflowError, RecursionError):
            self._send_json(400, {"fault": "this message is not one of the page's"})

    def _save(self, name: str, given: dict[str, Any]) -> None:
        self._send_json(200, {"seen": self.served.folder.save(name, str(given["text"]), str(given["seen"]))})

    def _run_league(self, given: dict[str, Any]) -> None:
        """Sends the results of matches as they end, some in each line. A later error is the last line."""
        lines = league(self.served.assembler, given, self.served.results)
        line = next(lines)
        self.close_connection = True
        self._begin(200, {"Content-Type": "application/x-ndjson", "Connection": "close"})
        try:
            while True:
                self.wfile.write(json.dumps(line).encode() + b"\n")
                line = next(lines)
        except CorewarError as fault:
            self.wfile.write(json.dumps({"fault": str(fault)}).encode() + b"\n")
        except (StopIteration, ConnectionError):
            # The page is closed, or all matches are run.
            pass
        finally:
            lines.close()


class Server(ThreadingHTTPServer):
    """The server, on a free port if the wanted one cannot be used; `refusal` is the reason for that, or ""."""

    daemon_threads = True

    def __init__(self, served: ServedSite, port: int) -> None:
        handler, self.refusal = type("Handler", (Handler,), {"served": served, "protocol_version": "HTTP/1.1"}), ""
        try:
            super().__init__((HOST, port), handler)
        except OSError as fault:
            self.refusal = fault.strerror or "error"
            super().__init__((HOST, 0), handler)

    def handle_error(self, *_: object) -> None:
        """Says nothing: a browser may end a connection at any time."""


def serve(served: ServedSite, port: int, opens_browser: bool, say: Callable[[str], object]) -> None:
    """Serves until it is stopped."""
    with Server(served, port) as server:
        if server.refusal:
            say(f"Port {port}: {server.refusal}. Browsers store unsaved texts by port; those of {port} are not shown.")
        address = f"http://{HOST}:{server.server_address[1]}/{served.token}/"
        say(f"The site is at {address} (press Ctrl-C to stop)")
        with open_browser(address) if opens_browser else nullcontext(), served.assembler:
            server.serve_forever()


@contextmanager
def open_browser(address: str) -> Iterator[None]:
    """Opens an address in the browser, through a page that redirects there and that only this user may read, since all
    users of the machine see the arguments of a process.
    """
    with NamedTemporaryFile("w", prefix="corewar-", suffix=".html") as page:
        page.write(f'<meta http-equiv="refresh" content="0; url={address}">\n')
        page.flush()
        webbrowser.open(Path(page.name).as_uri())
        yield
