"""The console's pages over HTTP: each request carries the token that stands in the printed address, and names this host; a request of
somebody else's page is refused by its Origin. What changes is handed out as server-sent events."""
from __future__ import annotations

import hmac
import json
import mimetypes
from http.server import BaseHTTPRequestHandler, ThreadingHTTPServer
from pathlib import Path
from typing import Any
from urllib.parse import parse_qs, urlsplit

from looks import Watch

PAGE = Path(__file__).resolve().parent / "page"
BODY = 65536
FIELDS = {
    "Cache-Control": "no-store", "Referrer-Policy": "no-referrer", "X-Content-Type-Options": "nosniff", "Cross-Origin-Resource-Policy": "same-origin",
    "Content-Security-Policy": "default-src 'self'; img-src 'self' data:; frame-ancestors 'none'; base-uri 'none'; form-action 'none'",
}  # fmt: skip


class Site(ThreadingHTTPServer):
    """What all requests share."""

    daemon_threads = True
    request_queue_size = 64

    def __init__(self, address: str, port: int, names: set[str], token: str, watch: Watch, forms: dict[str, Any]):
        super().__init__((address, port), Handler)
        self.names, self.token, self.watch = names, token, watch
        self.forms = json.dumps(forms, separators=(",", ":")).encode()
        self.files = {path.name: path for path in PAGE.iterdir()}

    def handle_error(self, request: Any, client_address: Any) -> None:
        """A browser that went away is no error of the console."""


class Refused(Exception):
    """A request that is not answered: its status, and why."""


class Handler(BaseHTTPRequestHandler):
    """One connection of a browser."""

    server: Site
    protocol_version = "HTTP/1.1"
    server_version = "console"
    sys_version = ""
    timeout = 60

    def log_message(self, *_: Any) -> None:
        """Addresses carry the token: they are not printed."""

    # ---- who asks

    def path_within(self) -> str:
        """What stands behind the token, for a request that may be answered."""
        host = self.headers.get("Host", "")
        if urlsplit(f"//{host}").hostname not in self.server.names:
            raise Refused(421, "this address is not the console's: start it with --name to give it another name")
        origin = self.headers.get("Origin")
        if origin is not None and origin not in (f"http://{host}", f"https://{host}"):
            raise Refused(403, "a page of another origin may ask nothing")
        if self.headers.get("Sec-Fetch-Site", "none") not in ("none", "same-origin"):
            raise Refused(403, "a page of another site may ask nothing")
        _, token, *rest = urlsplit(self.path).path.split("/", 2)
        if not hmac.compare_digest(token.encode(), self.server.token.encode()):
            raise Refused(403, "the token is wrong: open the address that console/run printed last")
        return rest[0] if rest else ""

    # ---- answers

    def answer(self, status: int, body: bytes, kind: str) -> None:
        self.send_response(status)
        for name, value in FIELDS.items():
            self.send_header(name, value)
        self.send_header("Content-Type", kind)
        self.send_header("Content-Length", str(len(body)))
        self.end_headers()
        if self.command != "HEAD":
            self.wfile.write(body)

    def refuse(self, why: Refused) -> None:
        status, text = why.args
        self.close_connection = True
        self.answer(status, f"{text}\n".encode(), "text/plain; charset=utf-8")

    def do_GET(self) -> None:
        try:
            self.get(self.path_within())
        except Refused as why:
            self.refuse(why)

    do_HEAD = do_GET

    def do_POST(self) -> None:
        try:
            self.post(self.path_within())
        except Refused as why:
            self.refuse(why)

    def get(self, path: str) -> None:
        if path == "forms":
            return self.answer(200, self.server.forms, "application/json")
        if path == "events":
            return self.events(parse_qs(urlsplit(self.path).query).get("look", []))
        file = self.server.files.get(path or "index.html")
        if file is None:
            raise Refused(404, "there is no such page")
        kind = mimetypes.guess_type(file.name)[0] or "application/octet-stream"
        self.answer(200, file.read_bytes(), f"{kind}; charset=utf-8")

    def post(self, path: str) -> None:
        """A method that a page asks for: `{"method": .., "params": [..]}`."""
        size = self.headers.get("Content-Length", "")
        if path != "ask" or not size.isdecimal() or int(size) > BODY:
            raise Refused(400, "no question")
        if self.headers.get("Content-Type", "").split(";")[0] != "application/json":
            raise Refused(415, "a question is JSON")
        try:
            asked = json.loads(self.rfile.read(int(size)))
            method, params = str(asked["method"]), list(asked["params"])
        except (ValueError, KeyError, TypeError):
            raise Refused(400, "no question") from None
        self.answer(200, json.dumps(self.server.watch.do(method, params)).encode(), "application/json")

    def events(self, topics: list[str]) -> None:
        """Hands out what changes, for as long as the page is there."""
        self.close_connection = True
        self.send_response(200)
        for name, value in FIELDS.items():
            self.send_header(name, value)
        self.send_header("Content-Type", "text/event-stream")
        self.end_headers()
        looker = self.server.watch.look(topics[:64])
        try:
            while True:
                found = looker.take(5)
                self.wfile.write("".join(f"data: {text}\n\n" for text in found).encode() or b": here\n\n")
        except OSError:
            pass
        finally:
            self.server.watch.leave(looker)
