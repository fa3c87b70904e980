"""Serves the page over a store, on this machine alone, to whoever has the address with its token."""

from __future__ import annotations

import hmac
import json
import secrets
import threading
from http import HTTPStatus
from http.server import BaseHTTPRequestHandler, ThreadingHTTPServer
from pathlib import Path
from typing import Any, Dict, Optional, Tuple

from hac_web_views import Views

_FILES = Path(__file__).resolve().parent / "web"
_SERVED = {"": "page.html", "page.css": "page.css", "page.js": "page.js"}
_KINDS = {".html": "text/html", ".css": "text/css", ".js": "text/javascript"}
_MOST = 8 * 1_048_576  # Bytes of a question: a text of a MiB, spelled in JSON.
_WAIT = 20.0  # Seconds that a page waits for changes at a time.
_POLICY = (
    "default-src 'none'; script-src 'self'; style-src 'self'; connect-src 'self'; img-src data:; "
    "base-uri 'none'; form-action 'none'; frame-ancestors 'none'"
)


class Server(ThreadingHTTPServer):
    """Listens at 127.0.0.1."""

    daemon_threads = True

    def __init__(self, views: Views, port: int) -> None:
        super().__init__(("127.0.0.1", port), _Handler)
        self.views = views
        self.token = secrets.token_urlsafe(24)
        self.stopped = threading.Event()

    @property
    def address(self) -> str:
        return f"http://127.0.0.1:{self.server_port}/{self.token}/"

    def handle_error(self, request: Any, client_address: Any) -> None:
        """A browser that went away in the middle is no fault."""


class _Handler(BaseHTTPRequestHandler):
    server: Server
    protocol_version = "HTTP/1.1"
    timeout = 60

    def do_GET(self) -> None:
        place = self._place()
        if place is None:
            return
        name = _SERVED.get(place)
        if name is None:
            self._refuse(HTTPStatus.NOT_FOUND)
            return
        content = (_FILES / name).read_bytes()
        self._send(HTTPStatus.OK, content, _KINDS[Path(name).suffix] + "; charset=utf-8")

    def do_POST(self) -> None:
        place = self._place()
        if place is None:
            return
        asked = self._body()
        if asked is None:
            self._refuse(HTTPStatus.BAD_REQUEST)
        elif place == "ask":
            self._answer(self.server.views.answer(asked))
        elif place == "wait":
            seen = asked.get("seen")
            self._answer(self.server.views.wait(seen if isinstance(seen, int) else -1, _WAIT))
        else:
            self._refuse(HTTPStatus.NOT_FOUND)

    def _place(self) -> Optional[str]:
        """What is asked for behind the token; nothing, and a refusal, for whoever has no right to ask."""
        own = {f"127.0.0.1:{self.server.server_port}", f"localhost:{self.server.server_port}"}
        origin = self.headers.get("Origin")
        if self.headers.get("Host") not in own or (origin is not None and origin not in {f"http://{host}" for host in own}):
            self._refuse(HTTPStatus.FORBIDDEN)
            return None
        token, slash, place = self.path.partition("?")[0][1:].partition("/")
        if not slash or not hmac.compare_digest(token.encode(), self.server.token.encode()):
            self._refuse(HTTPStatus.NOT_FOUND)
            return None
        return place

    def _body(self) -> Optional[Dict[str, Any]]:
        """The question: an object in JSON, which no page of another origin can send unasked."""
        length = self.headers.get("Content-Length", "")
        if not length.isascii() or not length.isdigit() or int(length) > _MOST:
            return None
        if self.headers.get("Content-Type") != "application/json":
            return None
        try:
            asked = json.loads(self.rfile.read(int(length)))
        except (ValueError, RecursionError):
            return None
        return asked if isinstance(asked, dict) else None

    def _answer(self, answer: Dict[str, Any]) -> None:
        self._send(HTTPStatus.OK, json.dumps(answer).encode("ascii"), "application/json")

    def _refuse(self, status: HTTPStatus) -> None:
        self.close_connection = True
        self._send(status, status.phrase.encode("ascii") + b"\n", "text/plain; charset=utf-8")

    def _send(self, status: HTTPStatus, content: bytes, kind: str) -> None:
        headers: Tuple[Tuple[str, str], ...] = (
            ("Content-Type", kind),
            ("Content-Length", str(len(content))),
            ("Content-Security-Policy", _POLICY),
            ("Cache-Control", "no-store"),
            ("Referrer-Policy", "no-referrer"),
            ("X-Content-Type-Options", "nosniff"),
            ("Cross-Origin-Opener-Policy", "same-origin"),
            ("Cross-Origin-Resource-Policy", "same-origin"),
        )
        self.send_response(status)
        for name, value in headers:
            self.send_header(name, value)
        if self.close_connection:
            self.send_header("Connection", "close")
        self.end_headers()
        self.wfile.write(content)

    def version_string(self) -> str:
        return "hac-web"

    def log_message(self, format: str, *args: Any) -> None:
        """Nothing is told of requests: their lines have the token."""
