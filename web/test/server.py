"""A server of this machine, for pages in a browser: files, and the faults of servers; what it was asked for is kept."""

import http.server
import threading
import time
from typing import Any
from urllib.parse import unquote

PIECE, PAUSE = 1 << 16, 0.05


class Handler(http.server.BaseHTTPRequestHandler):
    """Answers from a dictionary: a body, or what is done in its place."""

    server: "Server"

    def do_GET(self) -> None:
        """One file, or a fault of a server."""
        self.server.asked.append(self.path)
        body = self.server.files.get(unquote(self.path), 404)
        if isinstance(body, str):
            self.answer(302, b"", {"Location": body})
        elif isinstance(body, int):
            self.answer(body, b"not here")
        elif self.path.startswith("/cut"):
            self.answer(200, body[: len(body) // 2], {"Content-Length": str(len(body))})
        elif self.path.startswith("/huge"):
            self.answer(200, body, {"Content-Length": "600000000"})
        else:
            self.answer(200, body, slowly=self.path.startswith("/slow"))

    def answer(self, status: int, body: bytes, heads: dict[str, str] | None = None, slowly: bool = False) -> None:
        """Sends an answer, and closes the connection."""
        self.send_response(status)
        for name, value in {"Content-Length": str(len(body)), "Cache-Control": "no-store", **(heads or {})}.items():
            self.send_header(name, value)
        self.end_headers()
        try:
            for at in range(0, len(body), PIECE):
                self.wfile.write(body[at : at + PIECE])
                time.sleep(PAUSE if slowly else 0)
        except OSError:
            pass  # the page went away

    def log_message(self, format: str, *args: Any) -> None:  # pylint: disable=redefined-builtin
        """Says nothing."""


class Server(http.server.ThreadingHTTPServer):
    """A server of this machine, and what it was asked for."""

    daemon_threads = True

    def __init__(self, files: dict[str, bytes | str | int]):
        super().__init__(("127.0.0.1", 0), Handler)
        self.files, self.asked = files, list[str]()
        threading.Thread(target=self.serve_forever, daemon=True).start()

    @property
    def url(self) -> str:
        """Where it is."""
        return f"http://127.0.0.1:{self.server_port}"

    def close(self) -> None:
        """Ends it."""
        self.shutdown()
        self.server_close()
