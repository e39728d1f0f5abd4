"""Serves a page on loopback. It stands outside what is proved."""
from collections.abc import Callable
from contextlib import suppress
from http.server import BaseHTTPRequestHandler, ThreadingHTTPServer
from threading import Thread
from types import TracebackType


class Page:
    """Serves what a function returns as HTML, made anew for each request. It is a context manager, which ends it."""

    def __init__(self, made: Callable[[], str], port: int = 0) -> None:
        """Begins to serve, at a port that is free if 0 is given. Raises `OSError` if the port is taken."""
        self._server = ThreadingHTTPServer(("127.0.0.1", port), _handler(made))
        self._thread = Thread(target=self._server.serve_forever, kwargs={"poll_interval": 0.1}, daemon=True)
        self._thread.start()

    @property
    def address(self) -> str:
        """Where the page is."""
        host, port = self._server.socket.getsockname()
        return f"http://{host}:{port}/"

    def __enter__(self) -> "Page":
        return self

    def __exit__(self, kind: type[BaseException] | None, error: BaseException | None, trace: TracebackType | None) -> None:
        self._server.shutdown()
        self._server.server_close()


def _handler(made: Callable[[], str]) -> type[BaseHTTPRequestHandler]:
    """The class that answers requests with what the function returns."""

    class Handler(BaseHTTPRequestHandler):
        def do_GET(self) -> None:
            if self.path != "/":
                self.send_error(404)
                return
            body = made().encode()
            self.send_response(200)
            self.send_header("Content-Type", "text/html; charset=utf-8")
            self.send_header("Content-Length", str(len(body)))
            self.end_headers()
            with suppress(ConnectionError):
                self.wfile.write(body)

        def log_message(self, format: str, *arguments: object) -> None:
            """Tells nothing of each request."""

    return Handler
