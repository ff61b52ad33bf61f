"""A relay in front of a registry, which may lie: it changes what the registry answers."""

import contextlib
import http.client
import http.server
import threading
from collections.abc import Callable

# What becomes of the body of an answer, by the address.
Lie = Callable[[str, bytes], bytes]

_HANDED_ON = ("Content-Type", "Link", "Location", "X-Content-Type-Options")


def no_lie(_: str, body: bytes) -> bytes:
    """Leaves an answer as it is."""
    return body


class Relay(http.server.ThreadingHTTPServer):
    """Hands on what a registry answers, with a lie."""

    daemon_threads = True

    def __init__(self, port: int) -> None:
        super().__init__(("127.0.0.1", 0), _Handler)
        self.of = port
        self.lie: Lie = no_lie
        self.address = f"http://127.0.0.1:{self.server_address[1]}"
        self._thread = threading.Thread(target=self.serve_forever, args=(0.02,), daemon=True)
        self._thread.start()

    def end(self) -> None:
        """Hands on nothing more."""
        self.shutdown()
        self._thread.join()
        self.server_close()


class _Handler(http.server.BaseHTTPRequestHandler):
    def do_GET(self) -> None:
        """Asks the registry the same, and hands the answer on."""
        self._hand_on(None)

    def do_POST(self) -> None:
        """The same with a body."""
        self._hand_on(self.rfile.read(int(self.headers["Content-Length"])))

    def _hand_on(self, asked: bytes | None) -> None:
        relay = self.server
        assert isinstance(relay, Relay)
        sent = {name: self.headers[name] for name in ("Accept", "Content-Type") if name in self.headers}
        with contextlib.closing(http.client.HTTPConnection("127.0.0.1", relay.of, timeout=60)) as connection:
            connection.request(self.command, self.path, asked, sent)
            response = connection.getresponse()
            body = relay.lie(self.path, response.read())
        self.send_response(response.status)
        for name in _HANDED_ON:
            if name in response.headers:
                self.send_header(name, response.headers[name])
        self.send_header("Content-Length", str(len(body)))
        self.end_headers()
        self.wfile.write(body)

    def log_message(self, *_: object) -> None:
        """Says nothing."""
