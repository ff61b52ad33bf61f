"""A small registry over HTTP: `python3 server.py FILE [PORT]` serves the logs in a SQLite file, and prints the address.

    POST /package/NAME                       an envelope: its record is appended to the package's log
    GET  /package                            the names of all packages, a line each
    GET  /package/NAME/records?from=PLACE    the envelopes from a place on, a line each in hex, 1000 at most
    GET  /package/NAME/head                  the id of the last record
    GET  /package/NAME/latest?requirement=R  the greatest release that is not yanked and meets the requirement

and the same under /operator, but for `latest`. An error is JSON with its name and its sentence.
"""

import argparse
import json
import pathlib
import re
import urllib.parse
from http import HTTPStatus
from http.server import BaseHTTPRequestHandler, ThreadingHTTPServer

from store import Store
from weoldrin import BadArgument, Error, LogKind, NoEnvelope, OutOfMemory, Refused, UnknownAlgorithm

LIMIT = 1000
# An envelope's bytes.
GREATEST = 1 << 20
_NAME = re.compile(r"[a-z0-9:-]{1,128}")
_STATUSES: dict[type[Error], HTTPStatus] = {
    NoEnvelope: HTTPStatus.BAD_REQUEST,
    BadArgument: HTTPStatus.BAD_REQUEST,
    Refused: HTTPStatus.UNPROCESSABLE_ENTITY,
    UnknownAlgorithm: HTTPStatus.UNPROCESSABLE_ENTITY,
    OutOfMemory: HTTPStatus.SERVICE_UNAVAILABLE,
}


class NotFound(Exception):
    """There is no such thing."""


class Registry(ThreadingHTTPServer):
    """The server, with its logs."""

    daemon_threads = True
    request_queue_size = 64

    def __init__(self, address: tuple[str, int], store: Store) -> None:
        super().__init__(address, Handler)
        self.store = store


class Handler(BaseHTTPRequestHandler):
    """Answers a request."""

    protocol_version = "HTTP/1.1"
    server: Registry

    def do_GET(self) -> None:
        """Looks something up."""
        try:
            self._reply(HTTPStatus.OK, self._looked_up())
        except Error as error:
            self._refuse(_STATUSES.get(type(error), HTTPStatus.INTERNAL_SERVER_ERROR), error.name, error.sentence)
        except NotFound:
            self._refuse(HTTPStatus.NOT_FOUND, "NotFound", "there is no such thing")

    def do_POST(self) -> None:
        """Publishes a record."""
        length = self.headers.get("Content-Length", "")
        if not length.isdecimal() or len(length) > 18 or int(length) > GREATEST:
            # The body is not read, so that the connection can't go on.
            self.close_connection = True
            self._refuse(HTTPStatus.REQUEST_ENTITY_TOO_LARGE, "TooLong", f"an envelope has at most {GREATEST} bytes")
            return
        envelope = self.rfile.read(int(length))
        try:
            kind, name, rest, _ = self._path()
            if rest:
                raise NotFound
            new = self.server.store.publish(kind, name, envelope)
            self._reply(HTTPStatus.CREATED, json.dumps({"place": new.place, "id": new.id}))
        except Error as error:
            self._refuse(_STATUSES.get(type(error), HTTPStatus.INTERNAL_SERVER_ERROR), error.name, error.sentence)
        except NotFound:
            self._refuse(HTTPStatus.NOT_FOUND, "NotFound", "there is no such thing")

    def _path(self) -> tuple[LogKind, str, str, dict[str, str]]:
        """What is asked of which log, with which words."""
        try:
            url = urllib.parse.urlsplit(self.path)
        except ValueError:
            raise NotFound from None
        _, kind, name, rest = (*urllib.parse.unquote(url.path).split("/", 3), "", "", "")[:4]
        if kind not in ("package", "operator") or (name and not _NAME.fullmatch(name)):
            raise NotFound
        return LogKind[kind.upper()], name, rest, dict(urllib.parse.parse_qsl(url.query))

    def _looked_up(self) -> str:
        kind, name, look_up, words = self._path()
        store = self.server.store
        match look_up:
            case "" if not name:
                return "".join(f"{it}\n" for it in store.names(kind))
            case "records" if name:
                start = words.get("from", "0")
                if not start.isdecimal() or len(start) > 18:
                    raise NotFound
                return "".join(f"{it.hex()}\n" for it in store.records(kind, name, int(start), LIMIT))
            case "head" if name:
                if (head := store.head(kind, name)) is None:
                    raise NotFound
                return f"{head}\n"
            case "latest" if name and kind is LogKind.PACKAGE:
                if (release := store.latest(name, words.get("requirement", "*"))) is None:
                    raise NotFound
                return json.dumps({"version": release.version, "content": release.content, "record": release.record_id})
        raise NotFound

    def _refuse(self, status: HTTPStatus, name: str, sentence: str) -> None:
        self._reply(status, json.dumps({"error": name, "sentence": sentence}))

    def _reply(self, status: HTTPStatus, text: str) -> None:
        body = text.encode()
        self.send_response(status)
        self.send_header("Content-Type", "application/json" if text.startswith("{") else "text/plain")
        self.send_header("Content-Length", str(len(body)))
        self.end_headers()
        self.wfile.write(body)

    def log_message(self, format: str, *args: object) -> None:
        """Writes no line for each request."""


def main() -> None:
    """Serves until it is stopped."""
    parser = argparse.ArgumentParser(description=__doc__, formatter_class=argparse.RawDescriptionHelpFormatter)
    parser.add_argument("file", type=pathlib.Path)
    parser.add_argument("port", type=int, nargs="?", default=0)
    words = parser.parse_args()
    with Registry(("127.0.0.1", words.port), Store(words.file)) as server:
        host, port = server.server_address[:2]
        print(f"http://{host!s}:{port}", flush=True)
        server.serve_forever()


if __name__ == "__main__":
    main()
