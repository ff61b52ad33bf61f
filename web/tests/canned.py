"""A registry of canned answers, for the page's tests: what registry_answers.json has, in the forms of docs/HTTP.md, or
what a test says in place of one.
"""
import contextlib
import http.server
import json
import pathlib
import threading
import urllib.parse
from collections.abc import Callable
from typing import Any

PRINTED = pathlib.Path(__file__).parent / "registry_answers.json"
MADE: dict[str, Any] = json.loads(PRINTED.read_text(encoding="utf-8"))
# So many records are in a page of a log, and so many leaves in one of these.
PAGE, LEAVES = 2, 3
# What an answer becomes: another status, and another body; an endless one where it is true.
Answer = tuple[int, bytes]
Lie = Callable[[str, Answer], Answer | bool]


def problem(status: int, name: str) -> Answer:
    """An error."""
    return status, json.dumps({"status": status, "name": name, "detail": "it is a test"}).encode()


class Canned(http.server.ThreadingHTTPServer):
    """The server, until it is closed."""

    daemon_threads = True

    def __init__(self) -> None:
        super().__init__(("127.0.0.1", 0), _Handler)
        self.answers: dict[str, Any] = {}
        self.lie: Lie = _nothing
        self.asked: list[str] = []
        # Answers whose end is held back, until the test lets them go.
        self.held, self.let_go = "", threading.Event()
        self.begin("newest")
        self.address = f"http://127.0.0.1:{self.server_address[1]}/"
        self._thread = threading.Thread(target=self.serve_forever, args=(0.02,), daemon=True)
        self._thread.start()

    def begin(self, name: str, **others: Any) -> None:
        """Answers as one of the registries does, with these parts in place of its own."""
        self.answers = {**MADE["answers"][name], **others}
        self.lie = _nothing
        self.asked.clear()
        self.held = ""
        self.let_go.clear()

    def close(self) -> None:
        """Ends it."""
        self.let_go.set()
        self.shutdown()
        self.server_close()
        self._thread.join()

    def answer(self, path: str, words: dict[str, str]) -> Answer:
        """The true answer to a request."""
        parts, it = path.split("/")[2:], self.answers
        start = int(words.get("from", "0"))
        if parts[0] == "logs":
            envelopes = it["logs"].get(parts[1], [])
            return 200, "".join(f"{line}\n" for line in envelopes[start : start + PAGE]).encode()
        if parts[0] == "leaves":
            return 200, "".join(f"{' '.join(leaf)}\n" for leaf in it["leaves"][start : start + LEAVES]).encode()
        found = self._value("/".join(parts), words, start)
        return (200, json.dumps(found).encode()) if found is not None else problem(404, "NoLeaf")

    def _value(self, name: str, words: dict[str, str], start: int) -> Any:
        it, length = self.answers, len(self.answers["leaves"])
        under = {"checkpoint": it["checkpoint"]}
        if name == "checkpoint":
            return it["checkpoint"]
        if name == "leaf":
            return {"registryIndex": it["leaves"].index([words["log"], words["record"]])}
        if name == "proof/inclusion":
            return {**under, "proof": it["inclusion"][int(words["leaf"])]}
        if name == "proof/map":
            if start > length:
                return None
            proof = "" if start == length else it["consistency"][start]
            beside = {"consistency": proof} if "from" in words else {}
            return {**under, **beside, "logId": words["log"], **it["map"][words["log"]]}
        return None


def _nothing(_: str, answer: Answer) -> Answer:
    return answer


class _Handler(http.server.BaseHTTPRequestHandler):
    def do_GET(self) -> None:
        """Answers."""
        canned = self.server
        assert isinstance(canned, Canned)
        canned.asked.append(self.path)
        found = urllib.parse.urlsplit(self.path)
        answer = canned.lie(self.path, canned.answer(found.path, dict(urllib.parse.parse_qsl(found.query))))
        # The page need not wait for the end.
        with contextlib.suppress(OSError):
            self._send(canned, answer)

    def _send(self, canned: Canned, answer: Answer | bool) -> None:
        if isinstance(answer, bool):
            self._begin(200, 10**9)
            self._never_end(canned, answer)
            return
        status, body = answer
        if canned.held and canned.held in self.path:
            canned.let_go.wait(60)
        self._begin(status, len(body))
        self.wfile.write(body)

    def _begin(self, status: int, length: int) -> None:
        self.send_response(status)
        # So that a page of another place may read it.
        self.send_header("Access-Control-Allow-Origin", "*")
        if 300 <= status < 400:
            self.send_header("Location", "/v1/checkpoint")
        self.send_header("Content-Length", str(length))
        self.end_headers()

    def _never_end(self, canned: Canned, is_more: bool) -> None:
        """Sends what never ends, or nothing more."""
        while is_more and not canned.let_go.is_set():
            self.wfile.write(b"00" * 50_000)
        canned.let_go.wait(60)

    def log_message(self, format: str, *args: object) -> None:
        """Says nothing."""
