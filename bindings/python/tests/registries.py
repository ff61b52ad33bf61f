"""A small honest registry in memory, which answers as docs/HTTP.md says by the trees of trees.py."""

from __future__ import annotations

import base64
import contextlib
import functools
import http.server
import io
import json
import threading
import time
import urllib.parse
from collections.abc import Callable, Iterator
from typing import IO, Any

from weoldrin import (
    Checkpoint,
    Log,
    OperatorLog,
    PackageLog,
    Refused,
    SignedCheckpoint,
    log_id,
    p256,
    record_id,
    records,
)
from weoldrin.registry import command

from . import published, trees
from .trees import Leaf, SparseMap, hash_text

OPERATOR = log_id("operator")
ONE, TWO = log_id("package", "a:one"), log_id("package", "a:two")
# So much an answer has at most.
RECORDS, LEAVES, ENVELOPES = 3, 4, 5

Query = dict[str, str]
Reply = tuple[int, dict[str, str], bytes]
Twist = Callable[[str, Query, Reply], Reply]


def json_reply(value: object, status: int = 200) -> Reply:
    """A reply of JSON."""
    kind = "application/json" if status < 300 else "application/problem+json"
    return status, {"Content-Type": kind}, json.dumps(value).encode()


def problem(status: int, name: str, **more: object) -> Reply:
    """An error."""
    members = {"type": "about:blank", "title": "t", "status": status, "detail": "a sentence", "name": name}
    return json_reply({**members, **more}, status)


def changed(reply: Reply, **members: object) -> Reply:
    """A reply of JSON with other members."""
    return json_reply({**json.loads(reply[2]), **members})


class Registry:
    """A registry. Alice begins all logs and signs the checkpoints."""

    def __init__(self, alice: p256.SigningKey | None = None) -> None:
        self.alice = alice or p256.SigningKey.generate()
        self.signer, self.clock = self.alice, 0
        self.logs: dict[str, list[bytes]] = {}
        self.leaves: list[Leaf] = []
        self.heads: dict[str, str] = {}
        self.signed: list[SignedCheckpoint] = []
        self.maps: dict[int, tuple[SparseMap, dict[str, str]]] = {}
        self.twist: Twist | None = None

    def copy(self) -> Registry:
        """Another registry of the same past."""
        it = Registry(self.alice)
        it.logs = {name: list(envelopes) for name, envelopes in self.logs.items()}
        it.leaves, it.heads, it.signed = list(self.leaves), dict(self.heads), list(self.signed)
        it.signer, it.clock, it.maps = self.signer, self.clock, dict(self.maps)
        return it

    # Publishing

    def log(self, name: str) -> Log:
        """The log of an id."""
        log: Log = OperatorLog() if name == OPERATOR else PackageLog()
        for it in self.logs.get(name, []):
            log.append(it)
        return log

    def add(self, name: str, envelope: bytes, has_leaf: bool = True) -> None:
        """Appends an envelope, whatever it is."""
        its_id = record_id("operator" if name == OPERATOR else "package", envelope)
        self.logs.setdefault(name, []).append(envelope)
        self.heads[name] = its_id
        if has_leaf:
            self.leaves.append(Leaf(name, its_id))

    def publish(self, name: str, *entries: bytes, has_leaf: bool = True) -> None:
        """Publishes a record of alice's."""
        self.add(name, published.record(self.log(name), self.alice, list(entries), time.time_ns()), has_leaf)

    def begin(self, name: str) -> None:
        """Begins a log."""
        self.publish(name, records.init(self.alice.public_key))

    def release(self, name: str, version: str, has_leaf: bool = True) -> None:
        """Publishes a release."""
        self.publish(name, records.release(version, records.sha256_text(version.encode())), has_leaf=has_leaf)

    def sign(self) -> SignedCheckpoint:
        """Signs a checkpoint."""
        length, map_ = len(self.leaves), SparseMap([Leaf(*it) for it in self.heads.items()])
        self.maps[length] = map_, dict(self.heads)
        contents = Checkpoint(
            hash_text(trees.log_root(self._hashes())), length, hash_text(map_.root()), int(time.time()) + self.clock
        )
        key_id = records.key_id(self.signer.public_key)
        self.signed.append(SignedCheckpoint(contents, key_id, self.signer.sign(contents.message())))
        return self.signed[-1]

    def _hashes(self, length: int | None = None) -> list[bytes]:
        return [it.of_log() for it in self.leaves[:length]]

    # Answering

    @property
    def length(self) -> int:
        """The newest checkpoint's."""
        return self.signed[-1].contents.log_length

    def answer(self, path: str, query: Query, body: bytes) -> Reply:
        """The reply to a request."""
        reply = self._answer(path, query, body)
        return reply if self.twist is None else self.twist(path, query, reply)

    def _answer(self, path: str, query: Query, body: bytes) -> Reply:
        since = int(query.get("from", "0"))
        if path == "/v1/leaves":
            lines = [f"{it.log_id} {it.record_id}\n" for it in self.leaves[since:]]
            return self._lines(lines, LEAVES)
        if path == "/v1/leaf":
            return self._leaf(Leaf(query["log"], query["record"]))
        if path == "/v1/fetch/logs":
            return self._fetched(json.loads(body)["logs"])
        if path.startswith("/v1/logs/"):
            name = path.split("/")[3]
            if name not in self.logs:
                return problem(404, "NoLog")
            return self._lines([f"{it.hex()}\n" for it in self.logs[name][since:]], RECORDS)
        if path.startswith("/v1/package/"):
            return self._published(log_id("package", path.split("/")[3]), body)
        if not self.signed:
            return problem(404, "NoCheckpoint")
        if path == "/v1/checkpoint":
            return json_reply(json.loads(self.signed[-1].to_json()))
        if not path.startswith("/v1/proof/"):
            return problem(404, "NotFound")
        return self._proof(path.removeprefix("/v1/proof/"), query, since)

    def _published(self, name: str, envelope: bytes) -> Reply:
        """What a record is answered that is sent to a log."""
        its_id, log = record_id("package", envelope), self.log(name)
        if Leaf(name, its_id) in self.leaves:
            return problem(409, "NotNext", published=json.loads(self._leaf(Leaf(name, its_id))[2]))
        try:
            log.append(envelope)
        except Refused as error:
            is_link = error.name in ("RecordHashDoesNotMatch", "NoPreviousHashAfterInit")
            return problem(409, "NotNext") if is_link else problem(422, error.name)
        self.add(name, envelope)
        return json_reply(json.loads(self._leaf(Leaf(name, its_id))[2]), 201)

    @staticmethod
    def _lines(lines: list[str], bound: int) -> Reply:
        headers = {"Content-Type": "text/plain"}
        if len(lines) > bound:
            headers["Link"] = '<?from=7>; rel="next"'
        return 200, headers, "".join(lines[:bound]).encode()

    def _leaf(self, it: Leaf) -> Reply:
        if it not in self.leaves:
            return problem(404, "NoRecord" if it.log_id in self.logs else "NoLog")
        index = self.leaves.index(it)
        place = sum(other.log_id == it.log_id for other in self.leaves[:index])
        return json_reply({"recordId": it.record_id, "logId": it.log_id, "place": place, "registryIndex": index})

    def _fetched(self, counts: dict[str, int]) -> Reply:
        found: dict[str, dict[str, Any]] = {}
        room = ENVELOPES
        for name, count in counts.items():
            new = self.logs.get(name, [])[count:][:room]
            if new:
                room -= len(new)
                envelopes = [base64.b64encode(it).decode() for it in new]
                found[name] = {"head": self.heads[name], "count": len(self.logs[name]), "envelopes": envelopes}
        unknown = [it for it in counts if it not in self.logs]
        more = any(
            len(self.logs[it]) > count + len(found.get(it, {"envelopes": ()})["envelopes"])
            for it, count in counts.items()
            if it in self.logs
        )
        return json_reply({"logs": found, "unknown": unknown, "more": more})

    def _proof(self, kind: str, query: Query, since: int) -> Reply:
        length, newest = self.length, json.loads(self.signed[-1].to_json())
        wanted = query.get("length", query.get("to"))
        if wanted is not None and int(wanted) != length:
            return problem(409, "NotNewest", checkpoint=newest)
        if int(query.get("leaf", "0")) >= length:
            return problem(404, "NoLeaf")
        if since not in (0, *(it.contents.log_length for it in self.signed)) or since > length:
            return problem(404, "NoCheckpoint")
        members: dict[str, object] = {"checkpoint": newest}
        going_on = trees.text_of(trees.consistency(since, self._hashes(length)))
        if kind == "consistency":
            return json_reply({**members, "from": since, "proof": going_on})
        if "from" in query:
            members["consistency"] = going_on
        if kind == "inclusion":
            place = int(query["leaf"])
            proof = trees.text_of(trees.inclusion(place, self._hashes(length)))
            leaf = self.leaves[place]
            members.update(leaf=place, logId=leaf.log_id, recordId=leaf.record_id, proof=proof)
            return json_reply(members)
        return json_reply({**members, **self.map_members(query["log"], length)})

    def map_members(self, name: str, length: int) -> dict[str, Any]:
        """What the map of a checkpoint says of a log."""
        map_, heads = self.maps[length]
        return {"logId": name, "recordId": heads.get(name), "proof": trees.short_text(map_.path(Leaf(name, "").key()))}


class _Handler(http.server.BaseHTTPRequestHandler):
    protocol_version = "HTTP/1.1"
    # A reply is sent at once, and not in parts that wait for each other.
    wbufsize = -1

    def _reply(self, body: bytes = b"") -> None:
        server = self.server
        assert isinstance(server, Served)
        server.asked.append(self.path)
        if server.raw is not None:
            server.raw(self.wfile)
            self.close_connection = True
            return
        parts = urllib.parse.urlsplit(self.path)
        query = dict(urllib.parse.parse_qsl(parts.query))
        with server.lock:
            status, headers, content = server.registry.answer(parts.path, query, body)
        self.send_response(status)
        for name, value in {**headers, "Content-Length": str(len(content))}.items():
            self.send_header(name, value)
        self.end_headers()
        self.wfile.write(content)

    def do_GET(self) -> None:
        """A question."""
        self._reply()

    def do_POST(self) -> None:
        """A question with a body, or what is sent to a webhook."""
        body = self.rfile.read(int(self.headers["Content-Length"]))
        if self.path == "/hook":
            server = self.server
            assert isinstance(server, Served)
            server.hooked.append(json.loads(body))
            self.send_response(200 if server.takes_hooks else 503)
            self.send_header("Content-Length", "0")
            self.end_headers()
            return
        self._reply(body)

    def log_message(self, *_: object) -> None:
        """Says nothing."""

    def handle(self) -> None:
        """Passes over a client that was killed."""
        with contextlib.suppress(ConnectionError):
            super().handle()


class Served(http.server.ThreadingHTTPServer):
    """A registry that is served. `raw` writes what is none."""

    daemon_threads = True

    def __init__(self, registry: Registry) -> None:
        super().__init__(("127.0.0.1", 0), _Handler)
        self.registry, self.lock = registry, threading.Lock()
        self.raw: Callable[[IO[bytes]], None] | None = None
        self.asked: list[str] = []
        self.hooked: list[dict[str, Any]] = []
        self.takes_hooks = True
        self.url = f"http://127.0.0.1:{self.server_address[1]}"

    def handle_error(self, *_: object) -> None:
        """Passes over a client that has gone."""


@contextlib.contextmanager
def serving(registry: Registry) -> Iterator[Served]:
    """Serves a registry."""
    with Served(registry) as served:
        thread = threading.Thread(target=served.serve_forever, args=(0.02,), daemon=True)
        thread.start()
        try:
            yield served
        finally:
            served.shutdown()
            thread.join()


def honest() -> Registry:
    """A registry of two packages, of a past that is always the same."""
    return _honest().copy()


@functools.cache
def _honest() -> Registry:
    it = Registry()
    it.begin(OPERATOR)
    it.publish(OPERATOR, records.define_namespace("a"))
    for name, count in ((ONE, 4), (TWO, 6)):
        it.begin(name)
        for minor in range(1, count):
            it.release(name, f"1.{minor}.0")
    it.sign()
    return it


def run(*words: str) -> tuple[int, str, str]:
    """The status of a command, what it prints, and what it says on standard error."""
    out, said = io.StringIO(), io.StringIO()
    with contextlib.redirect_stdout(out), contextlib.redirect_stderr(said):
        try:
            status = command.main(list(words))
        except SystemExit as ended:
            status = ended.code if isinstance(ended.code, int) else 3
    return status, out.getvalue(), said.getvalue()
