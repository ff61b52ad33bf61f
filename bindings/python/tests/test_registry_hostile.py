"""Answers of a hostile server: each is refused within bounds, by the client and by the monitor, and nothing that is
kept changes."""

import json
import re
import time
from collections.abc import Callable, Iterator
from typing import IO, Any, cast

from weoldrin.registry import asking
from weoldrin.registry.told import BadAnswer, NoAnswer

from . import registries
from .registries import ONE, Query, Reply, json_reply, run
from .test_registry_monitor import MonitorTest

OK = b"HTTP/1.1 200 OK\r\n"
DEEP = b"[" * 200_000
LONG = b"9" * 10_000


def _endless(start: bytes, part: bytes) -> Callable[[IO[bytes]], None]:
    def write(file: IO[bytes]) -> None:
        file.write(start)
        while True:
            file.write(part)

    return write


def _whole(data: bytes) -> Callable[[IO[bytes]], None]:
    def write(file: IO[bytes]) -> None:
        file.write(data)

    return write


def _drip(file: IO[bytes]) -> None:
    file.write(OK + b"Content-Length: 1000\r\n\r\n")
    while True:
        file.write(b" ")
        file.flush()
        time.sleep(0.05)


def _drip_head(file: IO[bytes]) -> None:
    file.write(OK)
    while True:
        file.write(b"A: b\r\n")
        file.flush()
        time.sleep(0.05)


# What is no HTTP that can be taken.
RAW: dict[str, Callable[[IO[bytes]], None]] = {
    "endless body": _endless(OK + b"\r\n", b" " * 65_536),
    "endless chunks": _endless(OK + b"Transfer-Encoding: chunked\r\n\r\n", b"10000\r\n" + b" " * 65_536 + b"\r\n"),
    "chunk of -1": _endless(OK + b"Transfer-Encoding: chunked\r\n\r\n-1\r\n", b" " * 65_536),
    "chunk of -5": _whole(OK + b"Transfer-Encoding: chunked\r\n\r\n-5\r\nabc"),
    "great chunk": _endless(OK + b"Transfer-Encoding: chunked\r\n\r\nffffffffffffffffff\r\n", b" " * 65_536),
    "endless head": _endless(OK, b"A: b\r\n"),
    "endless line": _endless(b"HTTP/1.1 200 ", b"a" * 65_536),
    "endless continue": _endless(b"", b"HTTP/1.1 100 Continue\r\n\r\n" * 1_000),
    "great length": _endless(OK + b"Content-Length: 99999999999999999999\r\n\r\n", b" " * 65_536),
    "length of many digits": _whole(OK + b"Content-Length: " + LONG + b"\r\n\r\n{}"),
    "length of -1": _whole(OK + b"Content-Length: -1\r\n\r\n{}"),
    "cut off": _whole(OK + b'Content-Length: 100\r\n\r\n{"a": '),
    "no HTTP": _whole(b"\x16\x03\x01\x00\x00"),
    "redirect": _whole(b"HTTP/1.1 302 Found\r\nLocation: http://127.0.0.1:1/\r\nContent-Length: 0\r\n\r\n"),
    "deep": _whole(OK + b"Content-Length: %d\r\n\r\n" % len(DEEP) + DEEP),
    "no JSON": _whole(OK + b"Content-Length: 3\r\n\r\n{\xff}"),
    "long number": _whole(OK + b"Content-Length: %d\r\n\r\n" % (len(LONG) + 8) + b'{"a": ' + LONG + b"}\n"),
    "strange status": _whole(b"HTTP/1.1 299 \x1b[2J\r\nContent-Length: 2\r\n\r\n{}"),
}


class Bounds(MonitorTest):
    """What is none of HTTP, or too much of it."""

    def test_raw(self) -> None:
        """Each is a bad answer, at once."""
        self.assertEqual(self.fetch("--out", self.out)[0], 0)
        self.begin_beside()
        before = self.files()
        for name, raw in RAW.items():
            with self.subTest(name):
                self.served.raw = raw
                start = time.monotonic()
                status, printed, said = self.fetch("--out", self.out, "--seconds", "20")
                self.assertEqual((status, printed[:11]), (1, "bad answer:"), said)
                self.assertEqual("leads elsewhere" in printed, name == "redirect")
                self.assertNotIn("\x1b", printed + said)
                self.assertLess(time.monotonic() - start, 15)
                self.assertEqual(self.monitor("--seconds", "20")[0], 1)
        self.served.raw = None
        self.assertEqual({**self.files(), "seen.sqlite": b""}, {**before, "seen.sqlite": b""})
        self.assertEqual(self.monitor()[0], 0)

    def begin_beside(self) -> None:
        """Follows the registry, beside the files that are there."""
        self.assertEqual(self.monitor()[0], 0)

    def test_slow(self) -> None:
        """An answer has a time by which it has to be there whole, whatever comes of it meanwhile."""
        for raw in (_drip, _drip_head, lambda _: time.sleep(3)):
            self.served.raw = raw
            start = time.monotonic()
            status, printed, said = run("fetch", self.served.url, "a:one", "--seconds", "1")
            self.assertEqual((status, printed), (3, ""))
            self.assertIn("it was too slow", said)
            self.assertLess(time.monotonic() - start, 2.5)
            self.assertEqual(self.monitor("--seconds", "1")[0], 3)

    def test_length(self) -> None:
        """The bound is on the body, to the byte."""
        address = asking.address_of(self.served.url)
        for count, bound in ((1_000, 1_000), (1_001, 1_000)):
            for head in (b"Content-Length: %d\r\n" % count, b""):
                self.served.raw = _whole(OK + head + b"\r\n" + b"x" * count)
                if count <= bound:
                    self.assertEqual(len(asking.ask(address, "/", longest=bound, seconds=9).body), count)
                else:
                    self.assertRaises(BadAnswer, asking.ask, address, "/", longest=bound, seconds=9)
        self.served.raw = _whole(OK + b"Content-Length: 9\r\n\r\nwhole\n")
        self.assertRaises(BadAnswer, asking.ask, address, "/", longest=99, seconds=9)

    def test_later(self) -> None:
        """A registry that can't answer now is no liar."""
        for status in (429, 500, 503, 507):
            self.registry.twist = lambda path, query, reply: registries.problem(status, "Busy")
            self.assertEqual((run("fetch", self.served.url, "a:one")[0], self.monitor()[0]), (3, 3))
        self.assertRaises(NoAnswer, asking.ask, asking.address_of("http://127.0.0.1:1"), "/", longest=1, seconds=9)

    def test_json(self) -> None:
        for text in ("", "{", "NaN", "[" * 100_000, "1" * 21, '"\ud800"', "{'a': 1}", "-" + "1" * 10_000):
            self.assertRaises(BadAnswer, asking.json_of, text.encode("utf-8", "surrogatepass"))
        for text, value in (("1e5", 1e5), (str(2**64), 2**64), ('"\\ud800"', "\ud800"), ("[[1]]", [[1]])):
            self.assertEqual(asking.json_of(text.encode()), value)


# Values that are put in the place of each member of an answer.
WRONG: list[Any] = [None, True, 7, -1, 1.5, 10**19, "", "x", "sha256:" + "0" * 63, "\ud800\x1b[2J", []]
WRONG += [{}, [None], {"a": None}]


def _places(value: object, at: tuple[Any, ...] = ()) -> Iterator[tuple[Any, ...]]:
    """The paths to all members of a value."""
    parts = value.items() if isinstance(value, dict) else enumerate(value) if isinstance(value, list) else []
    for name, part in parts:
        yield (*at, name)
        yield from _places(part, (*at, name))


def _put(value: object, at: tuple[Any, ...], other: object) -> object:
    """A value with another one at a path; without the member where that is `...`."""
    if not at:
        return other
    made: Any = dict(value) if isinstance(value, dict) else list(cast(list[object], value))
    if len(at) == 1 and other is ...:
        del made[at[0]]
    else:
        made[at[0]] = _put(made[at[0]], at[1:], other)
    return made


class Forms(MonitorTest):
    """Answers of JSON and of lines that have another form."""

    def _each(self, pattern: str) -> Iterator[tuple[str, Callable[[Reply], Reply]]]:
        """Changes of the answers to requests of a path."""
        replies: list[bytes] = []

        def keep(path: str, query: Query, reply: Reply) -> Reply:
            if re.fullmatch(pattern, path):
                replies.append(reply[2])
            return reply

        self.registry.twist = keep
        self.monitor()
        self.fetch()
        good = json.loads(replies[0])
        for place, at in enumerate(_places(good)):
            # Each member is left out, and has some of the wrong values.
            for other in (..., *WRONG[place % 7 :: 7]):
                yield f"{at} {other!r}", lambda reply: json_reply(_put(json.loads(reply[2]), at, other))

    def _refused(self, pattern: str, is_monitored: bool, allowed: set[str], least: int = 20) -> None:
        """Each change is refused by a name, and none by an error of Python. There are so many at least."""
        count = 0
        for name, change in self._each(pattern):
            def twist(path: str, query: Query, reply: Reply) -> Reply:
                if not re.fullmatch(pattern, path) or reply[0] != 200:
                    return reply
                try:
                    return change(reply)
                except (KeyError, IndexError, TypeError):
                    return reply

            self.registry.twist = twist
            with self.subTest(name):
                self._forget()
                status, printed, said = self._asked(is_monitored)
                self.assertIn(status, (0, 1), said)
                self.assertNotIn("\x1b", printed + said)
                if status == 0:
                    self.assertRegex(name, "|".join(allowed))
                count += 1
        self.assertGreater(count, least)

    def _forget(self) -> None:
        for path in self.folder.iterdir():
            path.unlink()

    def _asked(self, is_monitored: bool) -> tuple[int, str, str]:
        if is_monitored:
            return run("monitor", self.served.url, "--database", self.database, "--once", "--workers", "1")
        return self.fetch("--out", self.out)

    def test_heads(self) -> None:
        self._refused("/v1/proof/map", False, {"nothing"})

    def test_inclusion(self) -> None:
        # What leaf it is, is known.
        self._refused("/v1/proof/inclusion", False, {r"^\('(leaf|logId|recordId)',\)", "'(timestamp|signature|keyId)'"})

    def test_leaf(self) -> None:
        # Which record it is of, is known.
        self._refused("/v1/leaf", False, {r"^\('(logId|recordId|place)',\)"}, 10)

    def test_fetched(self) -> None:
        # What is not needed is not looked at.
        self._refused("/v1/fetch/logs", True, {r"'(head|count|unknown)'", r"'envelopes', \d\) Ell", r"'more',\) True"})

    def test_lines(self) -> None:
        """Records and leaves in lines of another form."""
        lines = [b"zz\n", b"0\n", b"00", b"\n\n", b"\xff\n", b"00 11\n", b"sha256:0 sha256:1\n", b" " * 99 + b"\n"]
        headed: list[dict[str, str]] = [{}, {"Link": '<?from=1>; rel="next"'}]
        for path in (f"/v1/logs/{ONE}/records", "/v1/leaves"):
            for data in lines:
                for headers in headed:
                    self.registry.twist = lambda at, query, reply: (200, headers, data) if at == path else reply
                    self._forget()
                    if path == "/v1/leaves":
                        self.assertEqual(self.monitor()[1][0]["name"], "bad answer", data)
                    else:
                        self.assertEqual(self.fetch("--out", self.out)[0], 1, data)

    def test_endless_pages(self) -> None:
        """An answer of nothing that says that more follows."""
        for path in (f"/v1/logs/{ONE}/records", "/v1/leaves"):
            more = {"Link": '<?from=1>; rel="next"'}
            self.registry.twist = lambda at, query, reply: (200, more, b"") if at == path else reply
            self._forget()
            self.assertEqual(self.monitor()[0] if path == "/v1/leaves" else self.fetch()[0], 1)
        empty = {"logs": {}, "unknown": [], "more": True}
        self.registry.twist = lambda at, query, reply: json_reply(empty) if at == "/v1/fetch/logs" else reply
        self.assertEqual(self.monitor()[0], 1)
        busy = [0]

        def twist(path: str, query: Query, reply: Reply) -> Reply:
            if path == "/v1/proof/map" and "length" in query:
                busy[0] += 1
                return registries.problem(409, "NotNewest")
            return reply

        self.registry.twist = twist
        self.assertEqual((self.fetch()[0], busy[0]), (1, 8))
