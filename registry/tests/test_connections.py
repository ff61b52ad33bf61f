"""What clients may do to connections: slow, idle, long, many, and of no good form."""

import json
import socket
import time
import unittest

from weoldrin import records

from .served import PROTOBUF, Client, Key, Served, package_record, release

ALICE = Key.generate()
HEALTH = b"GET /v1/health HTTP/1.1\r\nHost: x\r\n\r\n"


class Raw:
    """A connection of bytes."""

    def __init__(self, port: int) -> None:
        self.socket = socket.create_connection(("127.0.0.1", port), timeout=30)
        self.head = b""

    def send(self, data: bytes) -> None:
        """Sends bytes."""
        self.socket.sendall(data)

    def answers(self, count: int = 1) -> list[tuple[int, bytes]]:
        """So many answers, and fewer where the connection ends: their statuses and bodies."""
        found: list[tuple[int, bytes]] = []
        data = b""
        while len(found) < count:
            head, end, rest = data.partition(b"\r\n\r\n")
            lines = [it.partition(b":") for it in head.split(b"\r\n")]
            length = next((int(value) for name, _, value in lines if name.lower() == b"content-length"), 0)
            if end and len(rest) >= length:
                self.head = head.lower()
                found.append((int(head.split(b" ")[1]), rest[:length]))
                data = rest[length:]
                continue
            part = self.socket.recv(65536)
            if not part:
                break
            data += part
        return found

    def ends(self, seconds: float) -> bool:
        """Whether the server ends the connection within a time, and says nothing before."""
        self.socket.settimeout(seconds)
        try:
            return self.socket.recv(1) == b""
        except ConnectionResetError:
            return True
        except TimeoutError:
            return False

    def close(self) -> None:
        """Ends it."""
        self.socket.close()


class Connections(Served):
    """A registry with short deadlines."""

    SETTINGS = (
        "checkpoint_seconds = 0.1\nbody_seconds = 1.5\nhead_seconds = 1.5\nidle_seconds = 1\nanswer_seconds = 1.5\n"
        "body_bytes = 300_000\nanswer_bytes = 50_000_000\n"
    )

    def setUp(self) -> None:
        self.client = Client(self.process.port, is_kept=False)
        self.addCleanup(self.client.close)
        # Connections of other tests have to be gone.
        time.sleep(0.2)

    def _raw(self) -> Raw:
        raw = Raw(self.process.port)
        self.addCleanup(raw.close)
        return raw

    def _told(self, data: bytes, status: int, name: str) -> None:
        raw = self._raw()
        raw.send(data)
        [(found, body)] = raw.answers()
        self.assertEqual((found, json.loads(body)["name"]), (status, name), data[:80])
        self.assertTrue(self.client.get("/v1/health").json)

    def test_lengths_that_are_none(self) -> None:
        for length in ("x", "-1", "+1", "1,2", "0x1", "", "9" * 5000, "9" * 19, "300001", "50000000"):
            for path in ("/v1/package/a:b/record", "/v1/operator/record", "/v1/fetch/logs"):
                raw = self._raw()
                raw.send(f"POST {path} HTTP/1.1\r\nHost: x\r\nContent-Length: {length}\r\n\r\n".encode())
                [(status, body)] = raw.answers()
                is_number = length.isdigit() and len(length) < 5000
                self.assertEqual((status, json.loads(body)["name"]),
                                 (413, "TooLong") if is_number else (400, "BadRequest"), length[:9])
        self._told(b"POST /v1/operator/record HTTP/1.1\r\nHost: x\r\nContent-Length: 1\r\nContent-Length: 2\r\n\r\n",
                   400, "BadRequest")

    def test_what_is_no_http(self) -> None:
        for data in (b"\0\r\n\r\n", b"GET\r\n\r\n", b"GET / HTTP/1.1\r\nHost\r\n\r\n",
                     b"GET / HTTP/1.1\r\n\r\n", b"\x16\x03\x01\x02\0\x01\0\x01\xfc\x03\x03\r\n\r\n",
                     b"POST /v1/operator/record HTTP/1.1\r\nHost: x\r\nTransfer-Encoding: chunked\r\n\r\nzz\r\n"):
            self._told(data, 400, "BadRequest")
        self._told(b"GET / HTTP/1.1\r\nHost: x\r\nX: " + b"a" * 100_000, 431, "TooLongHead")
        self._told(b"GET /" + b"a" * 100_000, 431, "TooLongHead")
        self._told(b"GET / HTTP/1.1\r\nHost: x\r\nConnection: upgrade\r\nUpgrade: websocket\r\n\r\n", 400, "BadRequest")

    def test_hosts_of_no_good_form(self) -> None:
        for host in (b"[", b"[::", b"a b", b"", b"x" * 5000):
            raw = self._raw()
            raw.send(b"GET /v1/health HTTP/1.1\r\nHost: " + host + b"\r\n\r\n")
            self.assertEqual([it for it, _ in raw.answers()], [200], host[:9])

    def test_a_body_behind_a_get(self) -> None:
        inner = b"GET /v1/names HTTP/1.1\r\nHost: x\r\n\r\n"
        for method in (b"GET", b"HEAD"):
            raw = self._raw()
            raw.send(method + b" /v1/health HTTP/1.1\r\nHost: x\r\nContent-Length: %d\r\n\r\n" % len(inner) + inner)
            raw.send(HEALTH)
            count = 2 if method == b"GET" else 1
            found = raw.answers(count)
            self.assertEqual([it for it, _ in found], [400, 200][:count])
            if method == b"GET":
                self.assertEqual(json.loads(found[0][1])["name"], "BodyBehindGet")
        chunked = b"GET /v1/health HTTP/1.1\r\nHost: x\r\nTransfer-Encoding: chunked\r\n\r\n"
        self._told(chunked + b"%x\r\n" % len(inner) + inner + b"\r\n0\r\n\r\n", 400, "BodyBehindGet")

    def test_a_long_body_is_told_so(self) -> None:
        for path in ("/v1/package/a:b/record", "/v1/nothing", "/v1/fetch/logs"):
            status = 404 if path.endswith("nothing") else 413
            self.assertEqual(self.client.asked("POST", path, bytes(4_000_000), PROTOBUF).status, status)
        raw = self._raw()
        head = b"POST /v1/operator/record HTTP/1.1\r\nHost: x\r\n"
        raw.send(head + b"Content-Length: 300001\r\nExpect: 100-continue\r\n\r\n")
        self.assertEqual([it for it, _ in raw.answers()], [413])
        self.assertIn(b"\r\nconnection: close", raw.head)
        self.assertTrue(raw.ends(3))

    def test_slow_bodies(self) -> None:
        head = b"POST /v1/operator/record HTTP/1.1\r\nHost: x\r\nContent-Type: application/protobuf\r\n"
        raw, began = self._raw(), time.monotonic()
        raw.send(head + b"Content-Length: 1000\r\n\r\n")
        for _ in range(4):
            time.sleep(0.25)
            raw.send(b"x")
        [(status, body)] = raw.answers()
        self.assertEqual((status, json.loads(body)["name"]), (408, "TooSlow"))
        self.assertLess(time.monotonic() - began, 6)
        self.assertIn(b"\r\nconnection: close", raw.head)
        self.assertTrue(raw.ends(3))
        # A body that no route reads.
        raw = self._raw()
        raw.send(b"POST /v1/nothing HTTP/1.1\r\nHost: x\r\nContent-Length: 1000000000\r\n\r\n")
        self.assertEqual([it for it, _ in raw.answers()], [404])
        began = time.monotonic()
        with self.assertRaises(OSError):
            while time.monotonic() - began < 10:
                raw.send(b"x" * 1000)
                time.sleep(0.05)
        self.assertLess(time.monotonic() - began, 6)

    def test_behind_a_body_that_nobody_reads(self) -> None:
        for ending in (b"", HEALTH):
            raw = self._raw()
            raw.send(b"POST /v1/nothing HTTP/1.1\r\nHost: x\r\nContent-Length: 100000\r\n\r\n" + bytes(50_000))
            self.assertEqual([it for it, _ in raw.answers()], [404])
            time.sleep(0.3)
            raw.send(bytes(50_000) + ending)
            self.assertEqual([it for it, _ in raw.answers(1 if ending else 0)], [200] if ending else [])
            # Nothing is said that would be taken for an answer to the next request.
            self.assertTrue(raw.ends(5))

    def test_slow_heads_and_idle_connections(self) -> None:
        raw = self._raw()
        self.assertTrue(raw.ends(6))
        raw = self._raw()
        raw.send(b"GET /v1/hea")
        [(status, body)] = raw.answers()
        self.assertEqual((status, json.loads(body)["name"]), (408, "TooSlow"))
        raw, began = self._raw(), time.monotonic()
        with self.assertRaises(OSError):
            while time.monotonic() - began < 10:
                raw.send(b"G")
                time.sleep(0.2)
        self.assertLess(time.monotonic() - began, 6)
        # Behind an answer.
        raw = self._raw()
        raw.send(HEALTH)
        raw.answers()
        self.assertTrue(raw.ends(5))
        raw = self._raw()
        raw.send(HEALTH)
        raw.answers()
        raw.send(b"G")
        self.assertEqual([it for it, _ in raw.answers()], [408])

    def test_requests_one_behind_the_other(self) -> None:
        raw = self._raw()
        raw.send(HEALTH * 5)
        self.assertEqual([it for it, _ in raw.answers(5)], [200] * 5)
        for _ in range(4):
            # Each within the time that a connection may be idle, and together longer.
            time.sleep(0.5)
            raw.send(HEALTH)
            self.assertEqual([it for it, _ in raw.answers()], [200])

    def test_readers_that_read_nothing(self) -> None:
        head = None
        for place in range(40):
            entries = [release(f"{place}.{it}.0") for it in range(2000)] if head else [records.init(ALICE.public_key)]
            answer = self.client.post("/v1/package/a:great/record", package_record(head, ALICE, *entries))
            head = self.published(answer)["recordId"]
        raw = self._raw()
        raw.socket.setsockopt(socket.SOL_SOCKET, socket.SO_RCVBUF, 4096)
        raw.send(b"GET /v1/package/a:great/records HTTP/1.1\r\nHost: x\r\n\r\n")
        time.sleep(6)
        size = 0
        with self.assertRaises(OSError):
            while (part := raw.socket.recv(65536)) or size < 5_000_000:
                size += len(part)
                if not part:
                    raise OSError("it has ended")
        self.assertLess(size, 5_000_000)

    def test_an_answer_is_not_held_back(self) -> None:
        times, client = [], self.process.client()
        self.addCleanup(client.close)
        for _ in range(41):
            began = time.perf_counter()
            client.get("/v1/health")
            times.append(time.perf_counter() - began)
        # What waits for the other end to say that it got something takes 40 ms, but for the first few.
        self.assertLess(min(times[20:]), 0.03)

    def test_lines(self) -> None:
        raw = self._raw()
        raw.send(b"GET /v1/names?prefix=%0A%1B[31m HTTP/1.1\r\nHost: x\r\n\r\n")
        raw.answers()
        hostile = records.contents(None, 1, [records.init("\x1b[31m\nfake line")])
        self.client.post("/v1/package/a:lines/record", records.envelope(hostile, "\x1b[2J\n", "x:AAAA"))
        self.client.post("/v1/package/a:lines/record", package_record(None, ALICE, records.init("a\nb")))
        self.client.get("/v1/package/%0Afake%1B/records")
        raw = self._raw()
        raw.send(b"\x1b]0;x\x07\n\nfake\r\n\r\n")
        raw.answers()
        time.sleep(0.3)
        text = self.process.lines.read_bytes()
        self.assertNotIn(b"\x1b", text)
        for line in text.decode().splitlines():
            self.assertRegex(line, r"^\d{4}-\d\d-\d\dT\d\d:\d\d:\d\d\.\d{6}Z .")
        for end in (r"/v1/names\?prefix=%0A%1B\[31m 200 \d+ [0-9.]+ -",
                    r"/v1/package/%0Afake%1B/records 400 \d+ [0-9.]+ BadName"):
            self.assertRegex(text.decode(), rf"(?m)127\.0\.0\.1:\d+ GET {end}$")
        self.assertNotIn("Traceback", text.decode())


class Patient(Served):
    """A registry that waits long for all but bodies."""

    SETTINGS = "body_seconds = 1\nidle_seconds = 120\n"

    def test_a_request_behind_a_body(self) -> None:
        raw = Raw(self.process.port)
        self.addCleanup(raw.close)
        raw.send(b"POST /v1/nothing HTTP/1.1\r\nHost: x\r\nContent-Length: 10\r\n\r\n")
        self.assertEqual([it for it, _ in raw.answers()], [404])
        for _ in range(2):
            raw.send(bytes(5))
            time.sleep(0.2)
        # Longer than the body had left.
        time.sleep(2)
        raw.send(HEALTH)
        self.assertEqual([it for it, _ in raw.answers()], [200])


class Crowds(Served):
    """A registry that serves few connections at once."""

    SETTINGS = "connections = 20\nidle_seconds = 120\n"

    def _raw(self) -> Raw:
        raw = Raw(self.process.port)
        self.addCleanup(raw.close)
        return raw

    def test_many_connections(self) -> None:
        raws = [self._raw() for _ in range(30)]
        statuses = []
        for it in raws:
            it.send(HEALTH)
            statuses += [status for status, _ in it.answers()]
        self.assertEqual(set(statuses), {200, 503})
        self.assertLessEqual(statuses.count(200), 20)
        self.assertGreaterEqual(statuses.count(200), 10)
        raw = raws[-1]
        for it in raws:
            it.close()
        time.sleep(0.5)
        raw = self._raw()
        raw.send(HEALTH)
        self.assertEqual([it for it, _ in raw.answers()], [200])

    def test_far_too_many_connections(self) -> None:
        raws = [self._raw() for _ in range(60)]
        for it in raws[-10:]:
            # They are told so before they ask.
            [(status, body)] = it.answers()
            self.assertEqual((status, json.loads(body)["name"]), (503, "TooManyConnections"))
        for it in raws:
            it.close()
        time.sleep(0.5)
        raw = self._raw()
        raw.send(HEALTH)
        self.assertEqual([it for it, _ in raw.answers()], [200])


if __name__ == "__main__":
    unittest.main()
