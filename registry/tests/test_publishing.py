"""What is taken of publishers, and what is refused, by a registry that is served."""

import base64
import json
import time
import unittest

from weoldrin import LogKind, PackageLog, log_id, record_id, records

from .served import JSON, PROTOBUF, START, Key, Served, begin, next_record, operator_record, package_record, release

ALICE, BOB = Key.generate(), Key.generate()


class Publishing(Served):
    """Records of packages."""

    def test_a_log(self) -> None:
        path, log = "/v1/package/a:log/record", PackageLog()
        for place in range(4):
            entry = release(f"1.{place}.0") if place else records.init(ALICE.public_key)
            envelope = next_record(log, ALICE, entry)
            log.append(envelope)
            answer = self.client.post(path, envelope)
            found = self.published(answer)
            self.assertEqual(found["recordId"], log.head())
            self.assertEqual(found["logId"], log_id("package", "a:log"))
            self.assertEqual(found["place"], place)
            self.assertEqual(answer.headers["location"], f"/v1/package/a:log/records?from={place}")
            self.assertEqual(self.client.get(answer.headers["location"]).envelopes, [envelope])
            index = found["registryIndex"]
            line = self.client.get(f"/v1/leaves?from={index}").body.decode().splitlines()[0]
            self.assertEqual(line, f"{found['logId']} {found['recordId']}")

    def test_json(self) -> None:
        contents = records.contents(None, START, [records.init(ALICE.public_key)])
        message = records.message(LogKind.PACKAGE, contents)
        value = {
            "contentBytes": base64.b64encode(contents).decode(),
            "keyId": records.key_id(ALICE.public_key),
            "signature": ALICE.sign(message),
        }
        self.published(self.client.ask_json("/v1/package/a:json/record", value))
        told = self.client.ask_json("/v1/package/a:json/record", value)
        self.assertEqual(self.refused(told, 409, "NotNext")["published"]["place"], 0)
        others: dict[str, object] = dict(value)
        wrong: list[object] = [
            others | {"keyId": 7}, others | {"contentBytes": "a"}, others | {"contentBytes": "é"}, [], None, 7,
            {"contentBytes": others["contentBytes"]}, others | {"signature": "\ud800"},
        ]
        for it in wrong:
            answer = self.client.asked("POST", "/v1/package/a:json2/record", json.dumps(it).encode(), JSON)
            self.refused(answer, 400, "BadBody")
        for data in (b"", b"{", b"\xff", b"[" * 100_000, b"9" * 5000):
            self.refused(self.client.asked("POST", "/v1/package/a:json2/record", data, JSON), 400, "BadBody")

    def test_other_types(self) -> None:
        for headers in (None, {"Content-Type": "text/plain"}, {"Content-Type": ""}):
            answer = self.client.asked("POST", "/v1/package/a:type/record", b"\0", headers)
            self.refused(answer, 415, "UnknownType")
        envelope = package_record(None, ALICE, records.init(ALICE.public_key))
        kind = {"Content-Type": "Application/Protobuf; charset=x"}
        self.published(self.client.asked("POST", "/v1/package/a:type/record", envelope, kind))

    def test_the_colon_may_be_escaped(self) -> None:
        envelope = package_record(None, ALICE, records.init(ALICE.public_key))
        self.assertEqual(
            self.published(self.client.post("/v1/package/a%3Aescaped/record", envelope))["logId"],
            log_id("package", "a:escaped"),
        )
        self.assertEqual(self.client.get("/v1/package/a:escaped/records").envelopes, [envelope])

    def test_names_that_are_none(self) -> None:
        envelope = package_record(None, ALICE, records.init(ALICE.public_key))
        for name in ("a", "A:b", "a:b%20", "a:%00", "a:" + "b" * 127, "%C3%A9:b", "a:b-", ":"):
            status, problem = (404, "NotFound") if name == "a:%00" else (400, "BadName")
            self.refused(self.client.post(f"/v1/package/{name}/record", envelope), status, problem)
            self.refused(self.client.get(f"/v1/package/{name}/records"), status, problem)
        self.published(self.client.post(f"/v1/package/a:{'b' * 126}/record", envelope))
        self.refused(self.client.post("/v1/package/a:b/record?x=1", envelope), 400, "BadQuery")

    def test_not_next(self) -> None:
        path = "/v1/package/a:next/record"
        first = package_record(None, ALICE, records.init(ALICE.public_key), seconds=1)
        head = self.published(self.client.post(path, first))
        second = package_record(head["recordId"], ALICE, release("1.0.0"), seconds=2)
        new = self.published(self.client.post(path, second))
        others = [
            package_record(None, BOB, records.init(BOB.public_key)),
            package_record(head["recordId"], ALICE, release("2.0.0"), seconds=3),
            package_record(record_id("package", first)[:-1] + "0", ALICE, release("2.0.0"), seconds=3),
            package_record(head["recordId"], BOB, records.init(BOB.public_key)),
        ]
        for it in others:
            told = self.refused(self.client.post(path, it), 409, "NotNext")
            self.assertEqual((told["head"], told["count"]), (new["recordId"], 2))
            self.assertEqual(told["headTime"], f"{START // 10**9 + 2}.0")
            self.assertNotIn("published", told)
        # What stands may be sent again, and stands once.
        for envelope, standing in ((first, head), (second, new)):
            told = self.refused(self.client.post(path, envelope), 409, "NotNext")
            standing.pop("checkpoint", None)
            self.assertEqual(told["published"], standing)
        self.assertEqual(self.client.get("/v1/package/a:next/records").envelopes, [first, second])
        # A log of no records.
        it = package_record(head["recordId"], ALICE, release("1.0.0"))
        told = self.refused(self.client.post("/v1/package/a:none/record", it), 409, "NotNext")
        self.assertEqual((told["head"], told["headTime"], told["count"]), (None, None, 0))
        self.refused(self.client.get("/v1/package/a:none/records"), 404, "NoLog")

    def test_offences(self) -> None:
        path = "/v1/package/a:offence/record"
        head = self.published(self.client.post(path, package_record(None, ALICE, records.init(ALICE.public_key))))
        prev = head["recordId"]
        toy = records.envelope(
            records.contents(None, START, [records.init("toy:AAAA")]), records.key_id("toy:AAAA"), "toy:AAAA"
        )
        lawful = package_record(prev, ALICE, release("1.0.0"))
        by_other = package_record(prev, BOB, release("1.0.0")).replace(
            records.key_id(BOB.public_key).encode(), records.key_id(ALICE.public_key).encode()
        )
        unreadable = records.envelope(
            records.contents(prev, START, [release("1.0.0")]), records.key_id(ALICE.public_key), "ecdsa-p256:AAAA"
        )
        before = records.signed(
            LogKind.PACKAGE, records.contents(prev, START - 1, [release("1.0.0")]), ALICE.public_key, ALICE.sign
        )
        for envelope, name in (
            (package_record(prev, BOB), "KeyIDNotRecognized"),
            (package_record(prev, BOB, release("1.0.0")), "UnauthorizedAction"),
            (package_record(prev, ALICE, records.yank("1.0.0")), "YankOfUnreleased"),
            (package_record(prev, ALICE, records.init(ALICE.public_key)), "InitialEntryAfterBeginning"),
            (package_record(prev, ALICE, release("1.0.0"), version=0), "ProtocolVersionNotAllowed"),
            (by_other, "SignatureError"),
            (unreadable, "SignatureError"),
            (before, "TimestampLowerThanPrevious"),
            (b"\x0b", "ProtobufEnvelope.Group"),
            (b"", "Contents.MissingTime"),
            (lawful[:-1], "ProtobufEnvelope.Truncated"),
        ):
            told = self.refused(self.client.post(path, envelope), 422, name)
            self.assertTrue(told["advice"].endswith("."))
            self.assertTrue(told["detail"])
        self.refused(self.client.post("/v1/package/a:toy/record", toy), 422, "UnknownAlgorithm")
        self.refused(self.client.get("/v1/package/a:toy/records"), 404, "NoLog")
        self.published(self.client.post(path, lawful))

    def test_policy(self) -> None:
        path, init = "/v1/package/a:policy/record", records.init(ALICE.public_key)
        self.refused(self.client.post(path, package_record(None, ALICE, init, version=0)), 422, "OldVersion")
        now = time.time_ns()

        def at(time_of: int) -> bytes:
            return records.signed(
                LogKind.PACKAGE, records.contents(None, time_of, [init]), ALICE.public_key, ALICE.sign
            )

        for ahead in (310, 10**6, 9 * 10**9):
            self.refused(self.client.post(path, at(now + ahead * 10**9)), 422, "TimeAhead")
        for before in (-1, -(10**9), -(2**62)):
            self.refused(self.client.post(path, at(before)), 422, "TimeBeforeEpoch")
        self.refused(self.client.get("/v1/package/a:policy/records"), 404, "NoLog")
        # A head that is ahead of a publisher's clock: the publisher is told its time, and takes that.
        head = self.published(self.client.post(path, at(now + 200 * 10**9)))["recordId"]
        stale = records.contents(head, now, [release("1.0.0")])
        answer = self.client.post(path, records.signed(LogKind.PACKAGE, stale, ALICE.public_key, ALICE.sign))
        self.refused(answer, 422, "TimestampLowerThanPrevious")
        self.assertIn("head's time", answer.json["advice"])
        told = self.refused(self.client.post(path, package_record(None, ALICE, init)), 409, "NotNext")
        seconds, _, nanos = told["headTime"].partition(".")
        head_time = int(seconds) * 10**9 + int(nanos)
        self.assertEqual(head_time, now + 200 * 10**9)
        right = records.contents(head, head_time, [release("1.0.0")])
        self.published(self.client.post(path, records.signed(LogKind.PACKAGE, right, ALICE.public_key, ALICE.sign)))


class Operators(Served):
    """The operator log."""

    def test_who_begins_it(self) -> None:
        path = "/v1/operator/record"
        self.refused(self.client.get("/v1/operator/records"), 404, "NoLog")
        self.refused(self.client.get("/v1/checkpoint"), 404, "NoCheckpoint")
        other = operator_record(None, BOB, records.init(BOB.public_key))
        self.refused(self.client.post(path, other), 403, "NotOperator")
        head = begin(self.client, self.key)
        grant = records.grant("operator", BOB.public_key, "commit defineNamespace")
        new = self.published(self.client.post(path, operator_record(head, self.key, grant)))
        by_bob = operator_record(new["recordId"], BOB, records.define_namespace("acme"))
        self.published(self.client.post(path, by_bob))
        self.assertEqual(len(self.client.get("/v1/operator/records").envelopes), 3)
        told = self.refused(self.client.post(path, other), 409, "NotNext")
        self.assertEqual(told["count"], 3)
        package = package_record(None, ALICE, records.init(ALICE.public_key))
        self.assertEqual(self.client.post(path, package).status, 409)


class Limits(Served):
    """Limits on what is published."""

    SETTINGS = "checkpoint_seconds = 0.1\nlogs_per_key = 2\nbody_bytes = 2000\nahead_seconds = 5\n"

    def test_logs_of_a_key(self) -> None:
        first = package_record(None, ALICE, records.init(ALICE.public_key))
        for name in ("a:one", "a:two"):
            head = self.published(self.client.post(f"/v1/package/{name}/record", first))["recordId"]
        self.refused(self.client.post("/v1/package/a:three/record", first), 429, "TooManyLogs")
        self.refused(self.client.get("/v1/package/a:three/records"), 404, "NoLog")
        self.published(self.client.post("/v1/package/a:two/record", package_record(head, ALICE, release("1.0.0"))))
        other = package_record(None, BOB, records.init(BOB.public_key))
        self.published(self.client.post("/v1/package/a:three/record", other))

    def test_time(self) -> None:
        contents = records.contents(None, time.time_ns() + 8 * 10**9, [records.init(BOB.public_key)])
        envelope = records.signed(LogKind.PACKAGE, contents, BOB.public_key, BOB.sign)
        self.refused(self.client.post("/v1/package/a:ahead/record", envelope), 422, "TimeAhead")

    def test_body(self) -> None:
        path = "/v1/package/a:long/record"
        self.refused(self.client.post(path, bytes(2001)), 413, "TooLong")
        self.refused(self.client.asked("POST", path, bytes(2001), {}), 413, "TooLong")
        self.assertEqual(self.client.post(path, bytes(2000)).status, 422)
        chunks = self.process.client()
        chunks._connection.request("POST", path, iter([bytes(1500)] * 3), PROTOBUF, encode_chunked=True)
        response = chunks._connection.getresponse()
        self.assertEqual((response.status, json.loads(response.read())["name"]), (413, "TooLong"))
        chunks.close()


if __name__ == "__main__":
    unittest.main()
