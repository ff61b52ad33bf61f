"""Records, names, leaves, health and metrics of a registry that is served, and addresses that are none."""

import base64
import json
import unittest

from weoldrin import PackageLog, log_id, records

from .served import CONTRACT, JSON, Key, Served, begin, checkpoint_of, next_record, release

ALICE = Key.generate()
NAMES = ["acme:math", "acme:text", "acme:text-x", "b:c"]


class Reading(Served):
    """What can be read of some logs."""

    SETTINGS = "checkpoint_seconds = 0.1\nanswer_records = 3\nanswer_bytes = 700\nanswer_leaves = 4\nfetch_logs = 4\n"

    logs: dict[str, list[bytes]]
    heads: dict[str, str]

    @classmethod
    def setUpClass(cls) -> None:
        super().setUpClass()
        begin(cls.client, cls.key)
        cls.logs, cls.heads = {}, {}
        for number, name in enumerate(NAMES):
            with PackageLog() as log:
                envelopes = cls.logs[name] = []
                for place in range(number + 2):
                    entry = release(f"{place}.0.0") if place else records.init(ALICE.public_key)
                    envelopes.append(next_record(log, ALICE, entry, seconds=place))
                    log.append(envelopes[-1])
                    assert cls.client.post(f"/v1/package/{name}/record", envelopes[-1]).status == 201
                cls.heads[name] = log.head() or ""

    def _all(self, target: str) -> list[bytes]:
        """What an address and those behind it have."""
        found: list[bytes] = []
        while True:
            answer = self.client.get(target)
            found += answer.envelopes
            link = answer.headers.get("link")
            if link is None:
                return found
            target = link[1 : link.index(">")]

    def test_records(self) -> None:
        for name, envelopes in self.logs.items():
            by_id = f"/v1/logs/{log_id('package', name)}/records"
            for target in (f"/v1/package/{name}/records", by_id):
                for start in range(len(envelopes) + 2):
                    self.assertEqual(self._all(f"{target}?from={start}"), envelopes[start:])
                self.assertEqual(self._all(target), envelopes)
                answer = self.client.get(target)
                self.assertEqual(answer.headers["etag"], f'"{self.heads[name]}"')
                self.assertEqual(answer.headers["weoldrin-count"], str(len(envelopes)))
                self.assertLessEqual(len(answer.envelopes), 3)
                self.assertEqual(len(answer.envelopes) < len(envelopes), "link" in answer.headers)
                self.assertEqual(self.client.get(f"{target}?from={2**63 - 1}").body, b"")
        self.assertEqual(len(self._all("/v1/operator/records")), 1)

    def test_the_bytes_of_an_answer(self) -> None:
        for start in range(4):
            envelopes = self.logs[NAMES[3]][start:]
            most = next(it for it in range(4, 0, -1) if it == 1 or sum(map(len, envelopes[:it])) <= 700)
            self.assertLess(most, 3)
            answer = self.client.get(f"/v1/package/{NAMES[3]}/records?from={start}")
            self.assertEqual(answer.envelopes, envelopes[:most])

    def test_tags(self) -> None:
        target = f"/v1/package/{NAMES[0]}/records"
        tag = self.client.get(target).headers["etag"]
        for it in (tag, f"W/{tag}", f'"x", {tag}'):
            answer = self.client.get(target, If_None_Match=it)
            self.assertEqual((answer.status, answer.body, answer.headers["etag"]), (304, b"", tag))
        self.assertEqual(self.client.get(target, If_None_Match='"x"').status, 200)
        self.assertEqual(self.client.get(target, If_None_Match=tag, Accept="application/protobuf").status, 200)

    def test_protobuf(self) -> None:
        for accept in ("application/protobuf", "text/html, Application/Protobuf;q=0.5"):
            answer = self.client.get(f"/v1/package/{NAMES[2]}/records", Accept=accept)
            self.assertEqual(answer.headers["content-type"], "application/protobuf")
            self.assertEqual(answer.headers["etag"], f'"{self.heads[NAMES[2]]}+protobuf"')
            rest, found = answer.body, []
            while rest:
                length, shift = 0, 0
                while True:
                    byte, rest = rest[0], rest[1:]
                    length |= (byte & 127) << shift
                    shift += 7
                    if byte < 128:
                        break
                found.append(rest[:length])
                rest = rest[length:]
            self.assertTrue(found)
            self.assertEqual(found, self.logs[NAMES[2]][: len(found)])

    def test_no_logs(self) -> None:
        other = log_id("package", "a:none")
        for target in (f"/v1/logs/{other}/records", "/v1/package/a:none/records"):
            self.refused(self.client.get(target), 404, "NoLog")
        for wrong in ("x", other.upper(), other[:-1], other + "0", "sha256:"):
            CONTRACT.check("GET", "/v1/logs/x/records", *self.client.get(f"/v1/logs/{wrong}/records"))
            self.refused(self.client.get(f"/v1/logs/{wrong}/records"), 404, "NoLog")

    def test_fetching_many(self) -> None:
        ids = {log_id("package", it): it for it in NAMES}
        known = {it: 0 for it in ids}
        found: dict[str, list[bytes]] = {it: [] for it in ids}
        for _ in range(30):
            answer = self.client.ask_json("/v1/fetch/logs", {"logs": known}).json
            self.assertEqual(answer["unknown"], [])
            sizes = [len(base64.b64decode(one)) for log in answer["logs"].values() for one in log["envelopes"]]
            self.assertTrue(len(sizes) == 1 or (len(sizes) <= 3 and sum(sizes) <= 700), sizes)
            for it, log in answer["logs"].items():
                self.assertEqual((log["head"], log["count"]), (self.heads[ids[it]], len(self.logs[ids[it]])))
                found[it] += [base64.b64decode(one) for one in log["envelopes"]]
                known[it] = len(found[it])
            if not answer["more"]:
                break
        self.assertEqual({ids[it]: found[it] for it in ids}, self.logs)
        answer = self.client.ask_json("/v1/fetch/logs", {"logs": known}).json
        self.assertEqual(answer, {"logs": {}, "unknown": [], "more": False})
        other = log_id("package", "a:none")
        answer = self.client.ask_json("/v1/fetch/logs", {"logs": {other: 0, next(iter(ids)): 9}}).json
        self.assertEqual(answer, {"logs": {}, "unknown": [other], "more": False})
        self.assertEqual(self.client.ask_json("/v1/fetch/logs", {"logs": {}}).json["logs"], {})

    def test_fetching_wrongly(self) -> None:
        other = log_id("package", "a:none")
        for wrong in (
            [], {}, {"logs": []}, {"logs": {other: -1}}, {"logs": {other: 1.0}}, {"logs": {other: True}},
            {"logs": {other: "1"}},
            {"logs": {other: 2**63}}, {"logs": {"x": 0}}, {"logs": {other.upper(): 0}}, {"logs": {}, "x": 1},
        ):
            answer = self.client.asked("POST", "/v1/fetch/logs", json.dumps(wrong).encode(), JSON)
            self.refused(answer, 400, "BadBody")
        for data in (b"", b"[", b"\xff", b"[" * 100_000, b'{"logs":' + b"9" * 5000 + b"}"):
            self.refused(self.client.asked("POST", "/v1/fetch/logs", data, JSON), 400, "BadBody")
        self.refused(self.client.asked("POST", "/v1/fetch/logs", b"{}", {}), 415, "UnknownType")
        many = {"logs": {f"sha256:{it:064x}": 0 for it in range(5)}}
        self.refused(self.client.ask_json("/v1/fetch/logs", many), 413, "TooMany")

    def test_names(self) -> None:
        for prefix in ("", "acme:", "acme:text", "acme:text-x", "b", "z", "acme:textx", "%C3%A9", "%F4%8F%BF%BF"):
            found, after = [], ""
            while True:
                answer = self.client.get(f"/v1/names?prefix={prefix}&after={after}").json
                found += answer["names"]
                if "next" not in answer:
                    break
                after = answer["next"]
            names = [it for it in NAMES if it.startswith(prefix)]
            self.assertEqual([it["name"] for it in found], names, prefix)
            for it in found:
                expected = (log_id("package", it["name"]), self.heads[it["name"]], len(self.logs[it["name"]]))
                self.assertEqual((it["logId"], it["head"], it["count"]), expected)
        self.assertEqual(len(self.client.get("/v1/names").json["names"]), 3)

    def test_leaves(self) -> None:
        lines: list[str] = []
        target = "/v1/leaves"
        while True:
            answer = self.client.get(target)
            lines += answer.body.decode().splitlines()
            self.assertLessEqual(answer.body.count(b"\n"), 4)
            if "link" not in answer.headers:
                break
            target = answer.headers["link"].partition(">")[0][1:]
        count = 1 + sum(len(it) for it in self.logs.values())
        self.assertEqual((len(lines), len(set(lines))), (count, count))
        self.assertEqual(self.client.get(f"/v1/leaves?from={count}").body, b"")
        self.assertEqual(self.client.get(f"/v1/leaves?from={count - 1}").body.decode().splitlines(), lines[-1:])

    def test_a_leaf(self) -> None:
        lines = [it for start in range(0, 15, 4)
                 for it in self.client.get(f"/v1/leaves?from={start}").body.decode().splitlines()]
        # The logs begin with one record, whose leaf is another in each.
        self.assertLess(len({it.partition(" ")[2] for it in lines}), len(lines))
        places: dict[str, int] = {}
        for index, line in enumerate(lines):
            its_log, its_record = line.split(" ")
            place = places[its_log] = places.get(its_log, -1) + 1
            target = f"/v1/leaf?log={its_log}&record={its_record}"
            answer = self.client.get(target)
            expected = {"recordId": its_record, "logId": its_log, "place": place, "registryIndex": index}
            self.assertEqual((answer.status, answer.json), (200, expected))
            self.assertEqual(answer.headers["cache-control"], "public, max-age=31536000, immutable")
            tag = answer.headers["etag"]
            again = self.client.get(target, If_None_Match=tag)
            self.assertEqual((again.status, again.body, again.headers["etag"]), (304, b"", tag))
            self.assertEqual(again.headers["cache-control"], answer.headers["cache-control"])
            self.assertEqual(self.client.get(target, If_None_Match='"x"').status, 200)
        self.assertEqual(len(lines), 1 + sum(len(it) for it in self.logs.values()))

    def test_no_leaf(self) -> None:
        name, other = log_id("package", NAMES[1]), log_id("package", "a:none")
        head, first = self.heads[NAMES[1]], self.heads[NAMES[0]]
        self.refused(self.client.get(f"/v1/leaf?log={name}&record={records.sha256_text(b'')}"), 404, "NoRecord")
        self.refused(self.client.get(f"/v1/leaf?log={log_id('package', NAMES[0])}&record={head}"), 404, "NoRecord")
        self.refused(self.client.get(f"/v1/leaf?log={other}&record={first}"), 404, "NoLog")
        self.refused(self.client.get(f"/v1/leaf?log={head}&record={name}"), 404, "NoLog")
        for wrong in ("", f"log={name}", f"record={head}", f"log={name}&record=", f"log={name.upper()}&record={head}",
                      f"log={name}&record={head}0", f"log={name}&record={head[7:]}", f"log={name}&record={head}&from=0",
                      f"log={name}&record={head}&record={head}", f"log=&record={head}", f"log={NAMES[1]}&record={head}",
                      f"log={name}&record=%00"):
            self.refused(self.client.get(f"/v1/leaf?{wrong}"), 400, "BadQuery")
        target = f"/v1/leaf?log={name}&record={head}"
        answer = self.client.asked("HEAD", target)
        self.assertEqual((answer.status, answer.body), (200, b""))
        self.assertEqual(answer.headers["content-length"], str(len(self.client.get(target).body)))
        self.refused(self.client.asked("POST", target, b"{}", JSON), 405, "BadMethod")
        self.refused(self.client.asked("GET", target, b"{}", JSON), 400, "BodyBehindGet")

    def test_health_and_metrics(self) -> None:
        count = 1 + sum(len(it) for it in self.logs.values())
        checkpoint_of(self.client, count)
        found = self.client.get("/v1/health").json
        self.assertEqual((found["logLength"], found["checkpointLength"]), (count, count))
        text = self.client.get("/v1/metrics").body.decode()
        for line in (
            f"weoldrin_leaves {float(count)}",
            f"weoldrin_checkpoint_leaves {float(count)}",
            f'weoldrin_records_total{{kind="package"}} {float(count - 1)}',
            'weoldrin_records_total{kind="operator"} 1.0',
            f'weoldrin_requests_total{{call="publish_package_record",status="201"}} {float(count - 1)}',
            f"weoldrin_handles {float(len(NAMES) + 1)}",
        ):
            self.assertIn(f"{line}\n", text)

    def test_wrong_queries(self) -> None:
        self.refused(self.client.get("/v1/names?x=1"), 400, "BadQuery")
        self.refused(self.client.get("/v1/names?prefix=a&prefix=b"), 400, "BadQuery")
        self.refused(self.client.get("/v1/names?prefix"), 400, "BadQuery")
        self.refused(self.client.get("/v1/names?prefix=%FF"), 400, "BadQuery")
        self.refused(self.client.get(f"/v1/names?prefix={'a' * 129}"), 400, "BadQuery")
        self.refused(self.client.get("/v1/names?prefix=%00"), 400, "BadQuery")
        self.refused(self.client.get("/v1/names?" + "&".join("a=b" for _ in range(100))), 400, "BadQuery")
        for number in ("", "-1", "+1", "1.0", "x", "%C2%B2", "%D9%A3", str(2**63), "9" * 5000, "1_0", "%201"):
            for target in ("/v1/leaves", f"/v1/package/{NAMES[0]}/records"):
                self.refused(self.client.get(f"{target}?from={number}"), 400, "BadQuery")
        for target in ("/v1/health", "/v1/metrics", "/v1/checkpoint"):
            self.refused(self.client.get(f"{target}?x=1"), 400, "BadQuery")

    def test_wrong_addresses(self) -> None:
        for target in ("/v1", "/v1/", "/v1/health/", "/v2/health", "//", "/v1/package/a/b/record", "/v1/checkpoint/x",
                       f"/v1/checkpoint/{2**63}", "/v1/checkpoint/-1", "/static/", "/static/../pyproject.toml",
                       "/static/web/../../pyproject.toml", "/static/web/%2e%2e/%2e%2e/pyproject.toml",
                       "/static/web/%00", f"/static/web/{'a' * 5000}", f"/static/{'a' * 300}", "/static/web/src",
                       "/static/web/%FF", "/%2e%2e/x"):
            self.refused(self.client.get(target), 404, "NotFound")
        for method, target, allowed in (
            ("POST", "/v1/names", {"GET", "HEAD"}), ("PUT", "/v1/checkpoint", {"GET", "HEAD"}),
            ("GET", "/v1/operator/record", {"POST"}), ("DELETE", f"/v1/package/{NAMES[0]}/record", {"POST"}),
        ):
            answer = self.client.asked(method, target)
            self.refused(answer, 405, "BadMethod")
            self.assertEqual({it.strip() for it in answer.headers["allow"].split(",")}, allowed)

    def test_head(self) -> None:
        for target in (f"/v1/package/{NAMES[0]}/records", "/v1/names", "/v1/health", "/static/web/index.html"):
            answer, whole = self.client.asked("HEAD", target), self.client.get(target)
            self.assertEqual((answer.status, answer.body), (200, b""))
            self.assertEqual(answer.headers["content-length"], str(len(whole.body)))

    def test_the_page(self) -> None:
        answer = self.client.get("/")
        self.assertEqual((answer.status, answer.headers["location"]), (307, "/static/web/index.html"))
        self.assertIn(b"<!doctype html>", self.client.get(answer.headers["location"]).body.lower())
        module = self.client.get("/static/web/src/main.js")
        self.assertIn("javascript", module.headers["content-type"])
        for it in ("bindings/js/src/index.js", "dist/wasm/libwarg.wasm", "examples/p256/package.hex"):
            self.assertEqual(self.client.get(f"/static/{it}").status, 200, it)
        self.assertEqual(self.client.get("/static/dist/wasm/libwarg.wasm").headers["content-type"], "application/wasm")


class WithoutThePage(Served):
    """A registry that has no page to serve."""

    WORDS = ("--static", "/nowhere")

    def test_the_page(self) -> None:
        for target in ("/", "/static/web/index.html", "/static/"):
            self.refused(self.client.get(target), 404, "NotFound")


if __name__ == "__main__":
    unittest.main()
