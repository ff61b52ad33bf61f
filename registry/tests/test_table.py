"""Each row of the table of docs/HTTP.md, once, on one registry: all calls of the contract are made, and all statuses of
records."""

import pathlib
import re
import unittest

from weoldrin import log_id, records

from .served import CONTRACT, Key, Served, begin, checkpoint_of, package_record, release

ALICE = Key.generate()
PAGE = pathlib.Path(__file__).resolve().parents[2] / "docs/HTTP.md"


class Table(Served):
    """The calls."""

    def test_each_row(self) -> None:
        CONTRACT.seen.clear()
        begin(self.client, self.key)
        first = package_record(None, ALICE, records.init(ALICE.public_key))
        head = self.published(self.client.post("/v1/package/a:b/record", first))["recordId"]
        self.refused(self.client.post("/v1/package/a:b/record", first), 409, "NotNext")
        self.refused(self.client.post("/v1/package/a:b/record", b""), 422, "Contents.MissingTime")
        self.published(self.client.post("/v1/package/a:b/record", package_record(head, ALICE, release("1.0.0"))))
        checkpoint_of(self.client, 3)
        its_id = log_id("package", "a:b")
        for target in (
            "/v1/health", "/v1/metrics", "/v1/package/a:b/records?from=1", "/v1/operator/records?from=0",
            f"/v1/logs/{its_id}/records", "/v1/names?prefix=a&after=", "/v1/leaves?from=1",
            f"/v1/leaf?log={its_id}&record={head}", "/v1/checkpoint", "/v1/checkpoint/3",
            "/v1/proof/inclusion?leaf=2&length=3&from=3", "/v1/proof/consistency?from=3&to=3",
            f"/v1/proof/map?log={its_id}&length=3&from=3", "/static/web/style.css",
        ):
            self.assertEqual(self.client.get(target).status, 200, target)
        self.assertEqual(self.client.get("/").status, 307)
        self.assertEqual(self.client.ask_json("/v1/fetch/logs", {"logs": {its_id: 1}}).status, 200)
        said = {(method.upper(), path) for path, item in CONTRACT.document["paths"].items() for method in item}
        self.assertEqual({(method, path) for method, path, _ in CONTRACT.seen}, said)
        self.assertLessEqual({"201", "409", "422"}, {it for _, path, it in CONTRACT.seen if path.endswith("/record")})

    def test_the_page_says_the_same(self) -> None:
        text = PAGE.read_text(encoding="utf-8")
        rows = re.findall(r"`(GET|POST) (/[^`?]*)", text[: text.index("## Publishing")])
        names = {"NAME": "{name}", "LOG_ID": "{logId}", "LENGTH": "{length}", "..": "{path}"}

        def named(found: re.Match[str]) -> str:
            return names[found[0]]

        found = {(method, re.sub(r"NAME|LOG_ID|LENGTH|\.\.", named, path)) for method, path in rows}
        said = {(method.upper(), path) for path, item in CONTRACT.document["paths"].items() for method in item}
        self.assertEqual(found, said)


if __name__ == "__main__":
    unittest.main()
