"""What the tests themselves see by openapi.yaml of requests and their parameters."""

import json
import unittest

from .contract import Contract, NotAsSaid

ID = f"sha256:{'0' * 64}"
ETAG = {"etag": f'"{ID}"', "weoldrin-count": "1", "content-type": "text/plain"}
# Requests that are as is said, and such as are not, which have to be refused.
GOOD = [
    "/v1/package/a:b/records", "/v1/package/a%3Ab/records?from=0", f"/v1/logs/{ID}/records?from={2**63 - 1}",
    "/v1/package/a:b/records?from=007",
]
BAD = [
    "/v1/package/A:b/records", "/v1/package/ab/records", f"/v1/package/a:{'b' * 127}/records",
    "/v1/logs/sha256:0/records", f"/v1/logs/{ID.upper()}/records", "/v1/package/a:b/records?from=-1",
    "/v1/package/a:b/records?from=", "/v1/package/a:b/records?from=x", f"/v1/package/a:b/records?from={2**63}",
    "/v1/package/a:b/records?from=1&from=1", "/v1/package/a:b/records?to=1", "/v1/package/a:b/records?from=%ff",
    "/v1/package/a:b/records?from", "/v1/package/a:b/records?from=1.0",
]
PROBLEM = {"content-type": "application/problem+json"}


def refusal(name: str) -> bytes:
    """The body of an error."""
    members = {"type": "about:blank", "title": "Bad Request", "status": 400, "detail": "a sentence", "name": name}
    return json.dumps(members).encode()


class Parameters(unittest.TestCase):
    """Parameters of a path and of a query."""

    def test_taken(self) -> None:
        contract = Contract()
        for target in GOOD:
            with self.subTest(target):
                contract.check("GET", target, 200, ETAG, b"00\n")
                contract.check("GET", target, 400, PROBLEM, refusal("Other"))
                self.assertRaises(NotAsSaid, contract.check, "GET", target, 400, PROBLEM, refusal("BadQuery"))

    def test_refused(self) -> None:
        contract = Contract()
        for target in BAD:
            with self.subTest(target):
                self.assertRaises(NotAsSaid, contract.check, "GET", target, 200, ETAG, b"00\n")
                contract.check("GET", target, 400, PROBLEM, refusal("BadQuery"))

    def test_missing(self) -> None:
        """A word that has to be there."""
        members = {"recordId": ID, "logId": ID, "place": 0, "registryIndex": 0}
        body, target = json.dumps(members).encode(), f"/v1/leaf?log={ID}&record={ID}"
        headers = {"content-type": "application/json", "cache-control": "no-cache", "etag": "x"}
        Contract().check("GET", target, 200, headers, body)
        for other in (f"/v1/leaf?log={ID}", f"/v1/leaf?record={ID}", "/v1/leaf"):
            self.assertRaises(NotAsSaid, Contract().check, "GET", other, 200, headers, body)


if __name__ == "__main__":
    unittest.main()
