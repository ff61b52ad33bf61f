"""Whether requests and answers are as openapi.yaml says."""

import json
import pathlib
import re
import urllib.parse
from collections.abc import Mapping
from typing import Any

import jsonschema
import yaml

DOCUMENT = pathlib.Path(__file__).resolve().parent.parent / "openapi.yaml"


class NotAsSaid(AssertionError):
    """An answer is not as the contract says."""


def _parts_of(path: str, target: str) -> dict[str, str] | None:
    """The parameters in an address that is of a path; none where it is not."""
    part = r"(?P<\1>.+)" if path.startswith("/static/") else r"(?P<\1>[^/]+)"
    found = re.fullmatch(re.sub(r"\{(\w+)\}", part, path), target.partition("?")[0])
    return {name: urllib.parse.unquote(value) for name, value in found.groupdict().items()} if found else None


class Contract:
    """What openapi.yaml says."""

    def __init__(self) -> None:
        self.document: dict[str, Any] = yaml.safe_load(DOCUMENT.read_text(encoding="utf-8"))
        self.seen: set[tuple[str, str, str]] = set()

    def check(self, method: str, target: str, status: int, headers: Mapping[str, str], body: bytes) -> None:
        """Raises `NotAsSaid` where an answer is another than what is said."""
        path = self.path_of(target)
        if path is None:
            # An address that is none has a document all the same.
            found = self.document["components"]["responses"]["Problem"]
        else:
            none = {"responses": {"default": {"$ref": "#/components/responses/Problem"}}}
            operation = self.document["paths"][path].get(method.lower().replace("head", "get"), none)
            self._check_asked(f"{method} {target}", self._fault_of(path, operation, target), status, body)
            responses = operation["responses"]
            said = str(status) if str(status) in responses else "default"
            if said == "default" and status < 400:
                raise NotAsSaid(f"{method} {target}: {status} is not said")
            self.seen.add((method, path, str(status)))
            found = self._resolved(responses[said])
        self._check_headers(found, headers)
        if method != "HEAD":
            self._check_body(found, headers.get("content-type", ""), body)

    def check_request(self, method: str, target: str, body: object) -> None:
        """Raises where a body of JSON is none that the contract has."""
        path = self.path_of(target)
        said = self._resolved(self.document["paths"][path][method.lower()]["requestBody"])
        self._validate(said["content"]["application/json"]["schema"], body)

    def path_of(self, target: str) -> str | None:
        """The path of the contract that an address is of."""
        return next((it for it in self.document["paths"] if _parts_of(it, target) is not None), None)

    @staticmethod
    def _check_asked(asked: str, fault: str, status: int, body: bytes) -> None:
        """A request whose parameters are others than is said is refused, and for its query no other one is."""
        if fault and status < 400:
            raise NotAsSaid(f"{asked} is answered with {status}: {fault}")
        if not fault and status == 400 and json.loads(body or b"{}").get("name") == "BadQuery":
            raise NotAsSaid(f"{asked} is refused for its query, which is as is said")

    def _fault_of(self, path: str, operation: dict[str, Any], target: str) -> str:
        """What of a request's parameters is not as is said; nothing where all is."""
        query = target.partition("?")[2]
        given = [(("path", name), value) for name, value in (_parts_of(path, target) or {}).items()]
        try:
            pairs = urllib.parse.parse_qsl(query, True, bool(query), errors="strict")
        except ValueError:
            return "its query can't be read"
        given += [(("query", name), value) for name, value in pairs]
        said = {(it["in"], it["name"]): it for it in map(self._resolved, operation.get("parameters", []))}
        if len(dict(given)) < len(given) or not dict(given).keys() <= said.keys():
            return "a parameter is none, or stands twice"
        if not {it for it, parameter in said.items() if parameter.get("required")} <= dict(given).keys():
            return "a parameter is missing"
        try:
            for it, value in given:
                schema = self._resolved(said[it]["schema"])
                is_number = schema["type"] == "integer" and re.fullmatch("[0-9]{1,19}", value)
                self._validate(schema, int(value) if is_number else value)
        except NotAsSaid as error:
            return str(error)
        return ""

    def _resolved(self, it: dict[str, Any]) -> dict[str, Any]:
        while "$ref" in it:
            found: Any = self.document
            for part in it["$ref"].removeprefix("#/").split("/"):
                found = found[part]
            it = found
        return it

    def _check_headers(self, said: dict[str, Any], headers: Mapping[str, str]) -> None:
        for name, header in said.get("headers", {}).items():
            header = self._resolved(header)
            if name.lower() in headers:
                self._validate(header["schema"], headers[name.lower()])
            elif header.get("required"):
                raise NotAsSaid(f"the header {name} is missing")

    def _check_body(self, said: dict[str, Any], content_type: str, body: bytes) -> None:
        contents = said.get("content")
        if contents is None:
            if body:
                raise NotAsSaid("there is a body")
            return
        kind = content_type.partition(";")[0]
        found = contents.get(kind, contents.get("*/*"))
        if found is None:
            raise NotAsSaid(f"the body is of {content_type}")
        if "schema" in found:
            self._validate(found["schema"], json.loads(body) if kind.endswith("json") else body.decode())

    def _validate(self, schema: dict[str, Any], value: object) -> None:
        whole = {**schema, "components": self.document["components"]}
        try:
            jsonschema.Draft202012Validator(whole).validate(value)
        except jsonschema.ValidationError as error:
            raise NotAsSaid(f"{error.message[:300]} at {list(error.absolute_path)}") from None
