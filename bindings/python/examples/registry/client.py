"""A client of the registry: publishes releases of a package, and fetches logs to audit them.

    python3 client.py publish URL PACKAGE KEY VERSION..   publishes releases; KEY is a file, made where there is none
    python3 client.py fetch URL PACKAGE                   prints the package's envelopes, a line each in hex

Status: 0 done, 1 the registry refused something or has no such package, 2 wrong words, 3 a read or a write failed.
"""

from __future__ import annotations

import argparse
import http.client
import json
import pathlib
import sys
import time
import urllib.parse
from collections.abc import Iterator

from weoldrin import Error, LogKind, PackageLog, p256, print_lines, printable, records


class RegistryError(Exception):
    """The registry refused something. `name` is the error's."""

    def __init__(self, status: int, name: str, sentence: str) -> None:
        super().__init__(printable(f"{status} {name}: {sentence}"))
        self.status, self.name = status, name


class NoPackage(Exception):
    """The registry has nothing of a package."""


class Client:
    """A connection to a registry."""

    def __init__(self, url: str) -> None:
        self._connection = http.client.HTTPConnection(urllib.parse.urlsplit(url).netloc, timeout=60)

    def __enter__(self) -> Client:
        return self

    def __exit__(self, *_: object) -> None:
        self._connection.close()

    def publish(self, package: str, envelope: bytes) -> int:
        """Publishes the record of an envelope, and gives its place."""
        return int(json.loads(self._asked("POST", f"/package/{package}", envelope))["place"])

    def head(self, package: str) -> str | None:
        """The id of the last record of a package; none if there is no such package."""
        try:
            return self._asked("GET", f"/package/{package}/head").strip()
        except RegistryError as error:
            if error.status == http.HTTPStatus.NOT_FOUND:
                return None
            raise

    def latest(self, package: str, requirement: str) -> str:
        """The greatest version that meets a requirement."""
        words = urllib.parse.urlencode({"requirement": requirement})
        return str(json.loads(self._asked("GET", f"/package/{package}/latest?{words}"))["version"])

    def packages(self) -> list[str]:
        """The names of all packages."""
        return self._asked("GET", "/package").split()

    def records(self, package: str, start: int = 0) -> list[bytes]:
        """The envelopes of a package from a place on."""
        found: list[bytes] = []
        while lines := self._asked("GET", f"/package/{package}/records?from={start + len(found)}").split():
            found += [bytes.fromhex(it) for it in lines]
        return found

    def _asked(self, method: str, path: str, body: bytes | None = None) -> str:
        self._connection.request(method, path, body)
        response = self._connection.getresponse()
        text = response.read().decode()
        if response.status >= http.HTTPStatus.BAD_REQUEST:
            told = json.loads(text)
            raise RegistryError(response.status, told["error"], told["sentence"])
        return text


# Errors of a record that would have been lawful, if no other record had come before it.
_OVERTAKEN = {"RecordHashDoesNotMatch", "NoPreviousHashAfterInit", "TimestampLowerThanPrevious"}


def key_in(path: pathlib.Path) -> p256.SigningKey:
    """The key in a file. A new one is made and kept there, for its owner alone, where there is none."""
    if path.exists():
        return p256.SigningKey.from_pem(path.read_bytes())
    key = p256.SigningKey.generate()
    path.touch(mode=0o600)
    path.write_bytes(key.to_pem())
    return key


def signed(prev: str | None, key: p256.SigningKey, entries: list[bytes]) -> bytes:
    """The envelope of a package's record that goes on from the one with the id `prev`."""
    contents = records.contents(prev, time.time_ns(), entries)
    return records.signed(LogKind.PACKAGE, contents, key.public_key, key.sign)


def publish(client: Client, package: str, versions: list[str], key: p256.SigningKey) -> Iterator[int]:
    """Publishes releases, each on what the package's log then is, and gives the place of each record.

    Begins the package where there is none. If another publisher's record came in between, the record is made anew.
    """
    waiting = [[records.release(it, records.sha256_text(f"{package} {it}".encode()))] for it in versions]
    while waiting:
        head = client.head(package)
        entries = [records.init(key.public_key)] if head is None else waiting[0]
        try:
            place = client.publish(package, signed(head, key, entries))
        except RegistryError as error:
            if error.name not in _OVERTAKEN:
                raise
            continue
        if head is not None:
            del waiting[0]
        yield place


def fetch(client: Client, package: str) -> Iterator[bytes]:
    """A package's envelopes, checked. A package of no records is none."""
    envelopes = client.records(package)
    if not envelopes:
        raise NoPackage(f"the registry has no records of {printable(package)}")
    with PackageLog() as log:
        for envelope in envelopes:
            log.append(envelope)
            yield envelope


def run(words: argparse.Namespace) -> None:
    """Runs the words of the command."""
    with Client(words.url) as client:
        if words.command == "publish":
            # All is published, also where nobody reads the places.
            for place in publish(client, words.package, words.versions, key_in(words.key)):
                print_lines([str(place)])
        else:
            print_lines(it.hex() for it in fetch(client, words.package))


def main() -> int:
    """Runs the command, and says in a sentence what it failed of."""
    parser = argparse.ArgumentParser(description=__doc__, formatter_class=argparse.RawDescriptionHelpFormatter)
    commands = parser.add_subparsers(dest="command", required=True)
    for name in ("publish", "fetch"):
        command = commands.add_parser(name)
        command.add_argument("url")
        command.add_argument("package")
    publishing = commands.choices["publish"]
    publishing.add_argument("key", type=pathlib.Path)
    publishing.add_argument("versions", nargs="+", metavar="VERSION")
    try:
        run(parser.parse_args())
    except (RegistryError, NoPackage, Error) as error:
        print(f"client.py: {error}", file=sys.stderr)
        return 1
    except (OSError, http.client.HTTPException) as error:
        print(f"client.py: {printable(getattr(error, 'strerror', None) or str(error))}", file=sys.stderr)
        return 3
    return 0


if __name__ == "__main__":
    sys.exit(main())
