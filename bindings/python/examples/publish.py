"""Publishes a package: `python3 publish.py COUNT` prints the envelopes of so many records, a line each in hex.

They are signed by new keys of P-256, and checked before they are printed.
"""

import sys
import time
from collections.abc import Iterator

from weoldrin import LogKind, PackageLog, p256, print_lines, records


def publish(log: PackageLog, signer: p256.SigningKey, entries: list[bytes]) -> bytes:
    """Signs a record that goes on from the log, and appends it."""
    contents = records.contents(log.head(), time.time_ns(), entries)
    envelope = records.signed(LogKind.PACKAGE, contents, signer.public_key, signer.sign)
    log.append(envelope)
    return envelope


def published(count: int) -> Iterator[bytes]:
    """The envelopes of a new log: alice begins it and lets bob release; bob then releases a version a record."""
    alice, bob = p256.SigningKey.generate(), p256.SigningKey.generate()
    with PackageLog() as log:
        beginning = [records.init(alice.public_key), records.grant(LogKind.PACKAGE, bob.public_key, ["release"])]
        yield publish(log, alice, beginning)
        for minor in range(1, count):
            content = records.sha256_text(f"content {minor}".encode())
            yield publish(log, bob, [records.release(f"1.{minor}.0", content)])


if __name__ == "__main__":
    print_lines(it.hex() for it in published(int(sys.argv[1])))
