"""Logs that are signed by keys of P-256, for the tests."""

from weoldrin import Log, LogKind, OperatorLog, PackageLog, p256, records

Key = p256.SigningKey
START = 1_700_000_000_000_000_000


def record(log: Log, signer: Key, entries: list[bytes], timestamp: int = START, version: int = 1) -> bytes:
    """The envelope of a record that goes on from a log."""
    contents = records.contents(log.head(), timestamp, entries, version)
    return records.signed(log.KIND, contents, signer.public_key, signer.sign)


def beginning(log: Log, alice: Key, bob: Key) -> bytes:
    """The first record of a log of a package: alice begins it, and lets bob release."""
    entries = [records.init(alice.public_key), records.grant(LogKind.PACKAGE, bob.public_key, ["release"])]
    return record(log, alice, entries)


def release(log: Log, bob: Key, version: str) -> bytes:
    """A release by bob."""
    return record(log, bob, [records.release(version, records.sha256_text(version.encode()))])


def envelopes(count: int, alice: Key, bob: Key) -> list[bytes]:
    """The envelopes of a log of a package, of so many records."""
    made = []
    with PackageLog() as log:
        for place in range(count):
            made.append(release(log, bob, f"1.{place}.0") if place else beginning(log, alice, bob))
            log.append(made[-1])
    return made


def operator_log(alice: Key) -> OperatorLog:
    """A log of operators: alice begins it, defines the namespace `own` and imports the namespace `other`."""
    log = OperatorLog()
    entries = [
        records.init(alice.public_key),
        records.define_namespace("own"),
        records.import_namespace("other", "registry.example.com"),
    ]
    log.append(record(log, alice, entries))
    return log
