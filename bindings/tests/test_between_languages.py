"""Tests between languages: each audits what each published, and is asked for what no one should take or print: nothing,
half of a log, and a stranger's text that a terminal obeys. And other programs verify signatures of ECDSA P-256.

`tools/test_hosts` runs this file, and names the hosts in WARG_HOSTS, in JSON: by language the command that publishes a
log of 50 records, the one that audits the log on its standard input, and what their environment has besides.
"""
from __future__ import annotations

import functools
import hashlib
import json
import os
import pathlib
import subprocess
import sys
import unittest
from typing import Any, NamedTuple

sys.path.insert(0, str(pathlib.Path(__file__).resolve().parents[2] / "tools"))

from common import ROOT
from p256.logs import sign

# A lawful log.
GOOD = (ROOT / "examples/p256/package.hex").read_bytes()
# The id of a key that clears the screen, and has a line of its own; and what may be printed of it.
STRANGER = "x\x1b[2J\r\nok 9 \x9b\u202e\u2028\ufeff\ufdd0\\é"
SHOWN = "x\\u{1b}[2J\\u{d}\\u{a}ok 9 \\u{9b}\\u{202e}\\u{2028}\\u{feff}\\u{fdd0}\\\\é"


class Said(NamedTuple):
    """How a run ended, what it printed on standard output, and that with what it told on standard error."""

    status: int
    printed: str
    all: str


class Host(NamedTuple):
    """The commands of a language, and what their environment has besides."""

    publish: list[str]
    audit: list[str]
    environment: dict[str, str]

    def run(self, command: list[str], **how: Any) -> subprocess.CompletedProcess[bytes]:
        """Runs a command. What it prints is kept, if nothing else is said."""
        how = {"stdout": subprocess.PIPE, "stderr": subprocess.PIPE, **how}
        return subprocess.run(command, env=os.environ | self.environment, check=False, **how)

    def audits(self, log: bytes) -> Said:
        """What its audit says of a log."""
        done = self.run(self.audit, input=log)
        printed, told = (it.decode(errors="replace") for it in (done.stdout, done.stderr))
        return Said(done.returncode, printed, printed + told)


HOSTS = {name: Host(**words) for name, words in json.loads(os.environ.get("WARG_HOSTS", "{}")).items()}
if not HOSTS:
    raise unittest.SkipTest("tools/test_hosts names the hosts in WARG_HOSTS")


@functools.cache
def published(name: str) -> bytes:
    """The log that a language publishes."""
    host = HOSTS[name]
    done = host.run(host.publish, stderr=None)
    done.check_returncode()
    return done.stdout


def forged(log: bytes) -> bytes:
    """The log with another digit in the signature of its eighth record: the last byte, as base64 in hex."""
    lines = log.split(b"\n")
    lines[7] = lines[7][:-8] + (b"42" if lines[7][-8:-6] == b"41" else b"41") + lines[7][-6:]
    return b"\n".join(lines)


def hostile() -> bytes:
    """A log whose second record is of the stranger's key."""
    first = GOOD.split(b"\n")[0]
    contents = sign.cut_field(1, bytes.fromhex(first.decode()))[0]
    prev = f"sha256:{hashlib.sha256(b'WARG-PACKAGE-LOG-RECORD-V0:' + contents).hexdigest()}".encode()
    release = sign.field(4, sign.field(1, b"1.0.0") + sign.field(2, b"sha256:" + 64 * b"0"))
    time = sign.field(3, b"\x08" + sign.varint(4_102_444_800))
    contents = sign.field(1, prev) + b"\x10\x01" + time + sign.field(4, release)
    parts = [contents, STRANGER.encode(), b"ecdsa-p256:AAAA"]
    envelope = b"".join(sign.field(number, part) for number, part in enumerate(parts, 1))
    return first + b"\n" + envelope.hex().encode() + b"\n"


class OfLanguages(unittest.TestCase):
    """A test of some languages, whose names are told with its own. The first one is what is run."""

    def __init__(self, test: str, *languages: str) -> None:
        super().__init__(test)
        self.languages = languages

    @property
    def host(self) -> Host:
        return HOSTS[self.languages[0]]

    def __str__(self) -> str:
        return f"{', '.join(self.languages)}: {self._testMethodName}"


class Publishing(OfLanguages):
    """A language alone."""

    def test_publishes(self) -> None:
        self.assertEqual(published(self.languages[0]).count(b"\n"), 50)


class EachOther(OfLanguages):
    """A language, and another one or the same that published."""

    def test_audits_what_the_other_published(self) -> None:
        said = self.host.audits(published(self.languages[1]))
        self.assertEqual(said.status, 0, said)
        self.assertIn("ok 50 sha256:", said.printed)

    def test_refuses_what_was_forged(self) -> None:
        said = self.host.audits(forged(published(self.languages[1])))
        self.assertEqual(said.status, 1, said)
        self.assertIn("refused 7 SignatureError", said.all)


class Strangers(OfLanguages):
    """A language, on what it did not make."""

    def test_takes_nothing_for_no_yes(self) -> None:
        said = self.host.audits(b"")
        self.assertEqual(said.status, 1, said)
        self.assertNotIn("ok", said.printed)

    def test_takes_comments_alone_for_no_yes(self) -> None:
        said = self.host.audits(b"# a log\n\n")
        self.assertEqual(said.status, 1, said)
        self.assertNotIn("ok", said.printed)

    def test_reads_comments_returns_and_a_blank_last_line(self) -> None:
        said = self.host.audits(b"# a log\n" + GOOD.replace(b"\n", b"\r\n") + b"#\n\n")
        self.assertEqual(said.status, 0, said)
        self.assertIn("ok 4 sha256:", said.printed)

    def test_prints_a_strangers_text_on_one_line(self) -> None:
        said = self.host.audits(hostile())
        self.assertEqual((said.status, said.all.count("\n")), (1, 1), said)
        # An error that a program in Rust ends with is printed with each backslash twice.
        self.assertTrue(SHOWN in said.all or SHOWN in said.all.replace("\\\\", "\\"), said)

    def test_takes_no_folder_for_a_log(self) -> None:
        folder = os.open(ROOT, os.O_RDONLY)
        self.addCleanup(os.close, folder)
        done = self.host.run(self.host.audit, stdin=folder)
        self.assertNotEqual(done.returncode, 0)
        self.assertNotIn(b"ok", done.stdout)

    def test_says_that_no_one_can_read_its_answer(self) -> None:
        with open("/dev/full", "wb") as full:
            done = self.host.run(self.host.audit, input=GOOD, stdout=full)
        self.assertNotEqual(done.returncode, 0)
        self.assertNotEqual(done.stderr, b"")


class Signatures(OfLanguages):
    """Other programs say the same as the rows of P-256, and as the package's verifiers on random signatures, whose seed
    is WARG_P256_SEED where the environment has it."""

    def _passes(self, tool: str, *words: str) -> None:
        done = self.host.run([sys.executable, str(ROOT / "tools" / tool), *words], stderr=subprocess.STDOUT)
        said = done.stdout.decode(errors="replace")
        self.assertEqual(done.returncode, 0, said)
        print(f"   {said.splitlines()[-1]}", flush=True)

    def test_rows_by_other_programs(self) -> None:
        self._passes("make_p256_rows", "--check")

    def test_random_signatures(self) -> None:
        self._passes("compare_p256")


def load_tests(loader: unittest.TestLoader, _tests: unittest.TestSuite, _pattern: str | None) -> unittest.TestSuite:
    """The tests of the languages that are there."""
    suite = unittest.TestSuite()

    def add(case: type[OfLanguages], *languages: str) -> None:
        suite.addTests(case(test, *languages) for test in loader.getTestCaseNames(case))

    for publishing in HOSTS:
        add(Publishing, publishing)
        for auditing in HOSTS:
            add(EachOther, auditing, publishing)
    for auditing in HOSTS:
        add(Strangers, auditing)
    if "python" in HOSTS:
        add(Signatures, "python")
    return suite


if __name__ == "__main__":
    unittest.main()
