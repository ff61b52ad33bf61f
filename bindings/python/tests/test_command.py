"""python3 -m weoldrin, and audits of many logs."""

import os
import pathlib
import shlex
import subprocess
import sys
import tempfile
import unittest

from weoldrin import (
    LogKind,
    PackageLog,
    Refused,
    RunError,
    Verdict,
    audit,
    audit_many,
    audit_new,
    p256,
    processes,
    records,
)

from . import published, toy

EXAMPLES = pathlib.Path(__file__).resolve().parents[3] / "examples"


def run(*words: str) -> tuple[int, list[str]]:
    """The status and the lines of a command."""
    done = subprocess.run([sys.executable, "-m", "weoldrin", *words], capture_output=True, text=True, check=False)
    return done.returncode, done.stdout.splitlines()


class Command(unittest.TestCase):
    """Logs in files."""

    def setUp(self) -> None:
        folder = tempfile.TemporaryDirectory()
        self.addCleanup(folder.cleanup)
        self.folder = pathlib.Path(folder.name)
        self.envelopes = published.envelopes(5, p256.SigningKey.generate(), p256.SigningKey.generate())

    def _log(self, name: str, lines: list[str]) -> str:
        path = self.folder / name
        path.write_text("".join(f"{it}\n" for it in lines), encoding="ascii")
        return str(path)

    def _good(self, name: str = "good") -> str:
        return self._log(name, [it.hex() for it in self.envelopes])

    def test_verdicts(self) -> None:
        forged = bytearray(self.envelopes[3])
        forged[-8] ^= 1
        good = self._good()
        bad = self._log("bad", [it.hex() for it in [*self.envelopes[:3], bytes(forged)]])
        empty = self._log("empty", [])
        status, lines = run("audit", "package", good, empty)
        self.assertEqual((status, lines[1]), (1, f"{empty}: empty"))
        self.assertRegex(lines[0], r"good: ok 5 sha256:[0-9a-f]{64}$")
        self.assertEqual(run("audit", "package", empty), (1, [f"{empty}: empty"]))
        self.assertEqual(run("audit", "package", good, empty, "--allow-empty"), (0, [lines[0], f"{empty}: ok 0 none"]))
        status, lines = run("audit", "package", bad, good)
        self.assertEqual((status, len(lines)), (1, 2))
        self.assertRegex(lines[0], r"bad: refused 3 (SignatureError|Signature\.BadBase64): ")
        other = self._log("other", [toy.envelope("carol").hex()])
        status, lines = run("audit", "package", other, good)
        self.assertEqual((status, len(lines)), (1, 2))
        self.assertRegex(lines[0], r"other: refused 0 UnknownAlgorithm: the library verifies ")

    def test_unreadable(self) -> None:
        missing, folder = str(self.folder / "missing"), str(self.folder)
        odd, blank = self._log("odd", ["00", "0"]), self._log("spaces", ["0a 02"])
        status, lines = run("audit", "operator", missing, folder, odd, blank)
        self.assertEqual(status, 2)
        self.assertEqual(lines[2:], [f"{odd}: bad line 1", f"{blank}: bad line 0"])
        self.assertTrue(lines[0].startswith(missing) and lines[1].startswith(folder))

    def test_causes(self) -> None:
        """What is no publisher's fault is told: a log of the other kind, a blank line, and a byte order mark."""
        good = [it.hex() for it in self.envelopes]
        theirs = [it.envelope.hex() for it in published.operator_log(p256.SigningKey.generate()).records()]
        logs = {
            "package": (good, "operator", "it is a record of a package's log: is the kind right?"),
            "operator": (theirs, "package", "it is a record of an operator log: is the kind right?"),
            "blank": ([*good[:2], "", *good[2:]], "package", "the line is blank: only the last line of a file may be"),
        }
        for name, (lines, kind, cause) in logs.items():
            path = self._log(name, lines)
            for found in (audit(path, kind), audit_new(path, kind)):
                self.assertTrue(str(found).endswith(f"; {cause}"), str(found))
                self.assertEqual(str(found).count("\n"), 0)
        path = self._good("mark")
        pathlib.Path(path).write_bytes(b"\xef\xbb\xbf" + pathlib.Path(path).read_bytes())
        for found in (audit(path, "package"), audit_new(path, "package")):
            self.assertEqual(str(found), f"{path}: bad line 0: the file begins with a byte order mark")
        # A forged record is none of these.
        self.assertNotIn(";", str(audit(self._log("forged", [good[0][:-8] + "41" + good[0][-6:]]), "package")))

    def test_hostile_texts(self) -> None:
        """Each log has one line, whatever stands in its path and in its records."""
        good = self._good("good\n\x1b[2J\u202e\x9b\udcff")
        with PackageLog() as log:
            contents = records.contents(None, 5, [records.init("toy:YQ==")])
            log.append(records.signed(log.KIND, contents, "toy:YQ==", lambda _: "toy:YQ=="), lambda _: True)
            entries = [records.release("1.0.0", records.sha256_text(b""))]
            stranger = "x\x1b[1A\r/srv/other: ok 9 sha256:00\nof\u2028\u2066\\\x85"
            forged = records.envelope(records.contents(log.head(), 5, entries), stranger, "toy:YQ==")
            with self.assertRaises(Refused) as caught:
                log.append(forged)
        self.assertIn(stranger, caught.exception.sentence)
        shown = "x\\u{1b}[1A\\u{d}/srv/other: ok 9 sha256:00\\u{a}of\\u{2028}\\u{2066}\\\\\\u{85}"
        self.assertIn(shown, str(caught.exception))
        first = records.signed(LogKind.PACKAGE, contents, "toy:YQ==", lambda _: "toy:YQ==")
        hostile = self._log("hostile", [first.hex(), forged.hex()])
        verdict = audit(hostile, LogKind.PACKAGE, lambda _: True)
        assert verdict.error is not None
        self.assertIn(stranger, verdict.error.sentence)
        self.assertIn(shown, str(verdict))
        self.assertNotIn("\n", str(verdict))
        begun = self._log("begun", [forged.hex()])
        status, lines = run("audit", "package", good, begun)
        self.assertEqual((status, len(lines)), (1, 2))
        shown = "good\\u{a}\\u{1b}[2J\\u{202e}\\u{9b}\\u{dcff}"
        self.assertTrue(lines[0].startswith(f"{self.folder}/{shown}: ok 5 "))
        self.assertEqual(run("audit", "package", f"{good}\n: ok 1 x", "b\n")[0], 2)

    def test_encodings(self) -> None:
        """A letter that the output's encoding does not have is written by its number."""
        path = self._good("größe")
        command = [sys.executable, "-m", "weoldrin", "audit", "package", path]
        environment = {**os.environ, "PYTHONIOENCODING": "ascii"}
        done = subprocess.run(command, capture_output=True, text=True, check=False, env=environment)
        self.assertEqual((done.returncode, done.stderr), (0, ""))
        self.assertIn("/gr\\xf6\\xdfe: ok 5 ", done.stdout)

    def test_output(self) -> None:
        """A reader that has gone is no error, and a full disk is one."""
        paths = [self._good(f"log{place}") for place in range(200)]
        command = " ".join(map(shlex.quote, [sys.executable, "-m", "weoldrin", "audit", "package", *paths]))
        for output, wanted in (
            ("| head -1 >&2", (0, r"log0: ok 5 [^\n]*\n")),
            ("| true", (0, "")),
            ("> /dev/full", (3, "weoldrin: standard output could not be written: No space left on device\n")),
            (">&-", (3, "weoldrin: standard output could not be written: Bad file descriptor\n")),
        ):
            done = subprocess.run(
                ["bash", "-o", "pipefail", "-c", f"{command} {output}"], capture_output=True, text=True, check=False
            )
            self.assertEqual(done.returncode, wanted[0], done.stderr)
            self.assertRegex(done.stderr.removeprefix(f"{self.folder}/"), f"^{wanted[1]}$")

    def test_hostile_words(self) -> None:
        """What is said of words has no control character of theirs, as a file's name may look like an option."""
        hostile = "--\x1b[2J\nx"
        for words in (
            ["audit", "package", "x", hostile],
            [hostile[2:]],
            ["audit", hostile[2:], "x"],
            ["audit", "--\x9b"],
        ):
            command = [sys.executable, "-m", "weoldrin", *words]
            done = subprocess.run(command, capture_output=True, text=True, check=False)
            self.assertEqual((done.returncode, done.stdout), (2, ""))
            self.assertFalse(any(it in done.stderr for it in ("\x1b", "\x9b", "\nx")), done.stderr)

    def test_words(self) -> None:
        self.assertEqual(run("--version")[0], 0)
        self.assertEqual(run("--help")[0], 0)
        self.assertEqual(run("audit", "pack")[0], 2)
        # An option is given once, and by its whole name.
        good = self._good()
        self.assertEqual(run("audit", "package", good, "--workers", "1")[0], 0)
        self.assertEqual(run("audit", "package", good, "--work", "1"), (2, []))
        self.assertEqual(run("audit", "package", good, "--workers", "1", "--workers", "1"), (2, []))
        self.assertEqual(run()[0], 2)

    def test_many(self) -> None:
        paths = [self._good(f"log{place}") for place in range(20)]
        wanted = [f"{path}: ok 5" for path in paths]
        with processes(2) as executor:
            by_processes = audit_many(paths, LogKind.PACKAGE, p256.verify, executor=executor)
        by_cryptography = audit_many(paths, LogKind.PACKAGE, p256.verify_by_cryptography, 4)
        for verdicts in (audit_many(paths, LogKind.PACKAGE), by_cryptography, by_processes):
            self.assertEqual([str(it).rpartition(" ")[0] for it in verdicts], wanted)
        self.assertEqual(audit_many([], LogKind.PACKAGE), [])

    @unittest.skipUnless(EXAMPLES.is_dir(), "there are no examples here")
    def test_examples(self) -> None:
        """The program's examples have the program's answers."""
        for path in sorted(EXAMPLES.glob("[po]*.hex")):
            kind = LogKind[path.name.partition("_")[0].upper()]
            wanted = path.with_suffix(".out").read_text(encoding="ascii").split("\n")[0]
            verdict = audit(path, kind, toy.verify, allow_empty=True)
            if wanted.startswith("bad line"):
                self.assertFalse(verdict.accepted, path.name)
                self.assertIsNotNone(verdict.fault, path.name)
            else:
                self.assertEqual(_printed(verdict), wanted, path.name)


def _printed(verdict: Verdict) -> str:
    """The first line that warg_audit prints."""
    match verdict.error:
        case RunError(place, name, _):
            return f"refused {place} {name}"
    return f"ok {verdict.records} {verdict.head or 'none'}"


if __name__ == "__main__":
    unittest.main()
