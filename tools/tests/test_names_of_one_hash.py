"""Names that the hash maps take for one another, through each map that a stranger fills. The answers are to be those of
any names; what they cost is measured by tools/bench/worst_inputs."""

import base64
import json
import os
import pathlib
import subprocess
import sys
import tempfile
import unittest

TOOLS = pathlib.Path(__file__).resolve().parents[1]
sys.path.insert(0, str(TOOLS))

from log_parts import (
    bytes_field,
    contents,
    define,
    envelope,
    hash_text,
    init,
    key_text,
    release,
    sha256,
    text_field,
    yank,
)
from search.one_hash import crowding_here, crowding_names, ends_in_zeros, names, quick_hash, sip_hash, thirty_two_bytes

WEOLDRIN = TOOLS.parent / "dist/x86_64-linux/weoldrin"
COUNT = 2000

# Names of one quick hash, and names that are in one part of the second buckets too.
HOSTILE = {"one hash": names(COUNT), "crowding": list(crowding_names(COUNT))}


def versions(found: list[str]) -> list[str]:
    return [f"1.0.0-{it}" for it in found]


def log(kind: str, *records: list[bytes]) -> str:
    """A log whose records alice signs."""
    before, lines = None, []
    for place, entries in enumerate(records):
        content = contents(before, place, entries, 1 if kind == "operator" else 0)
        before = hash_text(f"WARG-{kind.upper()}-LOG-RECORD-V0:".encode() + content)
        lines.append(envelope("alice", content, kind.upper()).hex() + "\n")
    return "".join(lines)


class AskedWithFiles(unittest.TestCase):
    """Asks the tool about files of texts."""

    def run_on(self, words: str, *texts: str) -> subprocess.CompletedProcess[str]:
        with tempfile.TemporaryDirectory() as room:
            files = [pathlib.Path(room) / f"file{place}" for place in range(len(texts))]
            for file, text in zip(files, texts, strict=True):
                file.write_text(text)
            command = [str(WEOLDRIN), *words.format(*files).split()]
            return subprocess.run(command, capture_output=True, text=True, check=False)

    def asked(self, words: str, *texts: str) -> str:
        done = self.run_on(words, *texts)
        self.assertEqual((done.stderr, done.returncode), ("", 0), words)
        return done.stdout

    def resumed(self, kind: str, state: str) -> str:
        return self.asked(f"resume --toy {kind} {{0}} {os.devnull}", state)


class Hashes(unittest.TestCase):
    """That the names are what they are said to be."""

    def test_they_have_one_quick_hash(self) -> None:
        for found in HOSTILE.values():
            self.assertEqual(len({quick_hash(it.encode()) for it in found}), 1)
            self.assertEqual(len(set(found)), COUNT)
        self.assertEqual(len({quick_hash(thirty_two_bytes(it), state) for it in range(COUNT) for state in (1, 2)}), 1)
        self.assertNotEqual(quick_hash(b"a" * 32), quick_hash(b"b" * 32))

    def test_some_are_in_one_part_by_the_other_hash(self) -> None:
        self.assertEqual(crowding_here(20, ends_in_zeros), HOSTILE["crowding"][:20])
        parts = {sip_hash(it.encode() + b"\xff") % 64 for it in HOSTILE["crowding"]}
        self.assertEqual(parts, {0})

    def test_the_other_hash_is_siphash(self) -> None:
        said = subprocess.run(
            [sys.executable, "-c", "import sys; print(sys.hash_info.algorithm, hash(b'any bytes') % 2**64)"],
            env=os.environ | {"PYTHONHASHSEED": "0"}, capture_output=True, text=True, check=True,
        )
        if not said.stdout.startswith("siphash13 "):
            self.skipTest("this interpreter hashes otherwise")
        self.assertEqual(int(said.stdout.split()[1]), sip_hash(b"any bytes"))


class Maps(AskedWithFiles):
    """Each map, filled with such names."""

    def test_namespaces(self) -> None:
        for case, found in HOSTILE.items():
            state = self.asked("state --toy operator {0}", log("operator", [init("alice"), *map(define, found)]))
            self.assertEqual(list(json.loads(state)["namespaces"]), sorted(found), case)
            self.assertEqual(self.resumed("operator", state), state, case)

    def test_releases_and_what_yanks_them(self) -> None:
        for case, found in HOSTILE.items():
            released = versions(found)
            given = log("package", [init("alice"), *map(release, released)], [yank(it) for it in released[1:]])
            state = self.asked("state --toy package {0}", given)
            told = json.loads(state)["releases"]
            self.assertEqual(list(told), sorted(released), case)
            standing = [it for it in released if told[it]["state"]["status"] == "released"]
            self.assertEqual(standing, released[:1], case)
            self.assertEqual(self.resumed("package", state), state, case)
            self.assertIn(released[0], self.asked("latest --toy =" + released[0] + " {0}", given), case)

    def test_digests_of_contents(self) -> None:
        digests = ["sha256:" + thirty_two_bytes(it).hex() for it in range(COUNT)]
        entries = [
            bytes_field(4, text_field(1, f"{place}.0.0") + text_field(2, it)) for place, it in enumerate(digests)
        ]
        state = json.loads(self.asked("state --toy package {0}", log("package", [init("alice"), *entries])))
        for place, it in enumerate(digests):
            self.assertEqual(state["releases"][f"{place}.0.0"]["state"]["content"], it)

    def test_ids_of_keys(self) -> None:
        ids = list(dict.fromkeys(names(COUNT // 2) + HOSTILE["crowding"]))
        revokes = [bytes_field(3, text_field(1, it)) for it in ids]
        given = log("package", [init("alice"), *revokes])
        self.assertTrue(self.asked("audit --toy package {0}", given).startswith("ok 1"))

    def test_ids_in_a_saved_state(self) -> None:
        # An id that is not its key's is refused, after both maps were read.
        said = json.loads(self.asked("state --toy package {0}", log("package", [init("alice")])))
        said["keys"] |= {it: key_text(it) for it in HOSTILE["crowding"]}
        said["permissions"] |= {it: ["release"] for it in HOSTILE["crowding"]}
        done = self.run_on("resume --toy package {0} " + os.devnull, json.dumps(said))
        self.assertEqual((done.stdout, done.returncode), ("bad state Value.Incoherent.KeyUnderOtherFingerprint\n", 2))

    def test_claims(self) -> None:
        given = log("package", [init("alice")])
        needed = self.asked("claims package {0}", given)
        key = key_text("alice")
        signature = "toy:" + base64.b64encode(sha256(b"one for all")).decode()
        others = "".join(f"{key} {thirty_two_bytes(it).hex()} {signature}\n" for it in range(COUNT))
        self.assertTrue(self.asked("audit --verified {0} package {1}", others + needed, given).startswith("ok 1"))
        self.assertEqual(self.run_on("audit --verified {0} package {1}", others, given).returncode, 1)


if __name__ == "__main__":
    unittest.main()
