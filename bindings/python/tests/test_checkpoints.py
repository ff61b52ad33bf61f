"""What is signed of checkpoints and their JSON, by docs/FORMATS.md, and whether keys sign them that an operator log
lets sign. The package `cryptography` and the program `openssl` sign."""

import base64
import dataclasses
import json
import os
import pathlib
import shutil
import subprocess
import tempfile
import unittest
from collections.abc import Callable
from typing import Any

from weoldrin import (
    BadArgument,
    Checkpoint,
    Forked,
    LogKind,
    NotOpen,
    OperatorLog,
    SignedCheckpoint,
    UnknownAlgorithm,
    p256,
    records,
)

from . import published, toy
from .test_log_ids import NO_HASHES
from .test_values import LyingText, others

LOG_ROOT, MAP_ROOT = records.sha256_text(b"log"), records.sha256_text(b"map")
OTHER_ROOT = records.sha256_text(b"other")
# A time that 32 bits do not hold.
IT = Checkpoint(LOG_ROOT, 8, MAP_ROOT, 2**32 + 5)
# Those that differ from it in a field, or have two exchanged.
OTHERS = [
    dataclasses.replace(IT, log_root=OTHER_ROOT),
    dataclasses.replace(IT, log_length=9),
    dataclasses.replace(IT, log_length=8 + 2**32),
    dataclasses.replace(IT, map_root=OTHER_ROOT),
    dataclasses.replace(IT, timestamp=5),
    dataclasses.replace(IT, timestamp=2**32 + 6),
    Checkpoint(MAP_ROOT, 8, LOG_ROOT, 2**32 + 5),
    Checkpoint(LOG_ROOT, 2**32 + 5, MAP_ROOT, 8),
]
SCRIPT = pathlib.Path(__file__).resolve().parents[3] / "bin/weoldrin-sign"
# What can't be read as a signature.
UNREADABLE = ["", "ecdsa-p256", ":AAAA", "ecdsa-p256:!", "ecdsa-p256:AAA", "ecdsa-p256:AAAA\n", "é", "\ud800"]
JSON = f'{{"logRoot":"{LOG_ROOT}","logLength":8,"mapRoot":"{MAP_ROOT}","timestamp":4294967301}}'
SIGNED_JSON = f'{{"contents":{JSON},"keyId":"an id","signature":"a text"}}'


def leb128(number: int) -> bytes:
    """A number in the prefix encoding."""
    low = bytearray()
    while number >= 128:
        low.append(number % 128 + 128)
        number //= 128
    return bytes([*low, number])


def message_of(it: Checkpoint) -> bytes:
    """What is signed of a checkpoint, by definition."""
    roots = [bytes([71]) + root.encode() for root in (it.log_root, it.map_root)]
    content = b"WARG-TIMESTAMPED-CHECKPOINT-V0" + leb128(it.log_length) + roots[0] + roots[1] + leb128(it.timestamp)
    return b"WARG-CHECKPOINT-SIGNATURE-V0:" + content


class Messages(unittest.TestCase):
    """What is signed."""

    def test_bytes(self) -> None:
        numbers = [0, 1, 127, 128, 16383, 16384, 2**32 - 1, 2**32, 2**63, 2**64 - 1]
        for log_length in numbers:
            for timestamp in numbers:
                it = Checkpoint(LOG_ROOT, log_length, MAP_ROOT, timestamp)
                self.assertEqual(it.message(), message_of(it))
        upper = Checkpoint(f"sha256:{LOG_ROOT[7:].upper()}", 8, f"sha256:{MAP_ROOT[7:].upper()}", 2**32 + 5)
        self.assertEqual(upper.message(), message_of(IT))
        self.assertEqual(len({message_of(it) for it in [IT, *OTHERS]}), len(OTHERS) + 1)
        lying = dataclasses.replace(IT, log_root=LyingText(LOG_ROOT))
        self.assertEqual(lying.message(), message_of(IT))

    def test_frozen(self) -> None:
        with self.assertRaises(dataclasses.FrozenInstanceError):
            IT.timestamp = 5  # type: ignore[misc]
        self.assertEqual(len({IT, dataclasses.replace(IT), *OTHERS}), len(OTHERS) + 1)


def refuses(case: unittest.TestCase, call: Callable[[Checkpoint], object]) -> None:
    """A call refuses checkpoints that are of no form."""
    for wrong in NO_HASHES:
        for it in (dataclasses.replace(IT, log_root=wrong), dataclasses.replace(IT, map_root=wrong)):
            with case.assertRaises(BadArgument) as raised:
                call(it)
            case.assertEqual(raised.exception.name, "BadText", it)
    for number in (-1, 2**64, 2**64 + 8, 8 - 2**64):
        for it in (dataclasses.replace(IT, log_length=number), dataclasses.replace(IT, timestamp=number)):
            with case.assertRaises(BadArgument) as raised:
                call(it)
            case.assertEqual(raised.exception.name, "OutOfRange", it)
    changes: dict[str, Any]
    for value in others(1.5, 8.0, None, "8"):
        for changes in ({"log_length": value}, {"timestamp": value}):
            it = dataclasses.replace(IT, **changes)
            case.assertRaisesRegex(TypeError, "cannot be interpreted as an integer", call, it)
    for value in others(LOG_ROOT.encode(), None, 7):
        for changes in ({"log_root": value}, {"map_root": value}):
            it = dataclasses.replace(IT, **changes)
            case.assertRaisesRegex(TypeError, "a text is wanted, not", call, it)


class OfNoForm(unittest.TestCase):
    """Checkpoints of no form."""

    def test_message(self) -> None:
        refuses(self, Checkpoint.message)

    def test_verify(self) -> None:
        alice = p256.SigningKey.generate()
        signature = alice.sign(IT.message())
        log = published.operator_log(alice)
        refuses(self, lambda it: log.verify_checkpoint(it, records.key_id(alice.public_key), signature))
        refuses(self, lambda it: log.verify_checkpoint(it, "another", signature))


class Json(unittest.TestCase):
    """The JSON of checkpoints."""

    def test_members(self) -> None:
        self.assertEqual(IT.to_json(), JSON)
        self.assertEqual(Checkpoint.from_json(JSON), IT)
        signed = SignedCheckpoint(IT, "an id", "a text")
        self.assertEqual(signed.to_json(), SIGNED_JSON)
        self.assertEqual(SignedCheckpoint.from_json(SIGNED_JSON), signed)
        odd = SignedCheckpoint(Checkpoint("", 2**64 - 1, '"\\\n', 0), "\x1b", "é\u2028")
        self.assertEqual(SignedCheckpoint.from_json(odd.to_json()), odd)
        self.assertEqual(json.loads(odd.to_json())["contents"]["logLength"], 2**64 - 1)

    def test_others_are_passed_over(self) -> None:
        members = {"more": None, **json.loads(JSON)}
        self.assertEqual(Checkpoint.from_json(json.dumps(members, indent=2)), IT)
        self.assertEqual(Checkpoint.from_json(JSON.replace("{", '{"logLength":"x",')), IT)
        signed = json.dumps({"contents": members, "keyId": "an id", "signature": "a text", "logRoot": 7})
        self.assertEqual(SignedCheckpoint.from_json(signed), SignedCheckpoint.from_json(SIGNED_JSON))

    def _has_fault(self, name: str, text: str) -> None:
        for call, it in ((Checkpoint.from_json, text), (SignedCheckpoint.from_json, SIGNED_JSON.replace(JSON, text))):
            with self.assertRaises(BadArgument) as raised:
                call(it)
            self.assertEqual(raised.exception.name, name, it)
            self.assertTrue(raised.exception.sentence)

    def test_faults(self) -> None:
        for member in ("logRoot", "logLength", "mapRoot", "timestamp"):
            members = json.loads(JSON)
            del members[member]
            self._has_fault("Missing", json.dumps(members))
            for value in ("null", "[]", "{}", "true", "1.0", "1e2", "-0", "-1", str(2**64)):
                whole = json.dumps(members)
                self._has_fault("WrongType", f'{whole[:-1]}, "{member}": {value}}}')
        for value in ('"8"', '""'):
            self._has_fault("WrongType", JSON.replace(":8,", f":{value},"))
        self._has_fault("WrongType", JSON.replace(f'"{LOG_ROOT}"', "7"))
        for text in ("null", "[]", "7", '"text"', "true"):
            self._has_fault("WrongType", text)
        for text in ("", "{", JSON[:-1], f"{JSON},", JSON.replace(":8,", ":NaN,"), "[" * 100_000, "Infinity"):
            self._has_fault("NotJson", text)
        for member, text in (("keyId", "an id"), ("signature", "a text")):
            for other in ("null", "7", "[]"):
                self._signed_has_fault("WrongType", SIGNED_JSON.replace(f'"{text}"', other))
            self._signed_has_fault("Missing", SIGNED_JSON.replace(member, "more"))
        self._signed_has_fault("Missing", JSON)

    def _signed_has_fault(self, name: str, text: str) -> None:
        with self.assertRaises(BadArgument) as raised:
            SignedCheckpoint.from_json(text)
        self.assertEqual(raised.exception.name, name, text)


class Signed(unittest.TestCase):
    """Keys that an operator log lets sign, and others. Each answer is asked of the log and of one that was resumed."""

    def setUp(self) -> None:
        self.first, self.second, self.third = (p256.SigningKey.generate() for _ in range(3))
        self.defines, self.revoked, self.unknown = (p256.SigningKey.generate() for _ in range(3))
        self.log = OperatorLog()
        self._append(
            self.first,
            records.init(self.first.public_key),
            records.grant(LogKind.OPERATOR, self.second.public_key, "defineNamespace commit"),
            records.grant(LogKind.OPERATOR, self.third.public_key, "commit"),
            records.grant(LogKind.OPERATOR, self.defines.public_key, "defineNamespace importNamespace"),
            records.grant(LogKind.OPERATOR, self.revoked.public_key, "commit importNamespace"),
            records.grant(LogKind.OPERATOR, toy.key_of("alice"), "commit"),
            records.grant(LogKind.OPERATOR, toy.key_of("bob"), "importNamespace"),
        )
        self._append(self.third, records.revoke(LogKind.OPERATOR, records.key_id(self.revoked.public_key), "commit"))

    def _append(self, signer: published.Key, *entries: bytes) -> None:
        self.log.append(published.record(self.log, signer, list(entries)))

    def _asked(self, it: Checkpoint, key_id: str, signature: str) -> bool:
        answer = self.log.verify_checkpoint(it, key_id, signature)
        resumed = OperatorLog.from_json(self.log.to_json())
        self.assertIs(resumed.verify_checkpoint(it, key_id, signature), answer)
        return answer

    def _raises(self, error: type[Exception], name: str, it: Checkpoint, key_id: str, signature: str) -> None:
        for log in (self.log, OperatorLog.from_json(self.log.to_json())):
            with self.assertRaises(error) as raised:
                log.verify_checkpoint(it, key_id, signature)
            self.assertEqual(str(raised.exception).partition(": ")[0], name)

    def test_keys_that_may_sign(self) -> None:
        signers = [self.first, self.second, self.third]
        for signer in signers:
            key_id, signature = records.key_id(signer.public_key), signer.sign(message_of(IT))
            self.assertTrue(self.log.holds(key_id, "commit"))
            self.assertIs(self._asked(IT, key_id, signature), True)
            self.assertTrue(self._asked(IT, LyingText(key_id), LyingText(signature)))
            for it in OTHERS:
                self.assertIs(self._asked(it, key_id, signature), False)
                self.assertFalse(self._asked(IT, key_id, signer.sign(message_of(it))))
                self.assertTrue(self._asked(it, key_id, signer.sign(message_of(it))))
            for other in signers:
                self.assertIs(self._asked(IT, key_id, other.sign(message_of(IT))), other is signer)

    def test_keys_that_may_not_sign(self) -> None:
        """Then the signature is not looked at, nor its text read."""
        for signer in (self.defines, self.revoked, self.unknown):
            key_id = records.key_id(signer.public_key)
            for signature in (signer.sign(message_of(IT)), *UNREADABLE):
                self.assertIs(self._asked(IT, key_id, signature), False)
        signature = self.first.sign(message_of(IT))
        key_id = records.key_id(self.first.public_key)
        for other in ("", "sha256:00", "é", key_id[:-1], key_id.upper(), self.first.public_key):
            self.assertFalse(self._asked(IT, other, signature))
        self.assertFalse(OperatorLog().verify_checkpoint(IT, key_id, signature))

    def test_ids_that_are_no_text(self) -> None:
        for key_id in ("\ud800", "sha256:\udfff"):
            self._raises(BadArgument, "BadText", IT, key_id, self.first.sign(message_of(IT)))

    def test_signatures_of_other_texts(self) -> None:
        key_id, signature = records.key_id(self.first.public_key), self.first.sign(message_of(IT))
        message = message_of(IT)
        for other in (b"", message[:-1], message + b"\0", message.partition(b":")[2]):
            self.assertFalse(self._asked(IT, key_id, self.first.sign(other)))
        start, digit, end = signature[:-8], signature[-8], signature[-7:]
        forged = f"{start}{'B' if digit == 'A' else 'A'}{end}"
        longer = p256.text_of(base64.b64decode(signature.partition(":")[2]) + b"\0")
        for text in (forged, longer, "ecdsa-p256:", "ecdsa-p256:AA==", "ecdsa-p384:AAAA", toy.key_of("alice")):
            self.assertFalse(self._asked(IT, key_id, text), text)
        for text in UNREADABLE:
            self._raises(BadArgument, "BadText", IT, key_id, text)

    def test_keys_of_other_algorithms(self) -> None:
        by_alice = toy.sign("alice", message_of(IT))
        for signature in (by_alice, *UNREADABLE):
            self._raises(UnknownAlgorithm, "UnknownAlgorithm", IT, records.key_id(toy.key_of("alice")), signature)
            self.assertFalse(self._asked(IT, records.key_id(toy.key_of("bob")), signature))

    def test_who_may_sign_changes(self) -> None:
        second, defines = (records.key_id(it.public_key) for it in (self.second, self.defines))
        signatures = self.second.sign(message_of(IT)), self.defines.sign(message_of(IT))
        before = self.log.head(), self.log.to_json()
        self.assertTrue(self._asked(IT, second, signatures[0]))
        self.assertFalse(self._asked(IT, defines, signatures[1]))
        self.assertEqual((self.log.head(), self.log.to_json()), before)
        revoked = records.revoke(LogKind.OPERATOR, second, "commit")
        self._append(self.first, revoked, records.grant(LogKind.OPERATOR, self.defines.public_key, "commit"))
        self.assertFalse(self._asked(IT, second, signatures[0]))
        self.assertTrue(self._asked(IT, defines, signatures[1]))

    def test_other_types(self) -> None:
        key_id, signature = records.key_id(self.first.public_key), self.first.sign(message_of(IT))
        for wrong in others(None, 7, b"text"):
            self.assertRaisesRegex(TypeError, "a text is wanted, not", self.log.verify_checkpoint, IT, wrong, signature)
            self.assertRaisesRegex(TypeError, "a text is wanted, not", self.log.verify_checkpoint, IT, key_id, wrong)

    def test_closed(self) -> None:
        self.log.close()
        for it in (IT, dataclasses.replace(IT, log_root="")):
            self.assertRaises(NotOpen, self.log.verify_checkpoint, it, "", "")

    def test_forked(self) -> None:
        # Another process has another number.
        self.log._process += 1
        self.assertRaises(Forked, self.log.verify_checkpoint, IT, "", "")
        self.log._process -= 1

    @unittest.skipUnless(shutil.which("openssl"), "the program openssl is not installed")
    def test_by_openssl(self) -> None:
        """The program `openssl` makes a key and signs."""
        with tempfile.TemporaryDirectory() as folder:
            pem = pathlib.Path(folder) / "key.pem"
            pem.write_bytes(_openssl("genpkey", "-algorithm", "EC", "-pkeyopt", "ec_paramgen_curve:P-256"))
            words = "-pubout", "-outform", "DER", "-ec_conv_form", "compressed"
            key = p256.text_of(_openssl("pkey", "-in", str(pem), *words)[-33:])
            signature = p256.text_of(_openssl("dgst", "-sha256", "-sign", str(pem), given=message_of(IT)))
        self._append(self.first, records.grant(LogKind.OPERATOR, key, "commit"))
        self.assertTrue(self._asked(IT, records.key_id(key), signature))
        for it in OTHERS:
            self.assertFalse(self._asked(it, records.key_id(key), signature))

    @unittest.skipUnless(SCRIPT.is_file() and os.access(SCRIPT, os.X_OK), "there is no bin/weoldrin-sign here")
    def test_by_the_script(self) -> None:
        """`bin/weoldrin-sign` makes a key and signs, and prints what is read here."""

        def said(*words: object) -> str:
            return subprocess.run([str(SCRIPT), *map(str, words)], capture_output=True, text=True, check=True).stdout

        with tempfile.TemporaryDirectory() as folder:
            pem, body = pathlib.Path(folder) / "key.pem", pathlib.Path(folder) / "checkpoint.json"
            body.write_text(json.dumps({"logLength": 8, "logRoot": LOG_ROOT, "mapRoot": MAP_ROOT}), encoding="ascii")
            said("new", pem)
            key, printed = said("key", pem).strip(), said("checkpoint", pem, body, IT.timestamp)
        signed = SignedCheckpoint.from_json(printed)
        self.assertEqual((signed.contents, signed.key_id), (IT, records.key_id(key)))
        self.assertEqual(printed, f"{signed.to_json()}\n")
        self._append(self.first, records.grant(LogKind.OPERATOR, key, "commit"))
        self.assertTrue(self._asked(IT, signed.key_id, signed.signature))
        for it in OTHERS:
            self.assertFalse(self._asked(it, signed.key_id, signed.signature))


def _openssl(*words: str, given: bytes = b"") -> bytes:
    return subprocess.run(["openssl", *words], input=given, capture_output=True, check=True).stdout


if __name__ == "__main__":
    unittest.main()
