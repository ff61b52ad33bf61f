"""Proofs of a registry's log of 8 leaves and of its map of two logs, worked out elsewhere, and each forged."""

import base64
import unittest
from collections.abc import Callable

from weoldrin import BadArgument, verify_absence, verify_consistency, verify_inclusion, verify_presence

from .trees import EMPTY, Leaf, hash_text, id_of, log_root

INCLUSION = (
    "bML0VncumO1gymhI9p9DawMcQnVTNa2WUrNw14Aq7DELD7yQO/3GX1TnDyNdlyNl+BI5/0o0nLbP5Kt1TH2/cg371IIl6nKYXW5cNRhz0vRw"
    "+5C8x4IjFkOBx8eooRUN"
)
CONSISTENCY = (
    "wvE5Wb/Jqop3nsQ6f2wHydAFG6uJNOVcji8dnUA6//YLD7yQO/3GX1TnDyNdlyNl+BI5/0o0nLbP5Kt1TH2/cg371IIl6nKYXW5cNRhz0vRw"
    "+5C8x4IjFkOBx8eooRUN"
)
PRESENCE = "//////////////////////////////////////////3A8d/zksmUM6URQFUFx4j90WyBlQhgSMcs1XArvTUtmA=="
ABSENCE = (
    "//////////////////////////////////////////kD9Qnw3FPJsRDX8sHizDLkLf83af8CgoV9sRxfkXpx08Dx3/OSyZQzpRFAVQXHiP3R"
    "bIGVCGBIxyzVcCu9NS2Y"
)


def root_of(count: int) -> str:
    """The root's text of the log of the first leaves."""
    leaves = [Leaf(id_of(f"log {place % 3}"), id_of(f"record {place}")) for place in range(count)]
    return hash_text(log_root([it.of_log() for it in leaves]))


MAP_ROOT = "sha256:6b3b29793c461452ef689fdfac26511b3862f7b70a4f576163ca60308bad21e6"


def _changed(proof: str) -> str:
    data = bytearray(base64.b64decode(proof))
    data[-1] ^= 1
    return base64.b64encode(data).decode()


class Proofs(unittest.TestCase):
    """Each call, on what holds, on what does not, and on texts that are of no form."""

    def test_inclusion(self) -> None:
        log, record, root = id_of("log 2"), id_of("record 5"), root_of(8)
        self.assertTrue(verify_inclusion(log, record, 5, 8, root, INCLUSION))
        self.assertFalse(verify_inclusion(log, record, 4, 8, root, INCLUSION))
        self.assertFalse(verify_inclusion(log, record, 8, 8, root, INCLUSION))
        self.assertFalse(verify_inclusion(log, record, 2**64 - 1, 2**64 - 1, root, INCLUSION))
        self.assertFalse(verify_inclusion(log, id_of("record 6"), 5, 8, root, INCLUSION))
        self.assertFalse(verify_inclusion(id_of("log 1"), record, 5, 8, root, INCLUSION))
        self.assertFalse(verify_inclusion(log, record, 5, 8, root_of(7), INCLUSION))
        self.assertFalse(verify_inclusion(log, record, 5, 8, root, _changed(INCLUSION)))
        self.assertFalse(verify_inclusion(log, record, 5, 8, root, ""))
        self._refuses_texts(lambda it: verify_inclusion(it, record, 5, 8, root, INCLUSION))
        self._refuses_texts(lambda it: verify_inclusion(log, it, 5, 8, root, INCLUSION))
        self._refuses_texts(lambda it: verify_inclusion(log, record, 5, 8, it, INCLUSION))
        self._refuses_texts(lambda it: verify_inclusion(log, record, 5, 8, root, it), "BadBase64")

    def test_a_length_is_taken_on_trust(self) -> None:
        """The proof has the same form in a log of 7: a root is worth nothing without the length that is signed with
        it."""
        for length, holds in ((6, False), (7, True), (8, True), (9, False)):
            seen = verify_inclusion(id_of("log 2"), id_of("record 5"), 5, length, root_of(8), INCLUSION)
            self.assertEqual(seen, holds)

    def test_consistency(self) -> None:
        self.assertTrue(verify_consistency(6, root_of(6), 8, root_of(8), CONSISTENCY))
        self.assertTrue(verify_consistency(8, root_of(8), 8, root_of(8), ""))
        self.assertFalse(verify_consistency(5, root_of(5), 8, root_of(8), CONSISTENCY))
        self.assertFalse(verify_consistency(8, root_of(8), 6, root_of(6), CONSISTENCY))
        self.assertFalse(verify_consistency(6, root_of(6), 8, root_of(8), _changed(CONSISTENCY)))
        self._refuses_texts(lambda it: verify_consistency(6, it, 8, root_of(8), CONSISTENCY))
        self._refuses_texts(lambda it: verify_consistency(6, root_of(6), 8, root_of(8), it), "BadBase64")

    def test_map(self) -> None:
        self.assertTrue(verify_presence(id_of("log 0"), id_of("record 6"), MAP_ROOT, PRESENCE))
        self.assertFalse(verify_presence(id_of("log 0"), id_of("record 3"), MAP_ROOT, PRESENCE))
        self.assertFalse(verify_presence(id_of("log 1"), id_of("record 6"), MAP_ROOT, PRESENCE))
        self.assertFalse(verify_presence(id_of("log 0"), id_of("record 6"), MAP_ROOT, _changed(PRESENCE)))
        self.assertTrue(verify_absence(id_of("log 2"), MAP_ROOT, ABSENCE))
        self.assertFalse(verify_absence(id_of("log 0"), MAP_ROOT, PRESENCE))
        self.assertFalse(verify_absence(id_of("log 2"), root_of(8), ABSENCE))
        self.assertFalse(verify_absence(id_of("log 2"), MAP_ROOT, _changed(ABSENCE)))
        self._refuses_texts(lambda it: verify_presence(id_of("log 0"), id_of("record 6"), MAP_ROOT, it), "BadBase64")
        self._refuses_texts(lambda it: verify_absence(id_of("log 2"), it, ABSENCE))

    def test_numbers_beyond_the_calls(self) -> None:
        log_id, record_id, root = id_of("log 2"), id_of("record 5"), root_of(8)
        self.assertTrue(verify_inclusion(log_id, record_id, 5, 8, root, INCLUSION))
        for place, length in ((5 + 2**64, 8), (5, 8 + 2**64), (5, 8 - 2**64), (5 - 2**64, 8)):
            self.assertRaises(BadArgument, verify_inclusion, log_id, record_id, place, length, root, INCLUSION)
        self.assertTrue(verify_consistency(6, root_of(6), 8, root, CONSISTENCY))
        for old, new in ((6 + 2**64, 8), (6, 8 + 2**64), (-1, 8)):
            self.assertRaises(BadArgument, verify_consistency, old, root_of(6), new, root, CONSISTENCY)

    def test_faults_of_texts(self) -> None:
        """The longest text of a proof on a log has 2732 digits, on a map 10968."""
        shown = verify_inclusion, id_of("log 2"), id_of("record 5"), 5, 8, root_of(8)
        absent = verify_absence, id_of("log 2"), MAP_ROOT
        self._has_fault("TooLong", *shown, "A" * 2733)
        self._has_fault("BadBase64", *shown, "A" * 2730)
        self._has_fault("BadBase64", *shown, "AA=")
        self._has_fault("BadBase64", *shown, "é")
        self._has_fault("BadLength", *shown, "AA==")
        self._has_fault("BadLength", *shown, "A" * 2732)
        self._has_fault("TooLong", *absent, "A" * 10969)
        self._has_fault("BadBase64", *absent, "A" * 10966)
        self._has_fault("BadLength", *absent, "")
        self._has_fault("BadLength", *absent, "A" * 10968)
        # All siblings are left out but that of the leaf, which is the root of an empty subtree too.
        bits = bytes([0x7F, *[0xFF] * 31])
        self._has_fault("EmptySibling", *absent, base64.b64encode(bits + EMPTY[0]).decode())
        # No proof's fault is named where another text is not of its form.
        self._has_fault("BadText", verify_absence, "log 2", MAP_ROOT, ABSENCE)

    def _has_fault(self, name: str, call: Callable[..., bool], *words: str | int) -> None:
        with self.assertRaises(BadArgument) as raised:
            call(*words)
        self.assertEqual(raised.exception.name, name)

    def _refuses_texts(self, call: Callable[[str], bool], name: str = "BadText") -> None:
        for wrong in ("sha256", "sha256:00", "!", "A"):
            self._has_fault(name, call, wrong)


if __name__ == "__main__":
    unittest.main()
