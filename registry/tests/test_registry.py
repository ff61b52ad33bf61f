"""A registry in this process, and its settings."""

import pathlib
import tempfile
import time
import unittest
from unittest import mock

from weoldrin import LogKind, p256, records
from weoldrin_registry.checkpoints import Checkpoints
from weoldrin_registry.publishing import log_name
from weoldrin_registry.registry import Registry
from weoldrin_registry.settings import BadSettings, Settings, from_file
from weoldrin_registry.signing import new_key, signer_in

from .served import operator_record


class Faults(unittest.TestCase):
    """What nobody foresaw."""

    def setUp(self) -> None:
        folder = tempfile.TemporaryDirectory()
        self.addCleanup(folder.cleanup)
        self.folder = pathlib.Path(folder.name)

    def test_a_checkpoint_that_fails(self) -> None:
        path = self.folder / "key.pem"
        new_key(path)
        key = p256.SigningKey.from_pem(path.read_bytes())
        settings = Settings(database=str(self.folder / "logs.sqlite"), key=str(path), checkpoint_seconds=0.01)
        registry = Registry(settings)
        self.addCleanup(registry.stop)
        make, first = Checkpoints.make, operator_record(None, key, records.init(key.public_key))
        failing = mock.patch.object(Checkpoints, "make", side_effect=RuntimeError("unforeseen"))
        with failing, mock.patch("weoldrin_registry.registry.tell_error") as told:
            # The record stands, and is acknowledged.
            new, newest = registry.publish(log_name(LogKind.OPERATOR), first)
            self.assertEqual((new.leaf, newest), (0, None))
            registry.start()
            time.sleep(0.2)
            self.assertGreater(told.call_count, 2)
        self.assertIs(Checkpoints.make, make)
        until = time.monotonic() + 20
        while registry.checkpoints.current() is None:
            self.assertLess(time.monotonic(), until)
            time.sleep(0.01)

    def test_keys(self) -> None:
        path = self.folder / "key.pem"
        new_key(path)
        self.assertEqual(path.stat().st_mode & 0o777, 0o600)
        self.assertTrue(signer_in(path).key_id.startswith("sha256:"))
        self.assertRaises(BadSettings, new_key, path)
        self.assertRaises(BadSettings, signer_in, self.folder / "none.pem")
        path.write_bytes(b"no key")
        self.assertRaises(BadSettings, signer_in, path)

    def test_settings(self) -> None:
        path = self.folder / "settings.toml"
        path.write_text('port = 7\nbody_seconds = 3\nhost = "x"\n', encoding="utf-8")
        self.assertEqual(from_file(path, port=8, key=None), Settings(port=8, body_seconds=3.0, host="x"))
        self.assertEqual(from_file(None), Settings())
        path.write_text("kept_checkpoints = 16", encoding="utf-8")
        self.assertEqual(from_file(path).kept_checkpoints, 16)
        for wrong in ("x", "none = 1", 'port = "7"', "port = 1.5", "threads = 0", "body_bytes = -1", "port = true",
                      "kept_checkpoints = 0", "kept_checkpoints = 17"):
            path.write_text(wrong, encoding="utf-8")
            self.assertRaises(BadSettings, from_file, path)
        self.assertRaises(BadSettings, from_file, self.folder / "none.toml")


if __name__ == "__main__":
    unittest.main()
