"""The rows of conformance/ on ids of logs, leaves and checkpoints with their time, whose answers are by other
programs."""

import json
import pathlib
import unittest
from collections import Counter
from collections.abc import Callable

from weoldrin import BadArgument, Checkpoint, LogKind, SignedCheckpoint, leaf, log_id, records

from . import toy
from .rows import blocks, json_written, quoted, row_of
from .sentences import words_of

ROWS = pathlib.Path(__file__).resolve().parents[3] / "conformance"
FILES = sorted(ROWS.glob("values/*.rows")) + [ROWS / "messages/signed_envelopes.rows"]
PREFIX = b"WARG-CHECKPOINT-SIGNATURE-V0:"


def checkpoint_of(words: list[str]) -> Checkpoint:
    """The checkpoint that four words say."""
    log_root, log_length, map_root, timestamp = words
    return Checkpoint(log_root, int(log_length), map_root, int(timestamp))


def said(it: Checkpoint) -> str:
    """The words of a checkpoint."""
    # The texts of the roots are judged here.
    it.message()
    return f"{it.log_root} {it.log_length} {it.map_root} {it.timestamp}"


def content_of(words: str) -> str:
    """What is signed, without its prefix, in hex."""
    return checkpoint_of(words.split()).message().removeprefix(PREFIX).hex()


def signed(words: str) -> str:
    """The signature of a checkpoint by a name."""
    name, *rest = words.split()
    return toy.sign(name, checkpoint_of(rest).message())


def written(text: str) -> str:
    """JSON with its members in the order of their names."""
    return json_written(json.loads(text))


def signed_apart(words: str) -> str:
    """The JSON of a checkpoint that a name signed."""
    name, _, text = words.partition(" ")
    it = Checkpoint.from_json(text)
    made = SignedCheckpoint(it, records.key_id(toy.key_of(name)), toy.sign(name, it.message()))
    assert SignedCheckpoint.from_json(made.to_json()) == made
    return written(made.to_json())


def parsed(word: str) -> str:
    """A package's name, if a log has it."""
    log_id(LogKind.PACKAGE, words_of(word)[0])
    return word


PLAYED: dict[str, Callable[[str], str]] = {
    "operator-log-id": lambda _: log_id(LogKind.OPERATOR),
    "package-log-id ": lambda it: log_id(LogKind.PACKAGE, it),
    "parse package-name ": parsed,
    "bytes log-leaf ": lambda it: leaf(*it.split()).hex(),
    "bytes timestamped-checkpoint ": content_of,
    "encode-checkpoint ": content_of,
    "sign-checkpoint ": signed,
    "sign-apart checkpoint ": signed_apart,
    "to-json timestamped-checkpoint ": lambda it: written(checkpoint_of(it.split()).to_json()),
    "from-json timestamped-checkpoint ": lambda it: said(Checkpoint.from_json(it)),
}


def answer(call: Callable[[str], str], words: str) -> str:
    """What the library answers. The fault of a name that no log has is told of the name."""
    try:
        return f"= {call(words)}"
    except BadArgument as error:
        is_name = error.name == "BadName"
        return f"! InvalidPackageName {quoted(words_of(words)[0])}" if is_name else f"! {error.name}"


@unittest.skipUnless(ROWS.is_dir(), "there are no rows here")
class RegistryRows(unittest.TestCase):
    """Each row that is played."""

    def test_rows(self) -> None:
        played: Counter[str] = Counter()
        for path, block in ((path, block) for path in FILES for block in blocks(path)):
            row = row_of(block.head.text)
            topic = next((it for it in PLAYED if f"{row.question} ".startswith(it)), None)
            if topic is None:
                continue
            with self.subTest(file=path.name, line=block.head.number):
                self.assertEqual(answer(PLAYED[topic], row.question[len(topic) :]), row.wanted)
            played[topic] += 1
        print(f"\n{played.total()} rows of registries played")
        self.assertEqual(played.keys(), PLAYED.keys())
        self.assertGreater(played.total(), 60)


if __name__ == "__main__":
    unittest.main()
