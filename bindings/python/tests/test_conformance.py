"""The rows of conformance/logs that speak of whole logs, states, chains and comparisons, answer for answer."""

import binascii
import io
import itertools
import json
import pathlib
import unittest
from collections import Counter
from collections.abc import Iterator

from weoldrin import (
    BadArgument,
    BadLine,
    Error,
    LogKind,
    NoEnvelope,
    OperatorLog,
    PackageLog,
    RunError,
    append_all,
    log_of,
    record_id,
)

from . import toy
from .player import LeftOut, Player, answers, run_envelopes, state_answer
from .rows import Block, blocks, json_written, quoted, row_of, text_of
from .sentences import Sentences, words_of

ROWS = pathlib.Path(__file__).resolve().parents[3] / "conformance/logs"
LOGS = {"package": PackageLog, "operator": OperatorLog}
# What no call of the library answers, by the topic.
OTHER_TOPICS = {
    "refusal": "an error's sentence by itself: the library says it of what it refuses",
    "newest-version": "the newest version of the protocol: no call says it",
    "saved": "a part of a saved state: the library reads whole states",
    "audit": "other words of the program than the two audits and the two ids",
}
# The errors that no log shows: there is one hash algorithm, want of memory has a status of its own, and any other
# entry of operators than an init asks for a permission first.
NEVER_SHOWN = {
    "package IncorrectHashAlgorithm",
    "package OutOfMemory",
    "operator FirstEntryIsNotInit",
    "operator IncorrectHashAlgorithm",
    "operator OutOfMemory",
    "envelope OutOfMemory",
}


@unittest.skipUnless(ROWS.is_dir(), "there are no rows here")
class Conformance(unittest.TestCase):
    """Each file of rows."""

    def setUp(self) -> None:
        self.sentences = Sentences(ROWS / "refusals.rows")
        self.failures: list[str] = []
        self.played = 0
        self.left_out: Counter[str] = Counter()

    def test_rows(self) -> None:
        for path in sorted(ROWS.glob("*.rows")):
            for block in blocks(path):
                self._play(path.name, block)
        self._print()
        self.assertEqual(self.failures, [])
        self.assertGreater(self.played, 700)
        self.assertEqual(set(self.sentences.not_compared()), NEVER_SHOWN)

    def test_sentences(self) -> None:
        """The rows of one case say one sentence, but for its fields."""
        for question, sentence in self.sentences.rows.items():
            topic, case, *fields = words_of(question)
            self.assertEqual(self.sentences.of(topic, case, fields), sentence)

    def _print(self) -> None:
        print(f"\n{self.played} rows played, {self.left_out.total()} left out, {len(self.failures)} failed")
        for why, count in self.left_out.most_common():
            print(f"  left out {count}: {why}")
        compared, others = self.sentences.compared, self.sentences.not_compared()
        print(f"{compared.total()} sentences compared, of {len(compared)} cases; no log shows {', '.join(others)}")

    def _fail(self, name: str, block: Block, seen: object) -> None:
        self.failures.append(f"{name} {block.head.number} {block.head.text}: {seen}")

    def _play(self, name: str, block: Block) -> None:
        topic, *words = block.head.text.removesuffix(":").split(" ")
        kind = words[0] if words else ""
        if topic in ("refusal", "newest-version") or (topic == "saved" and kind not in LOGS):
            self.left_out[OTHER_TOPICS[topic]] += 1
        elif topic == "log":
            player = Player(LogKind[kind.upper()], self.sentences)
            player.play(block)
            self.played += player.rows
            self.left_out += player.left_out
            self.failures += [f"{name} {it}" for it in player.failures]
        elif topic == "audit":
            self._program(name, block, words)
        elif topic == "run":
            self._run(name, block, LogKind[kind.upper()])
        elif topic == "saved":
            self._saved(name, block, kind)
        else:
            self._fail(name, block, "a strange topic")

    def _saved(self, name: str, block: Block, kind: str) -> None:
        row = row_of(block.head.text)
        try:
            with LOGS[kind].from_json(text_of(row.question.removeprefix(f"saved {kind} "))) as log:
                seen = f"= {json_written(json.loads(log.to_json()))}"
        except BadArgument as error:
            # The library names a fault by its own case: not that it is of a value, nor what does not fit together.
            is_named = row.wanted.startswith("! ") and error.name in row.wanted.removeprefix("! ").split(".")[:2]
            seen = row.wanted if is_named else f"! {error.name}"
        self.played += 1
        if seen != row.wanted:
            self._fail(name, block, seen)

    def _run(self, name: str, block: Block, kind: LogKind) -> None:
        strings = [it.text for it in block.lines if it.text[:2] not in ("! ", "? ")]
        with log_of(kind) as log:
            refused: tuple[int, Error] | None = None
            for place, envelope in enumerate(run_envelopes(kind, strings)):
                try:
                    log.append(envelope, toy.verify)
                except Error as error:
                    refused = (place, error)
                    break
            for line in block.lines:
                if line.text.startswith("! "):
                    place_text, _, cause = line.text.removeprefix("! ").partition(" ")
                    self.played += 1
                    is_told = refused is not None and refused[0] == int(place_text)
                    if refused is None or not is_told or not answers(refused[1], cause, self.sentences, kind):
                        self._fail(name, block, refused)
                elif line.text.startswith("? "):
                    row = row_of(line.text.removeprefix("? "))
                    look_up, _, subject = row.question.partition(" ")
                    self.played += 1
                    seen = f"= {state_answer(log, look_up, subject)}"
                    if seen != row.wanted:
                        self._fail(name, block, seen)

    def _program(self, name: str, block: Block, words: list[str]) -> None:
        """What the program `warg_audit` prints."""
        parts: dict[str, str] = {}
        for line in block.lines:
            if not line.text.startswith("? "):
                part, _, text = line.text.partition(" = ")
                parts[f"{{{part}}}"] = text
                continue
            if not words or words[-1] not in LOGS or words[:-1] not in ([], ["id"]):
                self.left_out[OTHER_TOPICS["audit"]] += 1
                continue
            row = row_of(line.text.removeprefix("? "))
            given = text_of(row.question)
            for part, text in parts.items():
                given = given.replace(part, text)
            answer = identified if words[0] == "id" else audited
            try:
                status, printed, run_error = answer(LogKind[words[-1].upper()], given.encode())
            except LeftOut as why:
                self.left_out[str(why)] += 1
                continue
            self.played += 1
            is_told = run_error is None or self.sentences.is_told_by_name(words[-1], run_error.name, run_error.sentence)
            if f"= {status} {quoted(printed)}" != row.wanted or not is_told:
                self._fail(name, block, f"{line.number}: {status} {printed} {run_error}")


def strings_of(given: bytes) -> Iterator[bytes]:
    """What the lines say that `warg_audit` reads, which passes over none, unlike the tool and the package."""
    for place, line in enumerate(io.BytesIO(given)):
        try:
            yield binascii.unhexlify(line.removesuffix(b"\n").removesuffix(b"\r"))
        except ValueError:
            raise BadLine(place, place + 1) from None


def audited(kind: LogKind, given: bytes) -> tuple[int, str, RunError | None]:
    """The status and the text of an audit of lines, and why a record is refused."""
    try:
        envelopes = list(strings_of(given))
    except BadLine as error:
        return 2, f"{error}\n", None
    with log_of(kind) as log:
        taken, run_error = append_all(log, envelopes, toy.verify)
        if run_error is not None:
            return 1, f"refused {run_error.place} {run_error.name}\n", run_error
        releases = log.releases() if isinstance(log, PackageLog) else iter(())
        told = [f"{it.version} {'yanked' if it.yanked else f'released {it.content}'}\n" for it in releases]
        return 0, f"ok {taken} {log.head() or 'none'}\n" + "".join(told), None


def identified(kind: LogKind, given: bytes) -> tuple[int, str, RunError | None]:
    """The same of the id of the one record that there is a line of."""
    try:
        envelopes = list(itertools.islice(strings_of(given), 2))
    except BadLine as error:
        return 2, f"{error}\n", None
    if len(envelopes) != 1:
        return 2, f"bad line {min(len(envelopes), 1)}\n", None
    try:
        return 0, f"{record_id(kind, envelopes[0])}\n", None
    except NoEnvelope as error:
        if not error.name.startswith("ProtobufEnvelope."):
            raise LeftOut("the id of contents that are no record: the library gives those of records alone") from None
        return 1, f"refused 0 {error.name}\n", RunError(0, error.name, error.sentence)


if __name__ == "__main__":
    unittest.main()
