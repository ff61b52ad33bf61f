"""The rows of `weoldrin compare heads` and `weoldrin compare beginnings`: what a registry showed twice. The map is
computed here, by docs/FORMATS.md. Answers that two strings collide have no rows, as nobody knows such strings of
SHA-256."""

import base64
import json
from typing import Any, NamedTuple

from comparison_parts import LEAVES, LOGS, TURNED, Line, Row, View, goes_on, in_json, row, view_of
from log_parts import hash_text, sha256, varint

# ---- the map

HEIGHT = 256


def empty_roots() -> list[bytes]:
    """The roots of the empty maps of each height."""
    roots = [sha256(b"")]
    for _ in range(HEIGHT):
        roots.append(sha256(b"\1" + roots[-1] + roots[-1]))
    return roots


EMPTY = empty_roots()


def value_of(record_id: str) -> bytes:
    return b"WARG-MAP-LEAF-V0" + varint(len(record_id)) + record_id.encode()


def bits_of(log_id: str) -> str:
    """The place of a log: its bits, from the root down."""
    return "".join(f"{byte:08b}" for byte in bytes.fromhex(log_id.removeprefix("sha256:")))


def map_root(values: dict[str, bytes], height: int = HEIGHT) -> bytes:
    """The root of the map of these values, each by the bits of its place that are below this height."""
    if not values:
        return EMPTY[height]
    if height == 0:
        return sha256(b"\0" + values[""])
    left, right = (map_root(side(values, bit), height - 1) for bit in "01")
    return sha256(b"\1" + left + right)


def side(values: dict[str, bytes], bit: str) -> dict[str, bytes]:
    return {place[1:]: value for place, value in values.items() if place[0] == bit}


def siblings(values: dict[str, bytes], bits: str) -> list[bytes]:
    """The siblings on the way of these bits, from the leaf up."""
    if not bits:
        return []
    other = "1" if bits[0] == "0" else "0"
    return [*siblings(side(values, bits[0]), bits[1:]), map_root(side(values, other), len(bits) - 1)]


class Map(NamedTuple):
    """The last records of logs."""

    heads: dict[str, str]

    def values(self) -> dict[str, bytes]:
        return {bits_of(log_id): value_of(record_id) for log_id, record_id in self.heads.items()}

    def root(self) -> str:
        return "sha256:" + map_root(self.values()).hex()

    def proof(self, log_id: str) -> str:
        """The text of the proof of what the map says of a log, in its short form."""
        path = siblings(self.values(), bits_of(log_id))
        are_empty = [it == EMPTY[height] for height, it in enumerate(path)]
        bits = int("".join("1" if it else "0" for it in are_empty), 2).to_bytes(HEIGHT // 8, "big")
        shown = [it for it, is_empty in zip(path, are_empty) if not is_empty]
        return base64.b64encode(bits + b"".join(shown)).decode()


# ---- rows of `compare heads`


class Answer(NamedTuple):
    """An id of a log's last record, or `none`, and the proof that is to show it."""

    record_id: str
    proof: str


RECORDS = [hash_text(f"head {place}".encode()) for place in range(2)]
# Of the third log there is no record.
MAP = Map(dict(zip(LOGS, RECORDS)))
OTHER_MAP = Map({LOGS[0]: RECORDS[1], LOGS[1]: RECORDS[0]})
UNDER_MAP = view_of(LEAVES)._replace(map_root=MAP.root())
HEAD, NO_HEAD = Answer(RECORDS[0], MAP.proof(LOGS[0])), Answer("none", MAP.proof(LOGS[2]))


def heads_row(title: str, log_id: str, one: Answer, other: Answer, line: Line, **more: Any) -> Row:
    words = ["compare", "heads", "signed.json", log_id, one.record_id, "one.txt", other.record_id, "two.txt"]
    files = {"signed.json": [UNDER_MAP.text()], "one.txt": [one.proof], "two.txt": [other.proof]}
    found: Row = {"files": files, **more}
    return row(title, words, line.status, [line.text], **found)


SAME, NOT_SHOWN = Line("same", 0, {}), Line("not shown", 1, {})


def answers_to_heads() -> list[Row]:
    same = heads_row("one head that is shown twice", LOGS[0], HEAD, HEAD, SAME)
    unshown = heads_row("a head of another map", LOGS[0], HEAD, Answer(RECORDS[1], OTHER_MAP.proof(LOGS[0])), NOT_SHOWN)
    strange, claimed = Answer(RECORDS[1], HEAD.proof), Answer("none", HEAD.proof)
    empty = UNDER_MAP._replace(map_root=Map({}).root())
    files = {"signed.json": [empty.text()], "one.txt": [Map({}).proof(LOGS[0])], "two.txt": [Map({}).proof(LOGS[0])]}
    none = Answer("none", "")
    return [
        {**same, "memory": True},
        in_json(same, SAME),
        {**unshown, "memory": True},
        in_json(unshown, NOT_SHOWN),
        heads_row("a log that is shown twice to have no head", LOGS[2], NO_HEAD, NO_HEAD, SAME, memory=True),
        heads_row("no head of a map of no logs", LOGS[0], none, none, SAME, files=files),
        heads_row("a head by the proof of another", LOGS[0], HEAD, strange, NOT_SHOWN),
        heads_row("another head before the one that is shown", LOGS[0], strange, HEAD, NOT_SHOWN),
        heads_row("no head by the proof of one", LOGS[0], HEAD, claimed, NOT_SHOWN),
        heads_row("a head by the proof of none", LOGS[2], NO_HEAD, Answer(RECORDS[0], NO_HEAD.proof), NOT_SHOWN),
        heads_row("a head of another log", LOGS[1], HEAD, HEAD, NOT_SHOWN),
        heads_row("one head, neither of whose proofs shows it", LOGS[0], strange, strange, NOT_SHOWN),
    ]


def words_of_heads() -> list[Row]:
    good = heads_row("", LOGS[0], HEAD, HEAD, SAME)

    def refused(title: str, says: str, at: int, word: str) -> Row:
        words = [*good["words"][:at], word, *good["words"][at + 1 :]]
        return {**good, "row": title, "words": words, "status": 2, "prints": [], "says": [f"weoldrin: {says}"]}

    def without(title: str, name: str, text: str | None, says: str) -> Row:
        files = {key: it for key, it in good["files"].items() if key != name}
        files = files if text is None else {**files, name: [text]}
        return {**good, "row": title, "files": files, "status": 2, "prints": [], "says": [f"weoldrin: {name}: {says}"]}

    twice = ["-" if it in ("one.txt", "two.txt") else it for it in good["words"]]
    return [
        {
            **good,
            "row": "the proof of a head on standard input",
            "words": ["-" if it == "one.txt" else it for it in good["words"]],
            "input": [HEAD.proof],
        },
        refused("heads of no log", '"log" is no id of a log', 3, "log"),
        refused("a head that is no record", '"record" is no id of a record', 4, "record"),
        refused("the other head, which is no record", '"None" is no id of a record', 6, "None"),
        refused("a head that is not quite none", '"none " is no id of a record', 4, "none "),
        without("the checkpoint of heads in no file", "signed.json", None, "there is no such file"),
        without("a checkpoint of heads that is no JSON", "signed.json", "{", "it holds no JSON"),
        without(
            "a checkpoint of heads that no key signed",
            "signed.json",
            json.dumps(UNDER_MAP.members()),
            "it holds no signed checkpoint",
        ),
        without("a head by a proof that is none", "one.txt", "!", "it holds no proof: BadBase64"),
        without("the other head by a proof too short", "two.txt", "YQ==", "it holds no proof: BadLength"),
        without("the other head's proof in no file", "two.txt", None, "there is no such file"),
        {"row": "one head alone", "words": good["words"][:6], "status": 2, "says_with": ["OTHER_RECORD_ID"]},
        {
            "row": "two proofs of heads on standard input",
            "words": twice,
            "status": 2,
            "says_with": ["error: standard input, which is -, can be read once alone\n"],
        },
    ]


# ---- rows of `compare beginnings`


class Beginning(NamedTuple):
    """An older checkpoint, and the proof that a log goes on from its own."""

    view: View
    proof: str


def beginning(count: int) -> Beginning:
    return Beginning(view_of(LEAVES[:count]), goes_on(count, LEAVES) if count else "")


def beginnings_row(title: str, one: Beginning, other: Beginning, new: View, line: Line, **more: Any) -> Row:
    words = ["compare", "beginnings", "one.json", "one.txt", "two.json", "two.txt", "new.json"]
    files = {"one.json": [one.view.text()], "one.txt": [one.proof], "two.json": [other.view.text()]}
    files |= {"two.txt": [other.proof], "new.json": [new.text()]}
    return row(title, words, line.status, [line.text], files=files, **more)


def answers_to_beginnings() -> list[Row]:
    none, three, five, seven = (beginning(count) for count in (0, 3, 5, 7))
    new, turned = seven.view, view_of(TURNED)
    other_map = three._replace(view=three.view._replace(map_root=hash_text(b"another map")))
    later, whole = three._replace(view=three.view._replace(time=5)), new._replace(map_root=MAP.root())
    fork, lengths = Line("fork", 1, {}), Line("two lengths", 1, {})
    rows = [
        (beginnings_row("one beginning that is shown twice", three, later, new, SAME), SAME),
        (beginnings_row("two maps over one beginning", three, other_map, new, fork), fork),
        (beginnings_row("beginnings of two lengths", three, five, new, lengths), lengths),
        (beginnings_row("a beginning of another log", three, five, turned, NOT_SHOWN), NOT_SHOWN),
    ]
    strange = three._replace(proof=five.proof)
    forked = Beginning(view_of(TURNED[:5]), goes_on(5, TURNED))
    return [
        *(it for found, line in rows for it in ({**found, "memory": True}, in_json(found, line))),
        beginnings_row("a log that goes on from itself", seven, seven, new, SAME),
        beginnings_row("a log that goes on from no leaves, twice", none, none, new, SAME),
        beginnings_row("a beginning of no leaves and one of some", none, three, new, lengths),
        beginnings_row("two maps over the whole log", seven, seven._replace(view=whole), new, fork),
        beginnings_row("another log of the whole length", seven, Beginning(turned, ""), new, NOT_SHOWN),
        beginnings_row("one beginning that is not shown", strange, three, new, NOT_SHOWN),
        beginnings_row("the other beginning that is not shown", three, strange, new, NOT_SHOWN),
        beginnings_row("two beginnings of one length, one of them forked", five, forked, new, NOT_SHOWN),
        beginnings_row("beginnings of a log that is shorter", five, five, three.view, NOT_SHOWN),
    ]


def words_of_beginnings() -> list[Row]:
    three, new = beginning(3), view_of(LEAVES)
    good, unsigned = beginnings_row("", three, three, new, SAME), json.dumps(new.members())

    def without(title: str, name: str, text: str | None, says: str) -> Row:
        files = {key: it for key, it in good["files"].items() if key != name}
        files = files if text is None else {**files, name: [text]}
        return {**good, "row": title, "files": files, "status": 2, "prints": [], "says": [f"weoldrin: {name}: {says}"]}

    words, printed = good["words"], good["files"]["new.json"]
    return [
        {**good, "row": "the newer log on standard input", "words": [*words[:-1], "-"], "input": printed},
        without("a beginning in no file", "one.json", None, "there is no such file"),
        without("a beginning that no key signed", "one.json", unsigned, "it holds no signed checkpoint"),
        without("a beginning by a proof that is none", "one.txt", "!", "it holds no proof: BadBase64"),
        without("the other beginning that is no JSON", "two.json", "", "it holds no JSON"),
        without("the other beginning's proof in no file", "two.txt", None, "there is no such file"),
        without("the other beginning by half a hash", "two.txt", "YQ==", "it holds no proof: BadLength"),
        without("a newer log in no file", "new.json", None, "there is no such file"),
        without("a newer log that no key signed", "new.json", unsigned, "it holds no signed checkpoint"),
        {"row": "beginnings of no log", "words": words[:-1], "status": 2, "says_with": ["NEW"]},
        {"row": "a word behind the newer log", "words": [*words, "more"], "status": 2, "says_with": ["'more'"]},
        {
            "row": "two beginnings on standard input",
            "words": ["-" if it in ("one.json", "two.json") else it for it in words],
            "status": 2,
            "says_with": ["error: standard input, which is -, can be read once alone\n"],
        },
    ]


def twice_rows() -> list[Row]:
    """What is answered of heads and of beginnings."""
    return [*answers_to_heads(), *words_of_heads(), *answers_to_beginnings(), *words_of_beginnings()]
