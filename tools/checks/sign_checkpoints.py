"""Checks how bin/weoldrin-sign signs checkpoints, in the folder of keys that the other parts of `sign` leave."""
from __future__ import annotations

import json
import re
import time
import unittest.mock
from collections.abc import Callable

from common import ROOT
from p256.logs import sign
from signer import MAKERS, START, Check, bash

LEAVES = ROOT / "examples/leaves.txt"
LONGEST = 2**24
# What numbers have in their last bytes, and the greatest one.
NUMBERS = (0, 1, 127, 128, 16383, 16384, 2**32, 2**63, 2**64 - 1)
LOG_ROOT, MAP_ROOT = f"sha256:{'0a' * 32}", f"sha256:{'b1' * 32}"
BODY = f'{{"logLength":6,"logRoot":"{LOG_ROOT}","mapRoot":"{MAP_ROOT}"}}'


def messages(check: Check) -> None:
    """What is signed is what the program says, which is proved."""
    (check.folder / "empty.txt").write_text("", encoding="ascii")
    for name, leaves in {"six leaves": str(LEAVES), "no leaves": "empty.txt"}.items():
        text = check.run("prove", "checkpoint", leaves)[1]
        is_same(check, f"the message of {name}", text, 1_700_000_000)
    for length in NUMBERS:
        is_same(check, f"the message of {length} leaves", BODY.replace(":6", f":{length}"), 1)
    for seconds in NUMBERS:
        is_same(check, f"the message at {seconds}", BODY, seconds)
    message = sign.checkpoint_of(BODY.encode()).message(0)
    starts = [message.startswith(it) for it in (b"WARG-CHECKPOINT-SIGNATURE-V0:", *sign.PREFIXES)]
    check.expect("the prefix of checkpoints", starts == [True, False, False], message)


def is_same(check: Check, what: str, text: str, seconds: int) -> None:
    (check.folder / "body.json").write_text(text, encoding="ascii")
    message: bytes = sign.checkpoint_of(text.encode()).message(seconds)
    seen = check.run("message", "body.json", str(seconds))
    check.expect(what, seen == (0, f"{message.hex()}\n"), (seen, message.hex()))


def begin_log(check: Check, log: str, first: str, *entries: str) -> None:
    """Begins the log of a registry's operators by the key of a file."""
    key = check.text(first)
    line = check.run("make", "operator", log, START, f"init {key}", *entries, "--key-text", key)[1]
    seen = check.run("append", "operator", log, data=check.sign("sign", first, data=line)[1])
    check.expect(f"a log of operators of {first}", seen[1].startswith("ok 1 "), seen)


def verdict(check: Check, signed: object, log: str) -> tuple[int, str]:
    """What the program says of a signed checkpoint."""
    (check.folder / "signed.json").write_text(json.dumps(signed), encoding="ascii")
    return check.run("verify", "checkpoint", "signed.json", log)


def changed(signed: dict[str, object]) -> dict[str, dict[str, object]]:
    """Other checkpoints under the signature of this one."""
    contents = signed["contents"]
    assert isinstance(contents, dict)
    changes: dict[str, dict[str, object]] = {
        "another log's root": {"logRoot": LOG_ROOT},
        "another map's root": {"mapRoot": MAP_ROOT},
        "both roots turned": {"logRoot": contents["mapRoot"], "mapRoot": contents["logRoot"]},
        "another length": {"logLength": contents["logLength"] + 1},
        "another time": {"timestamp": contents["timestamp"] + 1},
    }
    return {name: {**signed, "contents": {**contents, **change}} for name, change in changes.items()}


def signed(check: Check) -> None:
    """Signs checkpoints by each maker, with the key of each, and has the program say that they hold."""
    for pem in ("first.pem", "granted.pem", "other.pem"):
        check.sign("new", pem)
    for maker in MAKERS:
        log, pem = f"{maker}-operator.hex", f"{maker}.pem"
        begin_log(check, log, "first.pem", *(f"grant {check.text(it)} commit" for it in (pem, "granted.pem")))
        text = check.run("prove", "checkpoint", str(LEAVES))[1]
        (check.folder / "checkpoint.json").write_text(text, encoding="ascii")
        for other in MAKERS:
            is_signed(check, log, f"a key by {maker}, a checkpoint signed by {other}", pem, other)


def is_signed(check: Check, log: str, how: str, pem: str, other: str) -> None:
    seen = check.sign("--with", other, "checkpoint", pem, "checkpoint.json", "1700000000")
    found = json.loads(seen[1])
    proved = json.loads((check.folder / "checkpoint.json").read_text(encoding="ascii"))
    wanted = {
        "contents": {**{it: proved[it] for it in ("logRoot", "logLength", "mapRoot")}, "timestamp": 1_700_000_000},
        "keyId": check.sign("id", pem)[1].strip(),
        "signature": found.get("signature"),
    }
    is_line = seen == (0, json.dumps(wanted, separators=(",", ":")) + "\n", "")
    check.expect(f"the line of {how}", is_line, seen)
    check.expect(f"it holds: {how}", verdict(check, found, log) == (0, "holds\n"))
    for what, it in changed(found).items():
        check.expect(f"{what}: {how}", verdict(check, it, log) == (1, "does not belong\n"), it)
    renamed = {**found, "keyId": check.sign("id", "granted.pem")[1].strip()}
    check.expect(f"another key's id: {how}", verdict(check, renamed, log) == (1, "does not belong\n"))
    foreign = json.loads(check.sign("--with", other, "checkpoint", "other.pem", "checkpoint.json")[1])
    check.expect(f"a key that may not: {how}", verdict(check, foreign, log) == (1, "may not sign\n"))


def stops(check: Check, what: str, call: Callable[[str], object], word: str) -> None:
    """Expects that a function of the script ends it by a sentence, with status 2."""
    try:
        seen = call(word)
    except sign.Stop as stop:
        is_sentence = str(stop).isprintable() and str(stop).strip()
        check.expect(what, stop.status == 2 and bool(is_sentence), (stop, stop.status))
    else:
        check.expect(what, False, seen)


def times(check: Check) -> None:
    """The time of a checkpoint, and words that say none."""
    check.sign("new", "timed.pem")
    (check.folder / "body.json").write_text(BODY, encoding="ascii")
    for words in ((), ("now",)):
        before = time.time_ns() // 10**9
        seen = json.loads(check.sign("checkpoint", "timed.pem", "body.json", *words)[1])["contents"]["timestamp"]
        check.expect(f"now by {words}", before <= seen <= time.time_ns() // 10**9, seen)
    for number in NUMBERS:
        check.expect(f"the time {number}", sign.seconds_of(str(number)) == number)
    more = str(2**64)
    for word in ("", "+1", "01", "-1", "1.5", "1_0", " 1", "1 ", "1\n", "\uff11", "1e3", "0x1", START, "Now", more):
        stops(check, f"the time {word!r}", sign.seconds_of, word)
    stops(check, "a time of many digits", sign.seconds_of, "9" * 1_000_000)
    for word in ("-1", more):
        check.refuses(f"a checkpoint at the time {word}", "checkpoint", "timed.pem", "body.json", word)
    with unittest.mock.patch("time.time_ns", return_value=-1):
        stops(check, "a clock before 1970", sign.seconds_of, "now")


def wrong_bodies() -> dict[str, bytes]:
    """Files that hold no checkpoint."""
    texts = {
        "nothing": "",
        "white space": " \n",
        "no JSON": "checkpoint",
        "a checkpoint cut short": BODY[:-1],
        "a second value": f"{BODY}{BODY}",
        "two lines": f"{BODY}\n{BODY}\n",
        "a comma behind": BODY.replace("}", ",}"),
        "a mark of the byte order": f"\ufeff{BODY}",
        "a control character": BODY.replace("sha256:0", "sha256:\n0"),
        "lists in lists": "[" * 200_000,
        "objects in objects": '{"logRoot":' * 200_000,
        "a list": f"[{BODY}]",
        "an object within": f'{{"contents":{BODY}}}',
        "null": "null",
        "a text": '"logRoot"',
        "no members": "{}",
        "a time too": BODY.replace("}", ',"timestamp":5}'),
        "another member": BODY.replace("{", '{"more":null,'),
        "a member in other letters": BODY.replace("logRoot", "logroot"),
        "a length twice": BODY.replace("}", ',"logLength":6}'),
        "another length before": BODY.replace("{", '{"logLength":5,'),
        "another root behind": BODY.replace("}", f',"logRoot":"{MAP_ROOT}"}}'),
        "a root in another's place": BODY.replace("mapRoot", "logRoot"),
        "what another command prints": f'{{"command":"prove checkpoint","checkpoint":{BODY},"status":0}}',
    }
    texts |= {f"no {it}": json.dumps({k: v for k, v in json.loads(BODY).items() if k != it}) for it in json.loads(BODY)}
    for length in ("true", "false", "null", '"6"', "6.0", "6e0", "-1", "-0", "0.5", "[6]", "{}", "NaN", "Infinity"):
        texts[f"the length {length}"] = BODY.replace(":6", f":{length}")
    texts |= {f"the length 06{it}": BODY.replace(":6", f":06{it}") for it in ("", ".0")}
    texts |= {f"the length of {len(it)} digits": BODY.replace(":6", f":{it}") for it in (str(2**64), "9" * 1_000_000)}
    texts["a real number of many digits"] = BODY.replace(":6", f":6.{'0' * 1_000_000}")
    for root in ("null", "true", "7", "[]", f'["{LOG_ROOT}"]', '""', *(f'"{it}"' for it in wrong_roots(LOG_ROOT))):
        texts[f"the log's root {root}"] = BODY.replace(f'"{LOG_ROOT}"', root)
    for root in ("null", "7", *(f'"{it}"' for it in wrong_roots(MAP_ROOT))):
        texts[f"the map's root {root}"] = BODY.replace(f'"{MAP_ROOT}"', root)
    return {name: text.encode() for name, text in texts.items()} | {
        "UTF-16": BODY.encode("utf-16"),
        "a byte of no text": BODY.encode().replace(b"0a", b"0a\xff", 1),
        "a zero behind": BODY.encode() + b"\0",
        "more bytes than any": BODY.encode().ljust(LONGEST + 1),
    }


def wrong_roots(root: str) -> list[str]:
    """Texts that are no root, as JSON has them."""
    return [
        root.upper(),
        root[7:],
        f"sha256:{root[7:].upper()}",
        f"SHA256:{root[7:]}",
        f"sha512:{root[7:]}",
        root[:-1],
        f"{root}0",
        f"{root[:-1]}g",
        f"{root[:-1]}\u0661",
        f"{root}\\n",
        f"{root[:-1]} ",
        f"{root[:-1]}\\ud800",
    ]


def bodies(check: Check) -> None:
    """Files that hold no checkpoint, of which none is signed, and some that hold one in another form."""
    body = check.folder / "body.json"
    for what, data in wrong_bodies().items():
        body.write_bytes(data)
        stops(check, f"a checkpoint of {what!r}", sign.read_checkpoint, str(body))
    members = ", ".join(f'"{name}" : {json.dumps(value)}' for name, value in reversed(json.loads(BODY).items()))
    forms = {
        "white space": json.dumps(json.loads(BODY), indent=2).encode() + b" \r\n\t",
        "another order": f"{{ {members} }}".encode(),
        "escapes": BODY.replace("sha256", "\\u0073ha256").encode(),
        "as many bytes as any": BODY.encode().ljust(LONGEST),
    }
    for what, data in forms.items():
        body.write_bytes(data)
        seen = sign.read_checkpoint(str(body))
        check.expect(f"a checkpoint with {what}", seen == (LOG_ROOT, 6, MAP_ROOT), seen)
    check.sign("new", "body.pem")
    signed = check.sign("checkpoint", "body.pem", "body.json", "5")[1]
    for text in ("", signed, BODY.replace(":6", ":true")):
        check.refuses(f"a checkpoint of {text[:30]!r} on standard input", "checkpoint", "body.pem", "-", data=text)


def files(check: Check) -> None:
    """Files that are none, and words that can't be used."""
    (check.folder / "body.json").write_text(BODY, encoding="ascii")
    check.sign("new", "file.pem")
    for name in ("none.json", ".", "file.pem/body.json", "a\x1b[2J\n\u202e.json"):
        check.refuses(f"the checkpoint of {name!r}", "checkpoint", "file.pem", name)
    for name in ("none.pem", "."):
        check.refuses(f"a checkpoint by the key of {name!r}", "checkpoint", name, "body.json")
    for line in (
        "checkpoint",
        "checkpoint file.pem",
        "checkpoint file.pem body.json 1 2",
        "checkpoint file.pem body.json --with gpg",
        "checkpoint file.pem body.json --time 1",
        "key file.pem body.json",
        "sign file.pem -",
        "new new.pem body.json 1",
    ):
        check.refuses(f"the words {line!r}", *line.split())
    check.expect("no key is made by words too many", not (check.folder / "new.pem").exists())
    for line in (
        "--with {} checkpoint file.pem body.json 5",
        "checkpoint file.pem --with {} body.json 5",
        "checkpoint file.pem body.json --with {} 5",
        "checkpoint file.pem body.json 5 --with={}",
    ):
        seen = check.sign(*line.format(MAKERS[0]).split())
        check.expect(f"the words {line!r}", seen[0] == 0 and '"timestamp":5}' in seen[1] and not seen[2], seen)


def pipes(check: Check) -> None:
    """Checkpoints that come through a pipe, and streams that are closed or full."""
    (check.folder / "body.json").write_text(BODY, encoding="ascii")
    check.sign("new", "pipe.pem")
    begin_log(check, "pipe.hex", "pipe.pem")
    told = r"weoldrin-sign: [^\n]+\n"
    holds = '| "$0" verify checkpoint - pipe.hex'
    for line, status, printed, says in (
        (f'"$0" prove checkpoint {LEAVES} | "$1" checkpoint pipe.pem - {holds}', 0, "holds\n", ""),
        (f'"$1" checkpoint pipe.pem <(cat body.json) {holds}', 0, "holds\n", ""),
        (f'"$1" checkpoint <(cat pipe.pem) body.json {holds}', 0, "holds\n", ""),
        # Where a program fails in front of it, nothing is said to hold.
        (f'"$0" prove checkpoint none.txt | "$1" checkpoint pipe.pem - {holds}', 2, "", r"(weoldrin[^\n]+\n){3}"),
        (f'"$1" checkpoint none.pem body.json {holds}', 2, "", r"(weoldrin[^\n]+\n){2}"),
        (f'"$1" checkpoint pipe.pem body.json never {holds}', 2, "", r"(weoldrin[^\n]+\n){2}"),
        ('yes | "$1" checkpoint pipe.pem -', 2, "", told),
        ('"$1" checkpoint pipe.pem <(yes)', 2, "", told),
        ('"$1" checkpoint pipe.pem - <&-', 2, "", told),
        ('"$1" checkpoint pipe.pem - < /dev/null', 2, "", told),
        ('"$1" checkpoint pipe.pem body.json > /dev/full', 3, "", told),
        ('"$1" checkpoint pipe.pem body.json >&-', 3, "", told),
        ('"$1" checkpoint pipe.pem none.json 2>&-', 2, "", ""),
    ):
        done = bash(check, line)
        is_right = re.fullmatch(printed, done.stdout) and re.fullmatch(says, done.stderr)
        check.expect(f"of {line}", bool(is_right) and done.returncode == status, done)


PARTS: tuple[Callable[[Check], None], ...] = (messages, signed, times, bodies, files, pipes)
