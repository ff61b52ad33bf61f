"""Lies, by which a registry that was honest when it was asked before becomes one that lies."""

import dataclasses
import json
import time

from weoldrin import LogKind, log_id, p256, record_id, records

from . import published
from .registries import ONE, OPERATOR, TWO, Query, Registry, Reply, changed, json_reply, problem
from .trees import Leaf


def other_record(registry: Registry, name: str, place: int) -> list[bytes]:
    """A lawful log that differs from a log from a place on."""
    other = registry.copy()
    del other.logs[name][place:]
    while len(other.logs[name]) < len(registry.logs[name]):
        other.release(name, f"7.{len(other.logs[name])}.0")
    return other.logs[name]


def wrong_name(it: Registry) -> None:
    """The log of TWO is served as that of ONE."""
    it.release(ONE, "2.0.0")
    it.sign()
    it.logs[ONE] = it.logs[TWO]


def wrong_proof(it: Registry) -> None:
    """What the map says of TWO is served where ONE is asked for."""

    def twist(path: str, query: Query, reply: Reply) -> Reply:
        if path == "/v1/proof/map" and query["log"] == ONE:
            return changed(reply, **it.map_members(TWO, it.length))
        return reply

    it.twist = twist


def copied(it: Registry) -> None:
    """ONE begins anew as a copy of TWO, in the leaves and in the map too."""
    it.logs[ONE] = []
    for envelope in it.logs[TWO]:
        it.add(ONE, envelope)
    it.sign()


def forked_log(it: Registry) -> None:
    """ONE is another log from a place on, which has leaves too."""
    it.logs[ONE] = other_record(it, ONE, 2)
    it.release(ONE, "8.0.0")
    it.leaves.pop()
    for envelope in it.logs[ONE][2:]:
        it.leaves.append(Leaf(ONE, record_id("package", envelope)))
    it.sign()


def rolled_back_map(it: Registry) -> None:
    """The map has an older record of ONE."""
    it.release(TWO, "2.0.0")
    it.heads[ONE] = record_id("package", it.logs[ONE][1])
    it.sign()


def unmapped(it: Registry) -> None:
    """The map has no ONE."""
    it.release(TWO, "2.0.0")
    del it.heads[ONE]
    it.sign()


def rolled_back(it: Registry) -> None:
    """The registry is an older one."""
    del it.leaves[-1], it.logs[TWO][-1]
    it.heads[TWO] = record_id("package", it.logs[TWO][-1])
    it.sign()


def rolled_back_silently(it: Registry) -> None:
    """The same, and it answers as if it had been asked for nothing older."""
    rolled_back(it)

    def twist(path: str, query: Query, reply: Reply) -> Reply:
        if path == "/v1/proof/map" and "from" in query:
            members = {"checkpoint": json.loads(it.signed[-1].to_json()), "consistency": ""}
            return json_reply({**members, **it.map_members(query["log"], it.length)})
        return reply

    it.twist = twist


def forked_registry(it: Registry) -> None:
    """The newest leaf is another, of one length."""
    it.leaves[-1] = Leaf(TWO, records.sha256_text(b"other"))
    it.heads[TWO] = it.leaves[-1].record_id
    it.sign()


def forked_longer(it: Registry) -> None:
    """The same, and the log has grown."""
    forked_registry(it)
    it.release(ONE, "2.0.0")
    it.sign()


def forked_map(it: Registry) -> None:
    """Another map under one log."""
    it.heads[TWO] = record_id("package", it.logs[TWO][0])
    it.sign()


def stale(it: Registry) -> None:
    """A checkpoint of two days ago."""
    it.release(ONE, "2.0.0")
    it.clock = -2 * 86_400
    it.sign()


def older_time(it: Registry) -> None:
    """The time goes back."""
    it.clock = -1_800
    it.sign()


def ahead(it: Registry) -> None:
    """A time that has not come."""
    it.clock = 7_200
    it.sign()


def unsigned(it: Registry) -> None:
    """The signature is of another message."""
    it.release(ONE, "2.0.0")
    newest = it.sign()
    it.signed[-1] = dataclasses.replace(newest, signature=it.alice.sign(b"other"))


def without_commit(it: Registry) -> None:
    """A key signs that the operator log does not know."""
    it.release(ONE, "2.0.0")
    it.signer = p256.SigningKey.generate()
    it.sign()


def lost_commit(it: Registry) -> None:
    """A key signs that had commit, signed before, and lost it."""
    bob = p256.SigningKey.generate()
    it.publish(OPERATOR, records.grant(LogKind.OPERATOR, bob.public_key, "commit"))
    it.publish(OPERATOR, records.revoke(LogKind.OPERATOR, records.key_id(bob.public_key), "commit"))
    it.signer = bob
    it.sign()


def left_out_leaf(it: Registry) -> None:
    """The newest record of ONE has no leaf, and is in the map."""
    it.release(ONE, "2.0.0", has_leaf=False)
    it.release(TWO, "2.0.0")
    it.sign()


def short_leaves(it: Registry) -> None:
    """Fewer leaves are served than are signed."""
    it.release(ONE, "2.0.0")
    length = len(it.leaves) - 1
    it.sign()

    def twist(path: str, query: Query, reply: Reply) -> Reply:
        if path == "/v1/leaves":
            lines = it.leaves[int(query["from"]) : length]
            return 200, {}, "".join(f"{leaf.log_id} {leaf.record_id}\n" for leaf in lines).encode()
        return reply

    it.twist = twist


def other_leaves(it: Registry) -> None:
    """Other leaves are served than are signed."""
    it.release(ONE, "2.0.0")
    it.sign()
    other = f"{ONE} {records.sha256_text(b'other')}\n".encode()
    it.twist = lambda path, query, reply: (200, {}, other) if path == "/v1/leaves" else reply


def replaced_record(it: Registry) -> None:
    """The newest record of ONE is served as another lawful one."""
    it.release(ONE, "2.0.0")
    it.sign()
    it.logs[ONE] = other_record(it, ONE, len(it.logs[ONE]) - 1)


def old_proof(it: Registry) -> None:
    """What the older map says of all logs is served under the newest checkpoint."""
    old = it.length
    it.release(ONE, "2.0.0")
    it.sign()

    def twist(path: str, query: Query, reply: Reply) -> Reply:
        if path != "/v1/proof/map":
            return reply
        return changed(reply, **it.map_members(query["log"], old))

    it.twist = twist


def old_proof_of_package(it: Registry) -> None:
    """The same of ONE alone."""
    old_proof(it)
    of_all = it.twist

    def twist(path: str, query: Query, reply: Reply) -> Reply:
        return of_all(path, query, reply) if of_all and query.get("log") == ONE else reply

    it.twist = twist


def false_proof(it: Registry) -> None:
    """The map is said to have another record."""

    def twist(path: str, query: Query, reply: Reply) -> Reply:
        return changed(reply, recordId=records.sha256_text(b"other")) if path == "/v1/proof/map" else reply

    it.twist = twist


def held_back(it: Registry) -> None:
    """The newest record of ONE is not served."""
    held_back_of(it, ONE)


def held_back_of(it: Registry, name: str) -> None:
    """The newest record of a log is not served."""
    it.release(name, "2.0.0")
    it.sign()
    del it.logs[name][-1]


def cut_off(it: Registry) -> None:
    """Fewer records of ONE are served than were seen."""
    it.release(ONE, "2.0.0")
    it.sign()
    del it.logs[ONE][2:]


def unlawful(it: Registry) -> None:
    """The newest record of ONE is by a stranger."""
    mallory = p256.SigningKey.generate()
    entries = [records.release("2.0.0", records.sha256_text(b""))]
    it.add(ONE, published.record(it.log(ONE), mallory, entries, time.time_ns()))
    it.sign()


def gone(it: Registry) -> None:
    """No record of ONE is served."""
    it.release(ONE, "2.0.0")
    it.sign()
    del it.logs[ONE]


def false_map(it: Registry) -> None:
    """The map has a log that has no leaf."""
    it.heads[log_id("package", "a:ghost")] = records.sha256_text(b"ghost")
    it.release(ONE, "2.0.0")
    it.sign()


def denying(it: Registry) -> None:
    """The checkpoint that was signed is denied, and the log is another."""
    forked_longer(it)
    del it.signed[:-1]


def hidden(it: Registry) -> None:
    """The map is said to have no ONE."""

    def twist(path: str, query: Query, reply: Reply) -> Reply:
        return changed(reply, recordId=None) if query.get("log") == ONE else reply

    it.twist = twist


def forked_operator(it: Registry) -> None:
    """The operator log is another from its second record on, by the same first key."""
    del it.logs[OPERATOR][1:]
    it.publish(OPERATOR, records.define_namespace("b"))
    it.publish(OPERATOR, records.define_namespace("a"))
    it.sign()


def split_map(it: Registry) -> None:
    """What the map says of ONE is under another signed checkpoint of the same length."""
    other = it.copy()
    other.heads[ONE] = record_id("package", it.logs[ONE][1])
    checkpoint = other.sign()

    def twist(path: str, query: Query, reply: Reply) -> Reply:
        if query.get("log") != ONE:
            return reply
        return changed(reply, checkpoint=json.loads(checkpoint.to_json()), **other.map_members(ONE, other.length))

    it.twist = twist


def split_unsigned(it: Registry) -> None:
    """The same, and nobody signed that one."""
    alice, it.alice = it.alice, p256.SigningKey.generate()
    it.signer = it.alice
    split_map(it)
    it.alice = it.signer = alice


def false_leaf(it: Registry) -> None:
    """The newest record of ONE has no leaf that is signed, and one is served."""
    it.release(ONE, "2.0.0", has_leaf=False)
    it.release(TWO, "2.0.0")
    it.sign()
    lines = [f"{leaf.log_id} {leaf.record_id}\n" for leaf in (*it.leaves[:-1], Leaf(ONE, it.heads[ONE]))]
    at_last = json_reply({"recordId": it.heads[ONE], "logId": ONE, "place": 4, "registryIndex": it.length - 1})

    def twist(path: str, query: Query, reply: Reply) -> Reply:
        if path == "/v1/leaf":
            return at_last
        if path != "/v1/leaves":
            return reply
        return 200, {}, "".join(lines[int(query["from"]) :]).encode()

    it.twist = twist


def _misplaced(it: Registry, index: int) -> None:
    """The leaf of the newest record of ONE is said to stand at another place."""
    it.release(ONE, "2.0.0")
    it.release(TWO, "2.0.0")
    it.sign()
    it.twist = lambda path, query, reply: changed(reply, registryIndex=index) if path == "/v1/leaf" else reply


def denied_leaf(it: Registry) -> None:
    """The newest record of ONE has a leaf, and is said to have none."""
    it.release(ONE, "2.0.0")
    it.sign()
    it.twist = lambda path, query, reply: problem(404, "NoRecord") if path == "/v1/leaf" else reply


def leaf_of_another(it: Registry) -> None:
    """It is said to be that of TWO's newest record."""
    _misplaced(it, len(it.leaves) + 1)


def leaf_behind_all(it: Registry) -> None:
    """It is said to stand behind all that is signed."""
    _misplaced(it, len(it.leaves) + 2)


def leaf_seen_before(it: Registry) -> None:
    """It is said to be that of ONE's record before it, which was seen."""
    _misplaced(it, it.leaves.index(Leaf(ONE, it.heads[ONE])))


def junk(it: Registry) -> None:
    """A record of a stranger stands among those of ONE that are served."""
    it.release(ONE, "2.0.0")
    it.sign()
    mallory = p256.SigningKey.generate()
    it.logs[ONE].insert(4, published.record(it.log(ONE), mallory, [records.yank("1.1.0")], time.time_ns()))


def hostile(it: Registry) -> None:
    """The newest record of ONE is said to be by a key whose id moves a terminal's cursor."""
    entries = [records.release("2.0.0", records.sha256_text(b""))]
    contents = records.contents(it.log(ONE).head(), time.time_ns(), entries)
    it.add(ONE, records.envelope(contents, "sha256:\x1b[2J\n\u202e", "ecdsa-p256:AA=="))
    it.sign()
