"""`weoldrin monitor URL --database FILE`: follows a registry's checkpoints, and goes through all leaves and logs under
them. What it saw is in SQLite, and so is what it tells. What makes the roots of the leaves anew is the library."""

import argparse
import contextlib
import json
import time
from collections.abc import Callable

from ..checkpoints import SignedCheckpoint
from ..errors import BadArgument
from ..logs import record_id
from ..printing import print_lines, printable, tell
from ..trees import RegistryTrees, saved_leaves
from . import asking
from . import trust as trusted
from .answers import Leaf, Problem
from .database import Behind, Database
from .fetch import opened, tell_first_use
from .following import Follower
from .replaying import BATCH, Replayed, Replayer, kind_of_log
from .told import BadAnswer, NoAnswer, Told, Unusable

# So many leaves are read in one step, so many are taken for the trees at once, and so many logs are asked for whose
# head in the map is wrong.
_PAGE, _TAKEN, _ASKED = 20_000, 2_000, 200


class Monitor:
    """Follows a registry."""

    def __init__(self, database: Database, follower: Callable[[], Follower], replayer: Replayer, most: int) -> None:
        self._database, self._follower, self._replayer, self._most = database, follower, replayer, most
        self._trees: RegistryTrees | None = None
        self._found: list[Told] = []

    def close(self) -> None:
        """Gives the memory of the trees back."""
        if self._trees is not None:
            self._trees.close()
        self._trees = None

    def step(self) -> list[Told]:
        """Goes on to the newest checkpoint, and gives all that is to be told of it. What is new of that is kept to be
        printed and sent."""
        self._found = []
        try:
            self._step(self._follower())
        except Told as it:
            with self._database.step():
                self._tell(it)
        except Problem as problem:
            if problem.name != "NoCheckpoint":
                with self._database.step():
                    self._tell(BadAnswer(f"it refuses what it has to answer: {problem}"))
        return self._found

    def _tell(self, it: Told) -> None:
        self._found.append(it)
        self._database.tell(it, int(time.time()))

    def _step(self, follower: Follower) -> None:
        newest = follower.follow()
        with self._database.step():
            self._database.save(follower.trust)
        self._read_leaves(follower, newest)
        self._replay(follower)
        self._check_map(follower, newest)

    # Leaves

    def _read_leaves(self, follower: Follower, newest: SignedCheckpoint) -> None:
        """Reads the leaves up to those that are signed, a page in a transaction, and counts them where they are
        these."""
        start, signed = self._database.read(), newest.contents
        if signed.log_length > self._most:
            raise BadAnswer(f"more leaves are signed than --most {self._most}")
        if self._is_checked(newest):
            return
        while start < signed.log_length:
            leaves = follower.registry.leaves(start)[0][: min(_PAGE, signed.log_length - start)]
            if not leaves:
                why = f"{signed.log_length} leaves are signed, and {start} are served"
                raise Told("left out leaf", why, newest, subject=f"{start}")
            with self._database.step():
                self._database.add_leaves(start, leaves)
            start += len(leaves)
        if self._trees_of(start).log_root() != signed.log_root:
            # They have leaves that do not count.
            self.close()
            with self._database.step():
                start = self._database.drop_leaves()
            why = f"the leaves from place {start} on that are served are not those that are signed"
            raise Told("left out leaf", why, newest, subject=f"{start}")
        with self._database.step():
            for record, first, other in self._database.count_leaves():
                why = f"the record {record} stands in two logs, {first} and {other}: one is a copy of the other"
                self._tell(Told("wrong name", why, subject=f"{record} {other}"))

    def _trees_of(self, length: int) -> RegistryTrees:
        """The trees over all leaves that were read, of so many. They are made of them at first, and go on then."""
        try:
            if self._trees is None:
                saved = (saved_leaves(self._leaves(start, length)) for start in range(0, length, _TAKEN))
                self._trees = RegistryTrees.from_bytes(b"".join(saved))
            while (start := len(self._trees)) < length:
                self._trees.push_all(self._leaves(start, length))
        except BadArgument:
            raise Unusable(f"{self._database.path}: a leaf in it is spoiled") from None
        return self._trees

    def _leaves(self, start: int, length: int) -> list[Leaf]:
        """Some of the leaves from a place on, of so many."""
        return self._database.leaves(start, min(_TAKEN, length - start))

    def _is_checked(self, newest: SignedCheckpoint) -> bool:
        """Whether the roots of a checkpoint were found to be those of the leaves."""
        return self._database.kept("roots") == _roots_of(newest)

    # Logs

    def _replay(self, follower: Follower) -> None:
        """Replays the logs that are behind, each batch in a transaction."""
        after = ""
        while batches := self._behind(after):
            after = batches[-1][-1].log_id
            for batch in self._replayer.replay(batches):
                faults = [self._named(follower, it, it.fault) for it in batch if it.fault]
                with self._database.step():
                    for it in batch:
                        self._database.replayed(it.log_id, it.records, it.state)
                    for fault in faults:
                        self._tell(fault)

    def _behind(self, after: str) -> list[list[Behind]]:
        logs = self._database.behind(after, BATCH * 2 * self._replayer.workers)
        return [logs[at : at + BATCH] for at in range(0, len(logs), BATCH)]

    def _named(self, follower: Follower, it: Replayed, fault: Told) -> Told:
        """What a log is told of that does not go on as its leaves say: the log of another, or a fork of what was
        replayed, if it is one."""
        name, others = it.log_id, self._database.logs_of(it.other) if it.other else []
        if others and name not in others:
            return Told("wrong name", f"the log that is served for {name} is {others[0]}", subject=fault.subject)
        known, place = self._database.records_of(name)[: it.records], 0
        for envelope in follower.registry.records(name, 0):
            if place == len(known):
                return fault
            served = record_id(kind_of_log(name), envelope)
            if served != known[place]:
                why = f"record {place} of {name} is served as {served}, and was replayed as {known[place]}"
                return Told("forked log", why, subject=fault.subject)
            place += 1
        if 0 < place < len(known):
            why = f"{place} records of {name} are served, and {len(known)} were replayed"
            return Told("rolled back log", why, subject=fault.subject)
        return fault

    # The map

    def _check_map(self, follower: Follower, newest: SignedCheckpoint) -> None:
        """Tells where the signed map is not that of the leaves."""
        if self._is_checked(newest):
            return
        if self._trees_of(newest.contents.log_length).map_root() != newest.contents.map_root:
            raise self._explained(follower, newest)
        with self._database.step():
            self._database.keep("roots", _roots_of(newest))

    def _explained(self, follower: Follower, newest: SignedCheckpoint) -> Told:
        """What a map is that is not that of the leaves: the logs of the newest leaves are asked for."""
        length = newest.contents.log_length
        for name in self._database.newest_logs(_ASKED):
            under, head = follower.head(name)
            records = self._database.records_of(name)
            if under.contents.log_length != length or head.record_id == records[-1]:
                continue
            if head.record_id is None or head.record_id in records:
                why = f"the map has {head.record_id} as the last record of {name}, whose leaves go on to {records[-1]}"
                return Told("rolled back map", why, newest, subject=f"{length} {name}")
            why = f"the map has {head.record_id} as the last record of {name}, and no leaf is of it"
            return Told("left out leaf", why, newest, subject=f"{length} {name}")
        return Told("false map", "the map that is signed is not that of the leaves", newest, subject=f"{length}")


def _roots_of(it: SignedCheckpoint) -> str:
    """What a checkpoint says of the leaves."""
    return f"{it.contents.log_length} {it.contents.log_root} {it.contents.map_root}"


class Teller:
    """Prints and sends what a monitor tells. What a kill leaves unmarked comes once more, by the same number."""

    def __init__(self, database: Database, is_json: bool, webhook: str | None) -> None:
        self._database, self._is_json = database, is_json
        self._webhook = None if webhook is None else asking.address_of(webhook, has_query=True)

    def tell(self) -> None:
        """Prints and sends all that is new."""
        for number, text in self._database.untold("printed"):
            print_lines([text if self._is_json else _line_of(text)], has_to_be_read=True)
            self._mark("printed", number)
        if self._webhook is not None:
            for number, text in self._database.untold("sent"):
                if not self._is_sent(text):
                    break
                self._mark("sent", number)

    def _mark(self, way: str, number: int) -> None:
        with self._database.step():
            self._database.is_told(way, number)

    def _is_sent(self, text: str) -> bool:
        assert self._webhook is not None
        try:
            headers = {"Content-Type": "application/json"}
            answer = asking.ask(self._webhook, "", text.encode(), headers, longest=65_536, seconds=30)
        except (NoAnswer, BadAnswer) as error:
            tell(f"weoldrin: the webhook: {error}")
            return False
        if not 200 <= answer.status < 300:
            tell(f"weoldrin: the webhook answers with status {answer.status}")
            return False
        return True


def _line_of(text: str) -> str:
    members = json.loads(text)
    return printable(f"{members['told']}: {members['name']}: {members['sentence']}")


def _followed(database: Database, is_json: bool) -> str:
    """The line of a step."""
    checkpoint = database.trust().checkpoint
    length, root = (0, "none") if checkpoint is None else (checkpoint.contents.log_length, checkpoint.contents.log_root)
    logs, records = database.counts()
    if is_json:
        return json.dumps({"followed": length, "logRoot": root, "logs": logs, "records": records})
    return f"followed {length} {root} logs {logs} records {records}"


def run(asked: argparse.Namespace) -> int:
    """Follows a registry, by one step or for ever."""
    replayer = Replayer(asked.url, asked.seconds, asked.workers)
    with contextlib.closing(Database(asked.database)) as database, contextlib.closing(replayer):
        with database.step():
            database.keep("url", asked.url)
        monitor = Monitor(database, lambda: opened(asked, database.trust()), replayer, asked.most)
        with contextlib.closing(monitor):
            return _run(asked, database, monitor)


def _run(asked: argparse.Namespace, database: Database, monitor: Monitor) -> int:
    teller = Teller(database, asked.json, asked.webhook)
    followed = ""
    while True:
        try:
            is_good, line = _stepped(asked, database, monitor, teller)
            if line != followed:
                print_lines([line])
            followed = line
            if asked.once:
                return 0 if is_good else 1
        except NoAnswer as error:
            if asked.once:
                raise
            tell(f"weoldrin: {error.args[0]}")
        time.sleep(asked.every)


def _stepped(asked: argparse.Namespace, database: Database, monitor: Monitor, teller: Teller) -> tuple[bool, str]:
    """Whether nothing is to be told in a step, and its line."""
    teller.tell()
    was_pinned = asked.operator is not None or database.trust().key is not None
    found = monitor.step()
    teller.tell()
    tell_first_use(database.trust().key, was_pinned)
    if asked.saw is not None:
        _write_saw(database, asked.saw)
    return not found, _followed(database, asked.json)


def _write_saw(database: Database, path: str) -> None:
    """Writes the checkpoints that were seen, a line each."""
    with contextlib.ExitStack() as held:
        beside = trusted.hold(path, held)
        trusted.write(path, beside, "".join(f"{it}\n" for it in database.checkpoints()))
