"""`weoldrin lock URL REQUIREMENTS` and `weoldrin check URL FILE`: the versions that meet requirements, bound to a
signed checkpoint, and whether they stand later."""

import argparse
import contextlib
import json
from typing import Any, NamedTuple

from ..checkpoints import SignedCheckpoint
from ..errors import BadArgument
from ..logs import PackageLog
from ..printing import print_lines, printable
from . import trust as trusted
from .fetch import check_name, opened, tell_first_use
from .packages import Package, package
from .told import NoPackage, Unusable
from .trust import Trust, is_hash

_WHAT = "file of locked versions"


class Requirement(NamedTuple):
    """What is required of a package."""

    name: str
    text: str


class Locked(NamedTuple):
    """A release that is locked. The head of its log, and where that stands, is in what is trusted."""

    requirement: str
    version: str
    content: str
    record: str
    """The id of the record that released it."""
    log: str


def requirements_in(path: str) -> list[Requirement]:
    """The requirements in a file, a line each: a name, and a requirement of versions. Comments begin with `#`."""
    text = trusted.read_text(path, "file of requirements")
    if text is None:
        raise Unusable(f"{path}: there is no such file")
    found: dict[str, Requirement] = {}
    for number, line in enumerate(text.split("\n"), 1):
        name, _, rest = line.strip().partition(" ")
        if not name or name.startswith("#"):
            continue
        try:
            check_name(name)
            _check_requirement(rest.strip())
        except (Unusable, BadArgument) as error:
            raise Unusable(f"{path}:{number}: {error}") from None
        if name in found:
            raise Unusable(f"{path}:{number}: {name} is required twice")
        found[name] = Requirement(name, rest.strip())
    if not found:
        raise Unusable(f"{path}: it requires nothing")
    return list(found.values())


def _check_requirement(text: str) -> None:
    with PackageLog() as none:
        none.latest(text)


def to_json(trust: Trust, releases: dict[str, Locked]) -> str:
    """The text of a file of locked versions."""
    members = json.loads(trust.to_json())
    # The operator log is fetched anew: its state would be most of the file.
    members["operator"]["state"] = None
    members["packages"] = {name: it._asdict() for name, it in sorted(releases.items())}
    return json.dumps(members, indent=1) + "\n"


def from_json(path: str) -> tuple[Trust, dict[str, Locked]]:
    """What a file of locked versions says. Raises `Unusable` where it says anything else."""
    text = trusted.read_text(path, _WHAT)
    if text is None:
        raise Unusable(f"{path}: there is no such file")
    try:
        members = json.loads(text)
        packages = {name: _locked(it) for name, it in members.pop("packages").items()}
        trust = Trust.from_json(json.dumps(members))
        if not packages or trust.checkpoint is None or {it.log for it in packages.values()} != set(trust.logs):
            raise ValueError
        for name in packages:
            check_name(name)
    except (ValueError, TypeError, KeyError, AttributeError, RecursionError, Unusable):
        raise Unusable(f"{path}: it is no {_WHAT}") from None
    return trust, packages


def _locked(value: dict[str, Any]) -> Locked:
    it = Locked(**value)
    if not all(isinstance(text, str) for text in it) or not all(map(is_hash, (it.content, it.record, it.log))):
        raise ValueError
    return it


def _chosen(found: Package, wanted: Requirement) -> Locked | None:
    release = found.log.latest(wanted.text)
    if release is None or release.content is None:
        return None
    return Locked(wanted.text, release.version, release.content, release.record_id, found.log_id)


def run_lock(asked: argparse.Namespace) -> int:
    """Writes the file of locked versions, and prints a line each."""
    wanted = requirements_in(asked.requirements)
    with contextlib.ExitStack() as held:
        beside = None if asked.trust is None else trusted.hold(asked.trust, held)
        trust = Trust() if asked.trust is None else trusted.read_trust(asked.trust)
        out = trusted.hold(asked.out, held)
        follower = opened(asked, trust)
        was_pinned = trust.key is not None
        locked, lines = {}, []
        for it in wanted:
            try:
                release = _chosen(package(follower, it.name), it)
            except NoPackage:
                release = None
            lines.append(f"{it.name} {release.version} {release.content}" if release else f"{it.name} none")
            if release:
                locked[it.name] = release
        is_whole = len(locked) == len(wanted)
        if is_whole:
            logs = {it.log: trust.logs[it.log] for it in locked.values()}
            of_file = Trust(trust.key, trust.operator, None, trust.checkpoint, logs)
            trusted.write(asked.out, out, to_json(of_file, locked))
        if beside is not None:
            trusted.write(asked.trust, beside, trust.to_json())
        tell_first_use(trust.key, was_pinned)
    print_lines(map(printable, lines))
    return 0 if is_whole else 1


def run_check(asked: argparse.Namespace) -> int:
    """Prints of each locked version whether it stands."""
    trust, releases = from_json(asked.file)
    follower = opened(asked, trust)
    lines, status = [], 0
    for name, it in sorted(releases.items()):
        found = package(follower, name)
        if found.log_id != it.log:
            raise Unusable(f"{asked.file}: it is no {_WHAT}: {it.log} is not the log of {name}")
        verdict = _standing(found, it)
        status |= verdict != "ok"
        lines.append(f"{name} {it.version} {verdict} {found.seen.count} {found.seen.head}")
    newest: SignedCheckpoint | None = trust.checkpoint
    lines.append(f"under {newest.contents.log_length} {newest.contents.log_root}" if newest else "")
    print_lines(map(printable, lines))
    return status


def _standing(found: Package, it: Locked) -> str:
    """What became of a locked release in a log that goes on from the one that it was locked in."""
    release = found.log.release(it.version)
    if release is None or release.record_id != it.record:
        return "other"
    if release.yanked:
        return "yanked"
    return "ok" if release.content == it.content else "other"
