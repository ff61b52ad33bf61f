"""Logs at places of every kind: links, owners, modes, folders, disks, locks, and where the answer goes."""
from __future__ import annotations

import fcntl
import functools
import os
import pathlib
import socket
import stat
import subprocess
import time
from collections.abc import Callable

from append_trials.kills import KILLS, broken, library
from append_trials.trials import Done, Faults, Place, beside

# The limit of a file that is read, in bytes, and a user and a group that are neither root nor own anything here.
LIMIT = 16_777_216
SOMEONE = 54_321


def expect_left(
    faults: Faults, what: str, done: Done, status: int, said: str, log: pathlib.Path, left: str | bytes
) -> None:
    """Nothing is printed, the sentence says why, the log is as it was, and nothing is beside it."""
    good = (done.returncode, done.stdout) == (status, "") and said in done.stderr
    faults.expect(what, good, done)
    seen = log.read_bytes()
    faults.expect(
        f"{what}: the log is as it was", seen == (left if isinstance(left, bytes) else left.encode()), seen[:200]
    )
    faults.expect(f"{what}: nothing is beside it", not beside(log), beside(log))


def expect_added(place: Place, faults: Faults, what: str, done: Done, log: pathlib.Path) -> None:
    """The third record is added."""
    faults.expect(what, done.returncode == 0 and log.read_text(encoding="utf-8") == place.text(3), done)


def links(place: Place, faults: Faults) -> None:
    """A symbolic link is followed and stays; a hard link is refused; a link to nothing is no new log."""
    log = place.log("links")
    (log.parent / "inner").symlink_to("log.hex")
    alias = place.folder / "alias.hex"
    alias.symlink_to(log.parent / "inner")
    expect_added(place, faults, "by links", place.tool.append(alias, place.lines[2]), log)
    faults.expect("the link stays", alias.is_symlink() and (log.parent / "inner").is_symlink(), alias.lstat())
    log = place.log("hard")
    other = place.folder / "other.hex"
    other.hardlink_to(log)
    done = place.tool.append(log, place.lines[2])
    expect_left(faults, "a log with two hard links", done, 2, "it has several hard links", log, place.text(2))
    faults.expect(
        "nothing is made beside a log that is refused",
        [it.name for it in log.parent.iterdir()] == [log.name],
        list(log.parent.iterdir()),
    )
    dead = place.folder / "dead.hex"
    dead.symlink_to(place.folder / "missing" / "log.hex")
    done = place.tool.append(dead, place.text(1))
    faults.expect(
        "a link to nothing", done.returncode == 2 and "leads to no file" in done.stderr and dead.is_symlink(), done
    )


def strange_files(place: Place, faults: Faults) -> None:
    """What is no regular file is refused by name, and so is a folder that is missing."""
    room = place.folder / "strange"
    room.mkdir()
    os.mkfifo(room / "pipe")
    (room / "folder").mkdir()
    with socket.socket(socket.AF_UNIX) as it:
        it.bind(str(room / "socket"))
        for name, said in (("pipe", "no regular file"), ("socket", "no regular file"), ("folder", "it is a folder")):
            done = place.tool.append(room / name, place.text(1))
            faults.expect(
                f"a {name} in place of a log", (done.returncode, done.stdout) == (2, "") and said in done.stderr, done
            )
    for name in ("missing/log.hex", "log.hex/"):
        done = place.tool.append(f"{room}/{name}", place.text(1))
        faults.expect(
            f"{name} in a missing folder",
            (done.returncode, done.stdout) == (2, "") and "folder is missing" in done.stderr,
            done,
        )
    left = sorted(it.name for it in room.iterdir())
    faults.expect("nothing is made beside them", left == ["folder", "pipe", "socket"], left)


def modes(place: Place, faults: Faults) -> None:
    """A log keeps its mode, a new one has that of the user's mask, and one that may not be written is refused."""
    for mode in (0o600, 0o640, 0o664, 0o606):
        log = place.log(f"mode{mode:o}")
        log.chmod(mode)
        expect_added(place, faults, f"of mode {mode:o}", place.tool.append(log, place.lines[2], umask=0o077), log)
        faults.expect(f"mode {mode:o} is kept", stat.S_IMODE(log.stat().st_mode) == mode, oct(log.stat().st_mode))
        lock = log.with_name(".log.hex.lock").stat()
        writers = mode & 0o222
        faults.expect(
            f"the lock of mode {mode:o}", stat.S_IMODE(lock.st_mode) == writers | writers << 1, oct(lock.st_mode)
        )
    for mask, mode in ((0o022, 0o644), (0o027, 0o640), (0o077, 0o600)):
        log = place.folder / f"mask{mask:o}" / "log.hex"
        log.parent.mkdir()
        done = place.tool.append(log, place.text(3), umask=mask)
        expect_added(place, faults, f"a new log under the mask {mask:o}", done, log)
        faults.expect(
            f"its mode under the mask {mask:o}", stat.S_IMODE(log.stat().st_mode) == mode, oct(log.stat().st_mode)
        )
    log = place.log("readonly")
    log.chmod(0o444)
    expect_left(
        faults,
        "a log that no one may write",
        place.tool.append(log, place.lines[2]),
        2,
        "it may not be written",
        log,
        place.text(2),
    )


def new_files(place: Place, faults: Faults) -> None:
    """The new file has the log's mode and owner before it has a byte, and what is left of a kill is in no one's way."""
    preload = library(place.folder / "readonly")
    is_root = os.geteuid() == 0
    log = place.log("from_start")
    log.chmod(0o640)
    if is_root:
        os.chown(log, SOMEONE, SOMEONE)
    calls = broken(place, preload, place.log("counted_new"), 0, KILLS).calls
    seen = []
    for call in range(1, calls + 1):
        broken(place, preload, log, call, KILLS)
        for name in beside(log):
            new = log.with_name(name)
            seen.append(new.stat())
            new.unlink()
        log.write_text(place.text(2), encoding="utf-8")
    faults.expect("a kill leaves the new file", len(seen) > 1, seen)
    faults.expect(
        "no new file is more open than the log",
        all(not it.st_mode & 0o777 & ~0o640 for it in seen),
        [oct(it.st_mode) for it in seen],
    )
    filled = [it for it in seen if it.st_size]
    owners = {(it.st_uid, it.st_gid, stat.S_IMODE(it.st_mode)) for it in filled}
    wanted = (SOMEONE, SOMEONE) if is_root else (os.getuid(), os.getgid())
    faults.expect("a new file with bytes is the log's owner's, with its mode", owners == {(*wanted, 0o640)}, owners)
    log = place.log("names")
    target = log.with_name("target")
    target.write_text("kept", encoding="utf-8")
    for name in ("log.hex.new", ".log.hex.new"):
        log.with_name(name).symlink_to(target)
    expect_added(place, faults, "beside files of others", place.tool.append(log, place.lines[2]), log)
    faults.expect("no link is followed to them", target.read_text(encoding="utf-8") == "kept", target)
    log = place.log("lock_link")
    log.with_name(".log.hex.lock").symlink_to(log.with_name("elsewhere"))
    done = place.tool.append(log, place.lines[2])
    expect_left(faults, "a link in place of the lock", done, 3, "its lock can't be taken", log, place.text(2))


def owners(place: Place, faults: Faults) -> None:
    """The owner and the group are kept, or nothing is changed; root alone can try it."""
    if os.geteuid() != 0:
        print("left out: owners, which root alone can give")
        return
    log = place.log("owner")
    os.chown(log, SOMEONE, SOMEONE + 1)
    expect_added(place, faults, "of another owner", place.tool.append(log, place.lines[2]), log)
    faults.expect(
        "its owner and group are kept", (log.stat().st_uid, log.stat().st_gid) == (SOMEONE, SOMEONE + 1), log.stat()
    )

    def expect_left_by_someone(name: str, status: int, why: str) -> None:
        done = place.tool.append(log, place.lines[2], user=SOMEONE, group=SOMEONE, extra_groups=[])
        expect_left(faults, name, done, status, why, log, place.text(2))

    log = place.log("foreign")
    log.chmod(0o666)
    log.parent.chmod(0o777)
    expect_left_by_someone("another's log, in a folder that all may write", 3, "owner and group can't be kept")
    log.chmod(0o644)
    expect_left_by_someone("another's log that its owner alone may write", 2, "it may not be written")
    log = place.log("closed")
    os.chown(log, SOMEONE, SOMEONE)
    log.parent.chmod(0o555)
    expect_left_by_someone("a log in a folder that may not be written", 3, "its lock can't be taken")
    log.with_name(".log.hex.lock").write_bytes(b"")
    os.chown(log.with_name(".log.hex.lock"), SOMEONE, SOMEONE)
    expect_left_by_someone("the same with its lock there", 3, "it could not be written, and is as it was")


def busy(place: Place, faults: Faults) -> None:
    """Who does not have the lock is told so at once, by whatever name of the log, and who has it is not hurt."""
    log = place.log("busy")
    alias = place.folder / "busy.hex"
    alias.symlink_to(log)
    with open(log.with_name(".log.hex.lock"), "wb") as lock:
        fcntl.flock(lock, fcntl.LOCK_EX)
        for path in (log, alias):
            begun = time.monotonic()
            done = place.tool.append(path, place.lines[2])
            told = (done.returncode, done.stdout) == (3, "busy\n") and "another append is under way" in done.stderr
            faults.expect(f"while another holds {path.name}", told and time.monotonic() - begun < 10, done)
            faults.expect("a log that another holds stays", log.read_text(encoding="utf-8") == place.text(2), log)
        with subprocess.Popen(
            [place.tool.program, "append", "package", log, "--toy"],
            stdin=subprocess.PIPE,
            stdout=subprocess.PIPE,
            text=True,
        ) as waiting:
            fcntl.flock(lock, fcntl.LOCK_UN)
            expect_added(
                place, faults, "while another waits for its lines", place.tool.append(log, place.lines[2]), log
            )
            waiting.communicate(place.lines[3])
            faults.expect(
                "who waited for its lines",
                waiting.returncode == 0 and log.read_text(encoding="utf-8") == place.text(4),
                waiting.returncode,
            )


def limit(place: Place, faults: Faults) -> None:
    """A log may reach the limit of what is read, and not one byte more, unless another limit is given."""
    for over, name in ((0, "at the limit"), (1, "over the limit")):
        log = place.log(f"limit{over}")
        room = LIMIT - len(place.text(3)) + over
        text = "#" * (room - 1) + "\n" + place.text(2)
        log.write_text(text, encoding="utf-8")
        done = place.tool.append(log, place.lines[2])
        if over:
            expect_left(faults, name, done, 2, "more bytes than the limit", log, text)
            more = ["--limit", str(LIMIT + 1)]
            done = place.tool.run("append", "package", log, "--toy", *more, given=place.lines[2])
            faults.expect("past the usual limit", done.returncode == 0 and log.stat().st_size == LIMIT + 1, done)
            audits: list[tuple[list[str], int]] = [(more, 0), ([], 2)]
            for words, status in audits:
                done = place.tool.run("audit", "package", log, "--toy", *words)
                faults.expect(f"past the usual limit: audit {words}", done.returncode == status, done)
        else:
            faults.expect(name, done.returncode == 0 and log.stat().st_size == LIMIT, done)
            faults.expect(f"{name}: it is read", place.tool.run("audit", "package", log, "--toy").returncode == 0, log)


def close(streams: list[int]) -> None:
    """Closes these."""
    for it in streams:
        os.close(it)


def outputs(place: Place, faults: Faults) -> None:
    """Where the answer can't be written, standard error says that the record stands; a reader that went away is no
    trouble."""

    def answered(name: str, output: int | None, before: Callable[[], None] | None = None) -> tuple[pathlib.Path, Done]:
        log = place.log(name)
        return log, subprocess.run(
            [place.tool.program, "append", "package", log, "--toy"],
            input=place.lines[2],
            text=True,
            stdout=output,
            stderr=subprocess.PIPE,
            check=False,
            preexec_fn=before,
            timeout=60,
        )

    with open("/dev/full", "wb") as full:
        log, done = answered("full", full.fileno())
    expect_stands = done.returncode == 3 and "stand in the log's file" in done.stderr
    faults.expect("an answer to a full disk", expect_stands and log.read_text(encoding="utf-8") == place.text(3), done)
    for name, closed in (("stdout_closed", [1]), ("both_closed", [0, 1]), ("all_closed", [0, 1, 2])):
        log, done = answered(name, None, functools.partial(close, closed))
        if 0 in closed:
            faults.expect(
                f"standard streams {closed} closed",
                done.returncode == 3 and log.read_text(encoding="utf-8") == place.text(2),
                done,
            )
        else:
            stands = done.returncode == 3 and "stand in the log's file" in done.stderr
            faults.expect("standard output closed", stands and log.read_text(encoding="utf-8") == place.text(3), done)
            faults.expect("the answer is in no file", log.with_name(".log.hex.lock").read_bytes() == b"", log)
    reads, writes = os.pipe()
    os.close(reads)
    log, done = answered("gone", writes)
    faults.expect("a reader that went away", (done.returncode, done.stderr) == (0, ""), done)
    faults.expect("the record stands", log.read_text(encoding="utf-8") == place.text(3), log)
    audits_without_reader(place, faults, writes)
    os.close(writes)


def audits_without_reader(place: Place, faults: Faults, writes: int) -> None:
    """Audits that print to a pipe without a reader."""
    for text, status in ((place.text(3), 0), (place.text(1) + place.lines[2], 1)):
        audit = [str(place.tool.program), "audit", "package", "--toy"]
        audited = subprocess.run(
            audit, input=text, text=True, stdout=writes, stderr=subprocess.PIPE, check=False, timeout=60
        )
        faults.expect(
            f"an audit of status {status} whose reader went away",
            audited.returncode == status and "output" not in audited.stderr,
            audited,
        )


def full_disk(place: Place, faults: Faults) -> None:
    """A disk with no room for the new file, where a small one can be mounted."""
    disk = place.folder / "disk"
    disk.mkdir()
    mounted = subprocess.run(
        ["mount", "-t", "tmpfs", "-o", "size=64k", "tmpfs", disk], capture_output=True, check=False
    )
    if mounted.returncode != 0:
        print("left out: a full disk, for want of the leave to mount one")
        return
    try:
        log, room = disk / "log.hex", disk / "room"
        log.write_text(place.text(2), encoding="utf-8")
        (disk / ".log.hex.lock").touch()
        try:
            room.write_bytes(bytes(1 << 20))
        except OSError:
            pass
        done = place.tool.append(log, place.lines[2])
        good = (done.returncode, done.stdout) == (3, "") and "it could not be written, and is as it was" in done.stderr
        faults.expect("a full disk", good and log.read_text(encoding="utf-8") == place.text(2), done)
        faults.expect("nothing is left on it", beside(log) == ["room"], beside(log))
        room.unlink()
        expect_added(place, faults, "once there is room", place.tool.append(log, place.lines[2]), log)
    finally:
        subprocess.run(["umount", disk], check=False)


def news(place: Place, faults: Faults) -> None:
    """The answer has what the record added, and nothing of what stood before."""
    log = place.log("news")
    told = place.tool.append(log, place.lines[2]).stdout.splitlines()
    faults.expect(
        "one release", len(told) == 2 and told[0].startswith("ok 3 ") and told[1].startswith("1.1.0 released "), told
    )
    told = place.tool.append(log, place.tool.make(log, 1_800_000_000, "yank 1.0.0")).stdout.splitlines()
    faults.expect("a yank", len(told) == 2 and told[1] == "1.0.0 yanked", told)
    told = place.tool.append(log, place.tool.make(log, 1_800_000_001, "grant bob release")).stdout.splitlines()
    faults.expect("no release", len(told) == 1 and told[0].startswith("ok 5 "), told)
    for lines in ("", "# nothing yet\n"):
        before, new = log.read_bytes(), log.with_name("new.hex")
        done = place.tool.append(log, lines)
        faults.expect(
            "no record", (done.returncode, done.stdout) == (1, "empty\n") and log.read_bytes() == before, done
        )
        done = place.tool.append(new, lines)
        faults.expect(
            "no log of no record",
            (done.returncode, done.stdout) == (1, "empty\n") and beside(log) == [],
            (done, beside(log)),
        )


PLACES = [links, strange_files, modes, new_files, owners, busy, limit, outputs, full_disk, news]
