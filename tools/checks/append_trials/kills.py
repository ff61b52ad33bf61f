"""The program is killed, or a call of it fails, at each step of an append. The log has to be the old one or the new
one, whole."""
from __future__ import annotations

import collections
import os
import pathlib
import re
import shutil
import signal
import subprocess
import time
from typing import NamedTuple

from append_trials.trials import Done, Faults, Place, beside
from common import ROOT

# What the calls of fault_file_calls.c do, by the number in BREAK_FAILS.
KILLS, FAILS, STOPS = "0", "1", "2"


class Broken(NamedTuple):
    """An append of which a call was broken, and how many could be."""

    done: Done
    calls: int


def library(folder: pathlib.Path) -> pathlib.Path:
    """tools/checks/fault_file_calls.c, compiled."""
    built = folder / "fault_file_calls.so"
    subprocess.run(
        ["cc", "-Wall", "-Wextra", "-shared", "-fPIC", "-o", built, ROOT / "tools/checks/fault_file_calls.c", "-ldl"],
        check=True,
    )
    return built


def broken(place: Place, preload: pathlib.Path, log: pathlib.Path, call: int, way: str) -> Broken:
    """Appends the third record, of which this call is broken; call 0 is none."""
    reads, writes = os.pipe()
    with os.fdopen(reads, "rb") as counted:
        kept = {**os.environ, "LD_PRELOAD": str(preload), "BROKEN": str(writes), "BREAK": str(call), "BREAK_FAILS": way}
        done = place.tool.append(log, place.lines[2], pass_fds=[writes], env=kept)
        os.close(writes)
        return Broken(done, len(counted.read()))


def expect_whole(place: Place, faults: Faults, what: str, log: pathlib.Path, done: Done) -> None:
    """The log is whole after a broken append, what was said of it is true, and the next append does its work."""
    left = log.read_text(encoding="utf-8")
    count = {place.text(2): 2, place.text(3): 3}.get(left)
    faults.expect(f"{what}: the log is the old one or the new one", count is not None, (left, done))
    if count is None:
        return
    stands = done.returncode == 0 or "stand in" in done.stderr
    if done.returncode >= 0:
        faults.expect(f"{what}: what is said is true", stands == (count == 3), (count, done))
        faults.expect(f"{what}: nothing is left beside", not beside(log), beside(log))
    again = place.tool.append(log, place.lines[count])
    faults.expect(
        f"{what}: the next append",
        again.returncode == 0 and log.read_text(encoding="utf-8") == place.text(count + 1),
        again,
    )


def broken_calls(place: Place, faults: Faults) -> None:
    """Each call of the C library by which a log is replaced: the program is killed there, and then the call fails."""
    preload = library(place.folder)
    whole = broken(place, preload, place.log("unbroken"), 0, KILLS)
    faults.expect("an append with no call broken", whole.done.returncode == 0 and whole.calls > 10, whole)
    for way, name in ((KILLS, "killed at"), (FAILS, "failed")):
        for call in range(1, whole.calls + 1):
            log = place.log(f"call{call}-{way}")
            done = broken(place, preload, log, call, way).done
            if way == KILLS:
                faults.expect(f"killed at call {call}", done.returncode == -signal.SIGKILL, done)
            expect_whole(place, faults, f"{name} call {call}", log, done)
    print(f"{whole.calls} calls of the C library, each broken twice")


def paused(place: Place, faults: Faults) -> None:
    """While an append is stopped at any of its steps, another one is told so at once, or is done before it; a killed
    one holds nothing."""
    preload = library(place.folder / "unbroken")
    calls = broken(place, preload, place.log("counted"), 0, KILLS).calls
    for call in range(1, calls + 1):
        log = place.log(f"stop{call}")
        kept = {**os.environ, "LD_PRELOAD": str(preload), "BROKEN": "2", "BREAK": str(call), "BREAK_FAILS": STOPS}
        words = [str(place.tool.program), "append", "package", str(log), "--toy"]
        with subprocess.Popen(
            words, stdin=subprocess.PIPE, stdout=subprocess.PIPE, stderr=subprocess.DEVNULL, text=True, env=kept
        ) as first:
            assert first.stdin is not None
            first.stdin.write(place.lines[2])
            first.stdin.close()
            _, status = os.waitpid(first.pid, os.WUNTRACED)
            faults.expect(f"stopped at call {call}", os.WIFSTOPPED(status), status)
            begun = time.monotonic()
            second = place.tool.append(log, place.lines[2])
            faults.expect(
                f"an append beside one that is stopped at call {call} waits for nothing",
                time.monotonic() - begun < 10,
                second,
            )
            told = (second.returncode, second.stdout) == (3, "busy\n") or second.returncode in (0, 1)
            faults.expect(f"an append beside one that is stopped at call {call}", told, second)
            first.kill()
            first.stdin = None
        count = 3 if second.returncode == 0 else len(log.read_text(encoding="utf-8").splitlines())
        again = place.tool.append(log, place.lines[count])
        good = again.returncode == 0 and log.read_text(encoding="utf-8") == place.text(count + 1)
        faults.expect(f"an append after one that was killed at call {call}", good, (second, again))


def killed_everywhere(place: Place, faults: Faults) -> None:
    """Each call of the system, by strace."""
    strace = shutil.which("strace")
    traced = place.folder / "traced"
    words = [str(place.tool.program), "append", "package", str(place.log("strace")), "--toy"]
    tried = strace and subprocess.run(
        [strace, "-qq", "-o", traced, *words],
        input=place.lines[2],
        text=True,
        capture_output=True,
        check=False,
        timeout=60,
    )
    if not strace or not tried or tried.returncode != 0:
        print("left out: a kill at each call of the system, for want of strace, or of the leave to trace")
        return
    names = re.findall(r"^(\w+)\(", traced.read_text(encoding="utf-8"), re.M)
    calls = [(name, place_of) for name, count in collections.Counter(names).items() for place_of in range(1, count + 1)]
    for name, when in calls:
        if name in ("execve", "exit_group"):
            continue
        log = place.log(f"{name}{when}")
        kill = [strace, "-qq", "-o", os.devnull, "-e", f"trace={name}", "-e", f"inject={name}:signal=KILL:when={when}"]
        done = subprocess.run(
            [*kill, place.tool.program, "append", "package", log, "--toy"],
            input=place.lines[2],
            text=True,
            capture_output=True,
            check=False,
            timeout=60,
        )
        expect_whole(place, faults, f"killed at {name} {when}", log, done)
    print(f"{len(calls)} calls of the system, killed at each")
