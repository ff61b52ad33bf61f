"""Many appenders at one log: what was acknowledged stands in it, once, at the place that was told, and nothing else."""
from __future__ import annotations

import concurrent.futures
import pathlib
import random
import re
import time

from append_trials.trials import Done, Faults, Tool

# What two publishers may take for all their releases, and how long one of them waits at most before it tries again, in
# seconds.
BOUND = 300
PAUSE = 0.02


def publish(tool: Tool, log: pathlib.Path, version: str) -> Done:
    """Makes a record on the log as it stands, and tries to append it once."""
    return tool.append(log, tool.make(log, 1_800_000_000, f"release {version} {version}"))


def publish_until_taken(tool: Tool, log: pathlib.Path, version: str, end: float) -> Done:
    """Tries again while another appender is before this one."""
    while True:
        done = publish(tool, log, version)
        if done.returncode == 0 or time.monotonic() > end:
            return done
        time.sleep(random.uniform(0, PAUSE))


def is_turned_away(done: Done) -> bool:
    """Whether an appender was told that another holds the log, or that another's record came first."""
    if done.returncode == 3:
        return done.stdout == "busy\n"
    return done.returncode == 1 and re.fullmatch(r"refused \d+ RecordHashDoesNotMatch\n", done.stdout) is not None


def check(faults: Faults, what: str, tool: Tool, log: pathlib.Path, answers: dict[str, Done]) -> None:
    """Compares what each appender was told with what the log has."""
    told = {version: done for version, done in answers.items() if done.returncode == 0}
    others = [done for done in answers.values() if done.returncode != 0 and not is_turned_away(done)]
    faults.expect(f"{what}: each is taken or turned away", not others, others[:3])
    audit = tool.run("audit", "package", log, "--toy").stdout.splitlines()
    stand = [line.split()[0] for line in audit[1:]]
    places = {version: done.stdout.split()[1:2] for version, done in told.items()}
    in_order = {version: [str(place)] for place, version in enumerate(stand, 2)}
    faults.expect(
        f"{what}: what was acknowledged stands once, where it was told", places == in_order, (places, audit[:3])
    )
    count = audit[0].split()[1:2] if audit else []
    faults.expect(f"{what}: nothing else stands", count == [str(1 + len(told))], (count, len(told)))


def one_shots(tool: Tool, folder: pathlib.Path, faults: Faults, count: int) -> None:
    """So many appenders that try once, at the same time."""
    log = folder / "log.hex"
    tool.begun(log)
    with concurrent.futures.ThreadPoolExecutor(count) as pool:
        versions = [f"1.0.{number}" for number in range(count)]
        answers = dict(zip(versions, pool.map(lambda it: publish(tool, log, it), versions), strict=True))
    check(faults, f"{count} appenders that try once", tool, log, answers)


def publishers(tool: Tool, folder: pathlib.Path, faults: Faults, count: int) -> None:
    """Two publishers with so many releases each, who try again until each is taken."""
    log = folder / "log.hex"
    tool.begun(log)
    end = time.monotonic() + BOUND

    def releases(major: int) -> list[tuple[str, Done]]:
        versions = [f"{major}.0.{number}" for number in range(count)]
        return [(version, publish_until_taken(tool, log, version, end)) for version in versions]

    with concurrent.futures.ThreadPoolExecutor(2) as pool:
        answers = dict(sum(pool.map(releases, [1, 2]), []))
    what = f"2 publishers of {count} releases"
    check(faults, what, tool, log, answers)
    late = [version for version, done in answers.items() if done.returncode != 0]
    faults.expect(f"{what}: all are taken in time", not late, late[:3])


def crowds(tool: Tool, folder: pathlib.Path, faults: Faults, rounds: int) -> None:
    """So many rounds of both."""
    for number in range(rounds):
        for trial, count in ((one_shots, 200), (publishers, 100)):
            place = folder / f"{trial.__name__}{number}"
            place.mkdir()
            trial(tool, place, faults, count)
