"""Runs `rt ci`, and checks beside it and behind it, as many side by side as there are processors."""

import asyncio
import contextlib
import os
import pathlib
import re
import signal
import sys
import tempfile
import time
from asyncio.subprocess import DEVNULL, PIPE, Process
from collections.abc import AsyncIterator, Sequence
from typing import IO, Any, NamedTuple

# When a check may begin: one of these, or when `rt ci` has proved the crate that is named.
AT_ONCE, CI_ENDED, LAST = "at once", "when rt ci has ended", "when all else has ended"
# What `rt ci` says of a crate that is proved, and its last line.
PROVED = re.compile(rb"rt: (\w+) (?:proved\n|is kept: )")
COUNTED = re.compile(rb"(\d+) passed, (\d+) failed\n?")
# How long a line of `rt ci` may be, in bytes, and how long what is told to end may take, in seconds.
LONGEST_LINE = 2**24
GRACE = 10
# `rt ci` sets aside two or three times the memory that the check of a crate takes, of which none was seen to take 5 GB,
# and lets processors wait for it. Where there are so many kB for each processor, each gets a job.
MEMORY_OF_A_JOB = 5_000_000
# Files of which one has a number where a control group leaves less than the machine has: not max, -1 or about 2^63.
LIMITS = [
    pathlib.Path("/sys/fs/cgroup", it)
    for it in ("cpu.max", "memory.max", "cpu/cpu.cfs_quota_us", "memory/memory.limit_in_bytes")
]


class Check(NamedTuple):
    """A check: its words, whether it fails unless `rt ci` built the programs, when it may begin, and its niceness."""

    words: str
    needs_programs: bool = False
    begins: str = CI_ENDED
    niceness: int = 0


def jobs_of_ci(meminfo: str, limits: Sequence[pathlib.Path], processors: int) -> dict[str, str]:
    """What the environment of `rt ci` has besides: how many jobs, where each processor can have one."""
    available = re.search(r"^MemAvailable: +(\d+) kB$", meminfo, re.M)
    is_enough = available is not None and int(available[1]) >= MEMORY_OF_A_JOB * processors
    texts = [it.read_text(encoding="utf-8") for it in limits if os.access(it, os.R_OK)]
    is_limited = any(not re.match(r"(max|-1|922337203685)", it, re.M) for it in texts)
    return {"RT_JOBS": str(processors)} if is_enough and not is_limited else {}


@contextlib.asynccontextmanager
async def started(*words: str, **how: Any) -> AsyncIterator[Process]:
    """A process. Where this is left before it ended, as on a signal, it and all that it started are told to end."""
    starting = asyncio.ensure_future(
        asyncio.create_subprocess_exec(*words, stdin=DEVNULL, process_group=0, limit=LONGEST_LINE, **how)
    )
    try:
        # Cancelled meanwhile, the start goes on, so that its process is known below.
        yield await asyncio.shield(starting)
    finally:
        process = await starting
        if process.returncode is None:
            with contextlib.suppress(ProcessLookupError):
                os.killpg(process.pid, signal.SIGTERM)
                try:
                    await asyncio.wait_for(process.wait(), GRACE)
                except TimeoutError:
                    os.killpg(process.pid, signal.SIGKILL)


class Run:
    """A run in the repository's folder, with the programs that `rt ci` has to build: what passed and failed so far."""

    def __init__(self, root: pathlib.Path, programs: Sequence[pathlib.Path], checks: Sequence[Check]) -> None:
        self.root, self.programs, self.checks = root, programs, checks
        self.passed = self.failed = 0
        self.begun = time.monotonic()
        self.processors = len(os.sched_getaffinity(0))
        self.slots = asyncio.Semaphore(self.processors)
        self.happened = {it: asyncio.Event() for it in (CI_ENDED, *(check.begins for check in checks))}

    async def all(self) -> None:
        """Runs all, the last checks when everything else has ended."""
        async with asyncio.TaskGroup() as group:
            group.create_task(self.ci())
            for it in self.checks:
                if it.begins != LAST:
                    group.create_task(self.check(it))
        for it in self.checks:
            if it.begins == LAST:
                await self.check(it)

    async def ci(self) -> None:
        """Runs `rt ci`, and passes on what it prints as it comes."""
        meminfo = pathlib.Path("/proc/meminfo").read_text(encoding="utf-8")
        env = {**os.environ, **jobs_of_ci(meminfo, LIMITS, self.processors)}
        async with started("rt", "ci", cwd=self.root, env=env, stdout=PIPE) as process:
            last = await self.pass_on(process)
            status = await process.wait()
        found = COUNTED.fullmatch(last)
        passed, failed = (int(found[1]), int(found[2])) if found else (0, 1)
        self.passed += passed
        self.failed += max(failed, status != 0)
        for it in self.happened.values():
            it.set()

    async def pass_on(self, process: Process) -> bytes:
        """Prints each line of `rt ci`, lets those begin that waited for it, and gives the last one."""
        assert process.stdout
        last = b""
        async for line in process.stdout:
            sys.stdout.buffer.write(line)
            sys.stdout.flush()
            last = line
            if (found := PROVED.match(line)) and (event := self.happened.get(found[1].decode())):
                event.set()
        return last

    async def check(self, check: Check) -> None:
        """Runs a check when it may begin. What it said is printed when it has ended, but not among the lines of
        `rt ci`."""
        if check.begins != AT_ONCE:
            await self.happened[check.begins].wait()
        with tempfile.TemporaryFile() as said:
            async with self.slots:
                begun = time.monotonic()
                is_passed = await self.passes(check, said)
                seconds = time.monotonic() - begun
            await self.happened[CI_ENDED].wait()
            said.seek(0)
            print(f"== {check.words}", flush=True)
            sys.stdout.buffer.write(said.read())
            sys.stdout.flush()
        if not is_passed:
            print(f"FAILED: {check.words}")
        print(f"took {seconds:.0f} s, from minute {(begun - self.begun) / 60:.1f} on", flush=True)
        self.passed += is_passed
        self.failed += not is_passed

    async def passes(self, check: Check, said: IO[bytes]) -> bool:
        """Runs a check, whose output goes to a file, and whether it passes."""
        lacking = [it.name for it in self.programs if check.needs_programs and not os.access(it, os.X_OK)]
        if lacking:
            said.write(f"not built: {', '.join(lacking)}\n".encode())
            return False
        words = [*(["nice", "-n", str(check.niceness)] if check.niceness else []), *check.words.split()]
        try:
            async with started(*words, cwd=self.root, stdout=said, stderr=said) as process:
                return await process.wait() == 0
        except OSError as error:
            said.write(f"{error}\n".encode())
            return False


def run_all(run: Run) -> int:
    """Runs all, and gives the status: 1 where one failed, or 128 and the number of the signal that ended the run."""
    stopped_by: list[int] = []

    async def main() -> None:
        loop, task = asyncio.get_running_loop(), asyncio.current_task()

        def stop(number: int) -> None:
            stopped_by.append(number)
            if task:
                task.cancel()

        for number in (signal.SIGINT, signal.SIGTERM, signal.SIGHUP):
            loop.add_signal_handler(number, stop, number)
        await run.all()

    try:
        asyncio.run(main())
    except asyncio.CancelledError:
        return 128 + stopped_by[0]
    print(f"{run.passed} passed, {run.failed} failed")
    return 1 if run.failed else 0
