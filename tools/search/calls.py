"""The calls that read inputs, and what a run of one costs."""
import multiprocessing
import os
import pathlib
import resource
import subprocess
import tempfile
from typing import NamedTuple

from common import ROOT
from log_parts import hash_text, key_text
from search.genes import Genes, Inputs
from search.made import made

ID = hash_text(b"")
KEY_ID = hash_text(key_text("alice").encode())

# A call's words, where {0} stands for the file of its first input, and what its inputs are. `audit_program` is the
# program warg_audit, which reads standard input.
CALLS: dict[str, tuple[str, tuple[str, ...]]] = {
    "warg_audit package": ("audit_program package", ("package log",)),
    "warg_audit operator": ("audit_program operator", ("operator log",)),
    "make": ("make package {0} 5000000000.0 --toy --key toy:alice", ("package log",)),
    "latest": ("latest --toy * {0}", ("package log",)),
    "prove checkpoint": ("prove checkpoint {0}", ("leaves",)),
    "prove inclusion": ("prove inclusion 0 {0}", ("leaves",)),
    "prove consistency": ("prove consistency 1 {0}", ("leaves",)),
    "prove head": (f"prove head {ID} {{0}}", ("leaves",)),
    "verify inclusion": (f"verify inclusion {{0}} 0 {ID} {ID} {{1}}", ("checkpoint", "proof")),
    "verify consistency": ("verify consistency {0} {1} {2}", ("checkpoint", "checkpoint", "proof")),
    "verify head": (f"verify head {{0}} {ID} {ID} {{1}}", ("checkpoint", "proof")),
    "verify absence": (f"verify absence {{0}} {ID} {{1}}", ("checkpoint", "proof")),
}
for _kind, _held in (("package", "release"), ("operator", "commit")):
    _log, _state = f"{_kind} log", f"{_kind} state"
    for _words in ("audit", "audit --json", "show", "show --json", "state", "claims", "id"):
        _toy = "" if _words in ("claims", "id") else " --toy"
        CALLS[f"{_words} {_kind}"] = (f"{_words}{_toy} {_kind} {{0}}", (_log,))
    CALLS[f"permissions {_kind}"] = (f"permissions --toy {_kind} {KEY_ID} {{0}}", (_log,))
    CALLS[f"chain {_kind}"] = (f"chain --toy {_kind} {KEY_ID} {_held} {{0}}", (_log,))
    CALLS[f"compare {_kind}"] = (f"compare --toy {_kind} {{0}} {{1}}", (_log, _log))
    CALLS[f"resume {_kind}"] = (f"resume --toy {_kind} {{0}} {os.devnull}", (_state,))
    CALLS[f"resume {_kind} with records"] = (f"resume --toy {_kind} {{0}} {{1}}", (_state, _log))
    CALLS[f"audit {_kind} with claims"] = (f"audit --verified {{1}} {_kind} {{0}}", (_log, "claims"))


class Cost(NamedTuple):
    """What a run took: the exit status, processor time in seconds, the peak of memory in bytes, the bytes of its
    inputs, the bytes that it printed, and the first line of them."""

    status: int
    seconds: float
    memory: int
    given: int
    printed: int
    line: str


def programs() -> dict[str, pathlib.Path]:
    """The programs of the repository's dist/."""
    folder = ROOT / "dist/x86_64-linux"
    return {"audit_program": folder / "warg_audit", "": folder / "weoldrin"}


def run(words: str, files: list[pathlib.Path], limit: int) -> Cost:
    """Runs a call of these words on files. One that takes more processor time than the limit in seconds is ended."""
    first, _, rest = words.partition(" ")
    known = programs()
    command = [str(known[first]), rest] if first in known else [str(known[""]), *words.format(*files).split(" ")]
    with open(files[0] if first in known else os.devnull, "rb") as given, tempfile.TemporaryFile() as printed:
        process = subprocess.Popen(command, stdin=given, stdout=printed, stderr=subprocess.DEVNULL)
        resource.prlimit(process.pid, resource.RLIMIT_CPU, (limit, limit))
        _, status, used = os.wait4(process.pid, 0)
        process.returncode = os.waitstatus_to_exitcode(status)
        written = printed.seek(0, 2)
        printed.seek(0)
        line = printed.readline(200).decode(errors="replace").rstrip("\n")
    size = sum(it.stat().st_size for it in files)
    seconds = used.ru_utime + used.ru_stime
    return Cost(process.returncode, seconds, used.ru_maxrss * 1024, size, written, line)


def write(files: list[pathlib.Path], genes: tuple[Genes, ...], size: int) -> None:
    """Writes inputs of about so many bytes each into the files."""
    for file, it in zip(files, genes, strict=True):
        file.write_bytes(made(it, size))


def cost(inputs: Inputs, size: int, limit: int) -> Cost | None:
    """What the call takes on inputs of about so many bytes each; nothing where they could not be made. A process of its
    own makes them: a program's peak of memory is at least that of the process that starts it."""
    with tempfile.TemporaryDirectory() as room:
        files = [pathlib.Path(room) / f"input{place}" for place in range(len(inputs.genes))]
        maker = multiprocessing.get_context("fork").Process(target=write, args=(files, inputs.genes, size))
        maker.start()
        maker.join()
        return run(CALLS[inputs.call][0], files, limit) if maker.exitcode == 0 else None
