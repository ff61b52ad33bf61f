"""Audits all logs of a folder: `python3 many_logs.py FOLDER processes|threads WORKERS`."""

import pathlib
import sys

from weoldrin import LogKind, audit_many, processes


def main() -> int:
    """Runs the words of the command line; the status is 0 where all logs are accepted."""
    folder, way, workers = sys.argv[1:]
    paths = sorted(pathlib.Path(folder).glob("*.hex"))
    if way == "threads":
        verdicts = audit_many(paths, LogKind.PACKAGE, workers=int(workers))
    else:
        with processes(int(workers)) as executor:
            verdicts = audit_many(paths, LogKind.PACKAGE, executor=executor)
    return 0 if all(it.accepted for it in verdicts) else 1


if __name__ == "__main__":
    sys.exit(main())
