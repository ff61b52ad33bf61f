"""A server of PostgreSQL, for tests."""

import importlib.util
import os
import pathlib
import shutil
import signal
import subprocess
import tempfile
import time
import unittest

# Where Debian has the programs of each version.
BINARIES = sorted(pathlib.Path("/usr/lib/postgresql").glob("*/bin/initdb"))


def check_installed() -> None:
    """Skips what needs PostgreSQL where it is not installed."""
    if not BINARIES or importlib.util.find_spec("psycopg") is None:
        raise unittest.SkipTest("PostgreSQL, or the package psycopg, is not installed")


class Server:
    """A server of PostgreSQL, in a folder of its own, which is made in another one if one is given. It does not run as
    root, so that another user has to."""

    def __init__(self, *options: str, folder: pathlib.Path | None = None) -> None:
        self._options = options
        self._folder = tempfile.TemporaryDirectory(dir=folder)
        self._as_user = [] if os.getuid() else ["setpriv", "--reuid=postgres", "--regid=postgres", "--clear-groups"]
        if self._as_user:
            shutil.chown(self._folder.name, "postgres", "postgres")
        self.data = pathlib.Path(self._folder.name, "data")
        self.process: subprocess.Popen[bytes] | None = None
        self._count = 0

    def begin(self, *words: str) -> None:
        """Makes its data, and starts it."""
        words = ("-D", str(self.data), "-A", "trust", "-U", "weoldrin", "-N", *words)
        subprocess.run([*self._as_user, str(BINARIES[-1]), *words], check=True, capture_output=True, cwd="/")
        self.start()

    def start(self) -> None:
        """Starts it, on the data that it has."""
        options = ["-k", self._folder.name, "-c", "listen_addresses=", "-c", "max_connections=200", *self._options]
        words = [*self._as_user, str(BINARIES[-1].with_name("postgres")), "-D", str(self.data), *options]
        listening = self.data.with_name(".s.PGSQL.5432")
        # One that was killed leaves it behind.
        listening.unlink(missing_ok=True)
        for _ in range(600):
            # It ends where processes of one that was killed have not ended yet.
            if self.process is None or self.process.poll() is not None:
                self.process = subprocess.Popen(words, stderr=subprocess.DEVNULL, cwd="/")
            if listening.exists():
                return
            time.sleep(0.1)
        raise RuntimeError("PostgreSQL did not start")

    def end(self, number: int = signal.SIGINT) -> None:
        """Ends it by a signal. By this one it does not wait for those that are connected; by SIGQUIT it breaks off at
        once, and by SIGKILL so does the one process of it that the others see end."""
        if self.process is not None:
            self.process.send_signal(number)
            self.process.wait(60)

    def stop(self) -> None:
        """Ends it, and removes its folder."""
        self.end()
        self._folder.cleanup()

    def ask(self, query: str, database: str = "postgres") -> None:
        """Has a query done, as soon as it answers."""
        import psycopg

        for trial in range(100):
            try:
                with psycopg.connect(self.address(database), autocommit=True) as connection:
                    connection.execute(query)
                return
            except psycopg.OperationalError:
                if trial == 99:
                    raise
                time.sleep(0.1)

    def address(self, database: str) -> str:
        """The address of a database."""
        return f"postgresql://weoldrin@/{database}?host={self._folder.name}"

    def database(self) -> str:
        """The address of a new database."""
        self._count += 1
        self.ask(f"CREATE DATABASE test{self._count}")
        return self.address(f"test{self._count}")
