"""Debian's packages for 64-bit ARM, laid out in a folder of the tests' own. Nothing is installed on this machine."""

import functools
import pathlib
import platform
import subprocess

MIRROR = "http://deb.debian.org"
KEYS = "/usr/share/keyrings/debian-archive-keyring.gpg"


def sources() -> str:
    """Where the packages of this machine's release are; empty where it is none of Debian."""
    try:
        release = platform.freedesktop_os_release()
    except OSError:
        return ""
    name = release.get("VERSION_CODENAME", "")
    if release["ID"] != "debian" or not name:
        return ""
    parts = [f"debian {name}", f"debian {name}-updates", f"debian-security {name}-security"]
    return "".join(f"deb [signed-by={KEYS}] {MIRROR}/{it} main\n" for it in parts)


class Packages:
    """What apt knows of the packages for 64-bit ARM and for x86-64, with all that it keeps in a folder."""

    def __init__(self, folder: pathlib.Path) -> None:
        self.folder = folder
        (folder / "state/lists/partial").mkdir(parents=True)
        (folder / "cache").mkdir()
        (folder / "status").touch()
        (folder / "sources.list").write_text(sources(), encoding="utf-8")
        settings = {
            "Dir::State": folder / "state",
            "Dir::State::status": folder / "status",
            "Dir::Cache": folder / "cache",
            "Dir::Etc::sourcelist": folder / "sources.list",
            "Dir::Etc::sourceparts": "/dev/null",
            "APT::Architecture": "arm64",
            # Who runs apt may be the only one who reaches the folder.
            "APT::Sandbox::User": "root",
            "Acquire::Languages": "none",
            "Acquire::http::Timeout": "20",
        }
        said = [f"{name}={it}" for name, it in settings.items()]
        said += [f"APT::Architectures::={it}" for it in ("arm64", "amd64")]
        self.words = ["apt-get", "-q", *(word for it in said for word in ("-o", it))]

    @functools.cached_property
    def are_there(self) -> bool:
        """Whether the mirror says which packages there are."""
        return bool(sources()) and self._runs([*self.words, "-o", "APT::Update::Error-Mode=any", "update"])

    def _runs(self, words: list[str]) -> bool:
        try:
            done = subprocess.run(words, cwd=self.folder, capture_output=True, check=False, timeout=120)
        except (OSError, subprocess.TimeoutExpired):
            return False
        return done.returncode == 0

    def lay_out(self, to: pathlib.Path, names: list[str]) -> bool:
        """Lays packages out in a folder, each as `NAME` for ARM or as `NAME:amd64`. Says whether they could be had."""
        before = set(self.folder.glob("*.deb"))
        if not self.are_there or not self._runs([*self.words, "download", *names]):
            return False
        return all(self._runs(["dpkg-deb", "-x", str(it), str(to)]) for it in {*self.folder.glob("*.deb")} - before)
