"""Serves the page, or a copy of it with edits."""
import os
import pathlib
import shutil
import subprocess
import tempfile

ROOT = pathlib.Path(__file__).resolve().parents[2]
# Another file of the library than that of dist/.
LIBRARY = os.environ.get("WEOLDRIN_LIBRARY")
# What the page and its server are made of.
PARTS = ("web/index.html", "web/style.css", "web/src", "bindings/js/src", "dist/wasm", "examples")
TOOLS = ("web", "web_page.py", "common.py")
# A file, a text that stands once in it, and what stands there in its place.
Edit = tuple[str, str, str]


class Tested:
    """Whose page is tested: that of this repository, or a copy of it with a wrong edit."""

    root = ROOT


class Served:
    """A server of the page, until it is closed."""

    def __init__(self, root: pathlib.Path | None = None) -> None:
        words = [str((root or Tested.root) / "tools/web"), "--no-browser"]
        if LIBRARY:
            words += ["--library", LIBRARY]
        self.process = subprocess.Popen(words, stdout=subprocess.PIPE, text=True)
        assert self.process.stdout
        self.address = self.process.stdout.readline().split()[4]

    def close(self) -> None:
        """Ends the server."""
        self.process.terminate()
        self.process.wait()
        assert self.process.stdout
        self.process.stdout.close()


def copied(to: pathlib.Path, edits: list[Edit]) -> None:
    """Lays a copy of the page into a folder, with these edits."""
    root = Tested.root
    for part in PARTS:
        (to / part).parent.mkdir(parents=True, exist_ok=True)
        if (root / part).is_dir():
            shutil.copytree(root / part, to / part)
        else:
            shutil.copy(root / part, to / part)
    (to / "tools").mkdir()
    for name in TOOLS:
        shutil.copy(root / "tools" / name, to / "tools")
    for name, old, new in edits:
        file = to / name
        text = file.read_text(encoding="utf-8")
        if text.count(old) != 1:
            raise ValueError(f"{name} has not once {old}")
        file.write_text(text.replace(old, new), encoding="utf-8")


class Edited(Served):
    """A server of a copy with edits, which goes when it is closed."""

    def __init__(self, *edits: Edit) -> None:
        self.folder = tempfile.TemporaryDirectory(prefix="weoldrin-")
        root = pathlib.Path(self.folder.name)
        copied(root, list(edits))
        super().__init__(root)

    def close(self) -> None:
        super().close()
        self.folder.cleanup()
