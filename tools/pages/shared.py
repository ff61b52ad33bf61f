"""What the modules of this package share: the repository's root, its crates in order, and how a page is written.

All that the package takes from the other tools is imported here.
"""
from common import ROOT, argument_parser, dependencies

__all__ = ["ROOT", "crates_below", "dependencies", "argument_parser", "write_or_compare"]


def crates_below() -> list[str]:
    """The crates in the order of crates.txt, in which definitions rest on those of crates before theirs."""
    lines = (ROOT / "crates.txt").read_text(encoding="utf-8").splitlines()
    return [line.partition(":")[0].split()[0] for line in lines if line and not line.startswith("#")]


def write_or_compare(name: str, text: str, is_compared: bool) -> int:
    """Writes a page that a tool makes, or compares it with what stands there. The result is the tool's exit status."""
    path = ROOT / name
    if not is_compared:
        path.write_text(text, encoding="utf-8")
    elif not path.is_file() or path.read_text(encoding="utf-8") != text:
        print(f"{name} is not what its tool writes: run that, and read what has changed")
        return 1
    return 0
