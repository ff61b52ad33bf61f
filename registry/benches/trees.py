"""How long the trees over a registry's leaves take: by a push for each leaf, and made anew of all at once.

    python3 benches/trees.py [--leaves 20000] [--logs 100]

with the packages installed. The leaves are of logs in turn. Both are done three times, and the shortest times of a
processor are told, which other programs do not lengthen much.
"""

import argparse
import hashlib
import time
from collections.abc import Callable

from weoldrin import RegistryTrees, saved_leaves


def id_of(name: str) -> str:
    """The text of the digest of a name."""
    return f"sha256:{hashlib.sha256(name.encode()).hexdigest()}"


def pushed(leaves: list[tuple[str, str]]) -> RegistryTrees:
    """The trees to which leaves are pushed."""
    trees = RegistryTrees()
    trees.push_all(leaves)
    return trees


def made(leaves: list[tuple[str, str]]) -> RegistryTrees:
    """The trees that are made of the same leaves."""
    return RegistryTrees.from_bytes(saved_leaves(leaves))


def seconds_of(make: Callable[[list[tuple[str, str]]], RegistryTrees], leaves: list[tuple[str, str]]) -> float:
    """How long a processor takes to make trees."""
    began = time.process_time()
    with make(leaves):
        return time.process_time() - began


def main() -> None:
    """Measures both."""
    parser = argparse.ArgumentParser(description=__doc__, formatter_class=argparse.RawDescriptionHelpFormatter)
    parser.add_argument("--leaves", type=int, default=20_000)
    parser.add_argument("--logs", type=int, default=100)
    asked = parser.parse_args()
    leaves = [(id_of(f"log {it % asked.logs}"), id_of(f"record {it}")) for it in range(asked.leaves)]
    with pushed(leaves) as left, made(leaves) as right:
        assert left.checkpoint(0) == right.checkpoint(0)
    for name, make in (("pushed", pushed), ("made anew", made)):
        seconds = min(seconds_of(make, leaves) for _ in range(3))
        print(f"{asked.leaves} leaves of {asked.logs} logs {name}: {seconds:.2f} s")


if __name__ == "__main__":
    main()
