"""The climb to the inputs that cost the most for each of their bytes."""
import multiprocessing
import os
import pathlib
import random
import sys
import time
from collections.abc import Callable, Iterable, Iterator, Sequence
from concurrent.futures import ProcessPoolExecutor

from search.calls import CALLS, Cost, cost
from search.genes import Inputs, any_genes, inputs_of, varied

# What a search of an hour found, and more that is known: the genes of an input in each line.
FOUND = pathlib.Path(__file__).with_name("found.txt")

# The inputs of the climb, the inputs that its table is of (both in bytes), and after how many seconds of a processor a
# run is ended.
SIZE = 2**19
FULL = 2**24
LIMIT = 200

# What a run takes whatever it reads.
START_SECONDS = 0.002
START_MEMORY = 2**22

# What a climb is by: of a run, how much it takes for each byte that it is given.
Height = Callable[[Cost], float]
HEIGHTS: dict[str, Height] = {
    "time": lambda it: max(0.0, it.seconds - START_SECONDS) / it.given,
    "memory": lambda it: max(0, it.memory - START_MEMORY) / it.given,
}


class Climb:
    """The costliest input that was found of a call, by one of the measures."""

    def __init__(self, call: str, measure: str) -> None:
        self.call = call
        self.measure = measure
        self.best: Inputs | None = None
        self.reached = 0.0

    def next(self, draw: random.Random) -> Inputs:
        """Inputs to try: near the best ones, or others altogether."""
        formats = CALLS[self.call][1]
        if self.best is None or draw.random() < 0.2:
            return Inputs(self.call, tuple(any_genes(draw, it) for it in formats))
        place = draw.randrange(len(formats))
        kept = self.best.genes
        return Inputs(self.call, (*kept[:place], varied(draw, kept[place]), *kept[place + 1:]))

    def tried(self, inputs: Inputs, found: Cost) -> bool:
        """Takes the inputs where they cost more, and says whether they do."""
        height = HEIGHTS[self.measure](found)
        if height <= self.reached * 1.02:
            return False
        self.best, self.reached = inputs, height
        return True


def climbs(calls: Iterable[str]) -> Iterator[Climb]:
    for call in calls:
        for measure in HEIGHTS:
            yield Climb(call, measure)


def step(every: list[Climb], draw: random.Random) -> None:
    """Tries one more input of one call. What costs more by the other measure is taken by that one's climb too."""
    climb = draw.choice(every)
    inputs = climb.next(draw)
    found = cost(inputs, SIZE, LIMIT)
    if found is not None and found.given:
        for it in every:
            if it.call == climb.call:
                it.tried(inputs, found)


def row(inputs: Inputs, found: Cost) -> str:
    """The row of a table: the call, the first line that it printed, what it took, and the line that repeats it."""
    given = found.given / 2**20
    ended = "ended" if found.status < 0 else f"`{found.line[:60]}`"
    told = f"{found.seconds:.2f} s | {found.memory / 2**20:.0f} MiB | {found.memory / found.given:.1f}"
    return f"| {inputs.call} | {given:.1f} MiB | {ended} | {told} | `{inputs.text()}` |"


HEAD = "| Call | Inputs | Printed | Time | Memory | Bytes a byte | Genes |\n|---|---|---|---|---|---|---|"


def found_rows(every: list[Climb], count: int) -> Iterator[tuple[Inputs, Cost]]:
    """The costliest inputs of each measure, made as long as they may be."""
    seen = set()
    for measure in HEIGHTS:
        ranked = sorted((it for it in every if it.best and it.measure == measure), key=lambda it: -it.reached)
        for it in ranked[:count]:
            if it.best and it.best.text() not in seen:
                seen.add(it.best.text())
                found = cost(it.best, FULL, LIMIT)
                if found:
                    yield it.best, found


def climbed(calls: Sequence[str], seed: int, seconds: float) -> tuple[int, list[Climb]]:
    """How many inputs of these calls were tried in so long, and the climbs."""
    draw, every, end, tries = random.Random(seed), list(climbs(calls)), time.monotonic() + seconds, 0
    while time.monotonic() < end:
        step(every, draw)
        tries += 1
    return tries, every


def search(seconds: float, seed: int, count: int) -> None:
    """Climbs for so long, each processor to inputs of other calls, and prints a table of the worst that were found."""
    calls, workers = list(CALLS), os.cpu_count() or 1
    with ProcessPoolExecutor(workers, mp_context=multiprocessing.get_context("fork")) as pool:
        tasks = [pool.submit(climbed, calls[it::workers], seed + it, seconds) for it in range(workers)]
        found = [it.result() for it in tasks]
    tries = sum(it for it, _ in found)
    print(f"{tries} inputs of {SIZE >> 10} KiB were tried by {workers} processors, from seed {seed}", file=sys.stderr)
    print(HEAD, flush=True)
    for inputs, it in found_rows([climb for _, every in found for climb in every], count):
        print(row(inputs, it), flush=True)


def repeat(lines: list[str]) -> None:
    """Prints the rows of the inputs that the lines say, made as long as they may be."""
    print(HEAD, flush=True)
    for inputs in map(inputs_of, lines):
        found = cost(inputs, FULL, LIMIT)
        if found is not None:
            print(row(inputs, found), flush=True)
