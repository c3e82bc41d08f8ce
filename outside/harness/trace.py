"""Reads the hits of a run, as the supervisor notes them."""

import itertools
from pathlib import Path

MOST_HITS = 65536  # an answer may have so many hits
SHORTEST = 40  # the fewest bytes that a line has
# In the folder of a run's notes: for each hit its number, and how long the notes and the output were. The supervisor writes to it only if it is there.
MARKS = "marks"
Marks = list[tuple[int, int]]  # for each hit its number, and how long the output was when it began


def trace_of(run: Path) -> list[list[str]]:
    """The columns of each hit: number, point, which hit of it, task, file, process, flags, result. At most one hit more than allowed is read."""
    with open(run / "trace", encoding="utf-8", errors="surrogateescape", newline="\n") as lines:
        return [line.removesuffix("\n").split("\t") for line in itertools.islice(lines, MOST_HITS + 1)]


def marks_of(run: Path) -> Marks:
    lines = [line.split("\t") for line in (run / MARKS).read_text().splitlines()]
    return [(int(number), int(length)) for number, _, length in lines]


def length_of(path: Path) -> int:
    """The bytes of a file, or 0 if there is none."""
    try:
        return path.stat().st_size
    except FileNotFoundError:
        return 0


def hits_too_often(run: Path) -> bool:
    path = run / "trace"
    if length_of(path) <= MOST_HITS * SHORTEST:
        return False
    with open(path, "rb") as lines:
        return sum(1 for _ in itertools.islice(lines, MOST_HITS + 1)) > MOST_HITS
