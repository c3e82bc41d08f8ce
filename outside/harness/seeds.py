"""Workloads that a harness draws, each from a seed of its own. Each is a campaign, in a folder of its own beside the others."""

from collections.abc import Callable
from pathlib import Path

from . import tree
from .answers import DIFFERS, Stopped
from .definition import Harness
from .operations import text_of
from .shown import GREEN, RED, show, so_many

OF_ONE = ("--failing", "--shard", "--join")  # options that go by the scenarios of one campaign
FOLDER = "seed-"  # and the seed
WORKLOAD = "workload"  # in it: the operations that were drawn, as a harness may have them


def refuse(options: dict[str, str]) -> None:
    for word in OF_ONE:
        if word in options:
            raise Stopped(f"{word} goes by scenarios, which mean nothing without their workload: put the file `{WORKLOAD}` of a seed into a harness of its own")
    if {"--try", "--workloads"} <= options.keys():
        raise Stopped("--try is of one workload: name its seed by --seed")


def folder_of(harness: Harness, into: Path) -> Path:
    """Where a campaign writes. It has a folder for each seed."""
    return into / f"{FOLDER}{harness.seed}" if harness.seed else into


def write_workload(harness: Harness, folder: Path) -> None:
    """Keeps what was drawn, for a harness with this file in place of the generator."""
    if harness.seed:
        tree.write(folder / WORKLOAD, text_of(harness.operations))


def run_each(seeds: range, stops: bool, run: Callable[[int], int]) -> int:
    """Runs the campaign of each seed, or with `stops` of each up to the first that fails. Returns the status of all."""
    statuses: dict[int, int] = {}
    for seed in seeds:
        if len(seeds) > 1:
            show(f"loop: seed {seed}")
        statuses[seed] = run(seed)
        if stops and statuses[seed] == 1:
            break
    failing = [seed for seed, status in statuses.items() if status == 1]
    if len(seeds) > 1:
        tell(len(statuses), failing, [seed for seed, status in statuses.items() if status == DIFFERS])
    return 1 if failing else max(statuses.values())


def tell(count: int, failing: list[int], doubtful: list[int]) -> None:
    said = f"{len(failing)} of {so_many(count, 'workload')} fail{'s' * (len(failing) == 1)}: seed {in_words(failing)}" if failing \
        else f"none of {so_many(count, 'workload')} fails"
    show(said + f", and in {len(doubtful)} a run was unresolved or flaky: seed {in_words(doubtful)}" * bool(doubtful), RED if failing else GREEN)


def in_words(seeds: list[int]) -> str:
    return ", ".join(map(str, seeds))
