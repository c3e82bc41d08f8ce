"""Workloads on a recorded disk beside the model: trees that a power cut leaves, and whether they are states of a profile."""

import functools
import itertools
import random
from collections.abc import Iterator
from dataclasses import dataclass, field

from .disk import BLOCK, MARK, Disk, Entry, Unmountable
from .model import Model
from .profile import Profile
from .steps import Invalid, Maker, Step, based, workload, writer_of

SLOW = "30 ~w"  # what steps write takes up to 30 milliseconds, and what the file system writes of its own overtakes it
BEGINS, ENDS = "begins", "ends"


@dataclass
class Seen:
    """What a cut left: how many steps had begun, whether the last of these had returned, the tree, or why there is none, and what was cut."""

    begun: int
    returned: bool
    tree: Entry | str
    cut: str = ""


@dataclass
class Run:
    """A workload that ran, what each of its calls said, and what its cuts left."""

    steps: list[Step]
    said: dict[int, str] = field(default_factory=dict)
    seen: list[Seen] = field(default_factory=list)


@dataclass
class Cuts:
    """How a disk's power is cut: how often, of which bytes at random, and whether only after the last step."""

    count: int = 8
    sector: int = BLOCK
    at_end: bool = False


def run_on(disk: Disk, steps: list[Step], seed: int, cuts: Cuts) -> Run:
    """Runs a workload on a disk and cuts its power: once with all written, once with what was flushed alone, and else at random."""
    chance, run = random.Random(seed), Run(steps)

    def action(root: str) -> None:
        maker = Maker(root, disk.tell)
        run.said = maker.said
        maker.make_all(steps, before=lambda number: disk.mark(BEGINS), after=lambda number: disk.mark(ENDS))

    disk.run(action, chance.random() < 0.5, SLOW if chance.random() < 0.4 else "")
    ends = len(disk.records)
    for cut in range(cuts.count):
        moment = ends if cut < 2 or cuts.at_end or chance.random() < 0.3 else chance.randrange(ends + 1)
        share = (1.0, 0.0)[cut] if cut < 2 else chance.choice([0.0, 0.0, 0.3, 0.5, 0.7, 1.0])
        marks = [data.decode() for kind, _, data in disk.records[:moment] if kind == MARK]
        try:
            tree: Entry | str = disk.cut(moment, share, chance, cuts.sector)
        except Unmountable as refused:
            tree = f"it can't be mounted: {refused}"
        run.seen.append(Seen(marks.count(BEGINS), marks[-1:] == [ENDS], tree, f"after {moment} of {ends} records, with {share:.0%} of what wasn't flushed"))
    return run


def model_at(profile: Profile, steps: list[Step], seen: Seen, kind: type[Model] = Model) -> Model:
    """The model as it was at a cut."""
    model = kind(profile)
    for number, step in enumerate(steps[:seen.begun]):
        model.take(step, number, number + 1 < seen.begun or seen.returned)
    return model


def missing(profile: Profile, run: Run, kind: type[Model] = Model) -> Iterator[Seen]:
    """What was seen and is no state of the profile."""
    models: dict[tuple[int, bool], Model] = {}
    for seen in run.seen:
        at = seen.begun, seen.returned
        models[at] = models.get(at) or model_at(profile, run.steps, seen, kind)
        if isinstance(seen.tree, str) or not models[at].has(seen.tree):
            yield seen


def can_be_made(steps: list[Step]) -> bool:
    live = based()
    try:
        for number, step in enumerate(steps):
            live.changes(step, number)
    except Invalid:
        return False
    return True


def reduced(disk: Disk, profile: Profile, steps: list[Step], cuts: Cuts, tries: int = 6) -> list[Step]:
    """A workload from which no step can be taken away without the miss, as far as some tries tell."""
    for at in range(len(steps) - 1, -1, -1):
        fewer = steps[:at] + steps[at + 1:]
        if can_be_made(fewer) and any(any(missing(profile, run_on(disk, fewer, seed, cuts))) for seed in range(tries)):
            steps = fewer
    return steps


# ---- what people read


def told_bytes(contents: bytes) -> str:
    """The length, and which bytes which step wrote, as `9060 bytes: 0-8999 old log, 9000-9059 zeros`."""
    told, end = [], 0
    for token, same in itertools.groupby(contents[at:at + 4] for at in range(0, len(contents), 4)):
        begin, end = end, min(end + 4 * len(list(same)), len(contents))
        told.append(f"{begin}-{end - 1} {writer_of(token)}")
    return f"{len(contents)} bytes{': ' if told else ''}{', '.join(told)}"


def lines_of(tree: Entry, path: str = "") -> Iterator[tuple[str, str]]:
    """Each name of a tree, with what is there."""
    for name, entry in tree.contents.items():
        if entry.kind == "folder":
            yield path + name, f"folder {entry.mode:o}"
            yield from lines_of(entry, f"{path}{name}/")
        else:
            yield path + name, f"link to {entry.contents}" if entry.kind == "link" else f"{entry.mode:o}, {told_bytes(entry.contents)}"


@functools.cache
def lines_before() -> dict[str, str]:
    """The same of what is there before the first step."""
    live = based()
    told = {"folder": "folder {mode:o}", "link": "link to {contents}", "file": "{mode:o}, {bytes}"}
    return {path: told[live.kinds[number]].format(mode=live.modes[number], contents=live.contents[number],
                                                  bytes=told_bytes(live.contents[number]) if live.kinds[number] == "file" else "")
            for path, number in live.paths()}


def told_tree(tree: Entry | str) -> str:
    """What a tree has that isn't as before the first step."""
    if isinstance(tree, str):
        return tree
    before, now = lines_before(), dict(lines_of(tree))
    changed = [f"{path} {what}" for path, what in now.items() if before.get(path) != what] + [f"no {path}" for path in before if path not in now]
    return "; ".join(changed) or "all as before"


def entry_of(state: tuple) -> Entry:
    """A state in the form of a tree."""
    if state[0] == "folder":
        return Entry("folder", state[1], {name: entry_of(below) for name, below in state[2]}, 0)
    return Entry("link", 0, state[1], 0) if state[0] == "link" else Entry("file", state[1], state[2], 0)


def told_state(state: tuple) -> str:
    return told_tree(entry_of(state))


def runs_of(disk: Disk, seeds: range, cuts: Cuts) -> Iterator[Run]:
    for seed in seeds:
        yield run_on(disk, workload(seed), seed, cuts)
