"""Runs of a harness on a real file system, whose power is cut by what the kernel had written.

The kernel decides when it writes what isn't synced, and mostly not soon. So a run is pushed towards what may happen at any time: another program on the
same file system syncs something of its own, a file is written out, time goes by, or the data take longer than the journal."""

import contextlib
import os
import random
import re
import threading
import time
from collections.abc import Iterator
from dataclasses import dataclass
from pathlib import Path

from disks.disk import MARK, Disk, bound, commit_names, sync_all_of, write_out

from . import tree
from .answers import Stopped
from .judging import UNRESOLVED, Judge, Judgement, LooksUp
from .record import Record
from .run import Runner
from .scenario import Fault, Scenario, Unreadable, faults_of, numbered, scenario_of
from .trace import length_of, trace_of

DATA = "data"  # the folder of the data in the root of a recorded disk, beside what pushes it
BESIDE = "beside"  # what the pushes sync, which no program of the harness sees
OVER = "over"  # a mark: the program has ended
WAITS = (0.2, 1, 3, 6)  # seconds; ext4 writes names after 5
SLOW = (30, 300, 1000)  # milliseconds that a block of data may take, during which others overtake it
WAIT = "sleep(300)"  # what a call does meanwhile at which a run is pushed, as otherwise its time tells little about its calls
SHARES = (1.0, 0.0, 0.5, 0.3, 0.7)  # of what wasn't flushed; those behind the first two are drawn from
MORE_CUTS = 3  # so many cuts of a run are at random
WORDS = re.compile(rb"[!-~][ -~]{3,79}")  # by which the recorder knows a block of data
LOOKS_INTO = 1 << 20  # bytes of a file in which such words are looked for
LOOKS_EVERY = 0.001  # seconds between two looks at how far a run is
NEAR, NEAR_SHARE = 3, 0.6  # so many hits around one that failed are near it, and such a share of pushes comes there
MOST_PUSHES = 2  # at so many hits of a run


@dataclass(frozen=True)
class Push:
    """What is done on the file system at some hits of a run, at which half of the runs wait, and what after its end."""

    meanwhile: tuple[str, ...] = ()
    after: tuple[str, ...] = ()
    is_slow: bool = False


PUSHES = (Push(), Push(after=("names",)), Push(after=("all",)), Push(after=("names",), is_slow=True), Push(after=("files", "names")), Push(("names",)),
    Push(after=("files",)), Push(("files", "names")), Push(("names",), ("names",), is_slow=True), Push(("all",), ("wait",)))


@dataclass(frozen=True)
class Cut:
    """A power cut after so many records, with a share of what wasn't flushed by then, chosen by a seed."""

    moment: int
    share: float
    seed: int


def words_of(folder: Path, before: Path) -> list[str]:
    """Words that files of a folder have, and not as they were before: one of each file."""
    found = []
    for name, told in tree.entries(str(folder)):
        path = folder / name
        if path.is_file() and not path.is_symlink():
            with open(path, "rb") as file:
                new = WORDS.findall(file.read(LOOKS_INTO))
            old = (before / name).read_bytes() if (before / name).is_file() else b""
            found += [max(words, key=len).decode() for words in [[word for word in new if word not in old]] if words]
    return found


def hits_so_far(run: Path) -> int:
    """How many hits a run has: none where its folder was taken away after a look at it, as it is before each run."""
    with contextlib.suppress(FileNotFoundError):
        return len(trace_of(run))
    return 0


def waiting(scenario: str, hits: list[tuple[str, int]]) -> str:
    """The same scenario, in which these hits of points wait first, unless it has something else happen there."""
    chains = dict(piece.strip().split("=", 1) for piece in scenario.split(";")) if scenario != "none" else {}
    for point, hit in hits:
        with contextlib.suppress(Unreadable):  # something happens there for ever
            faults = faults_of(point, Scenario(f"{point}={chains[point]}").chains[point]) if point in chains else []
            if all(fault.hit != hit for fault in faults):
                chains[point] = scenario_of([*faults, Fault(point, hit, WAIT)]).partition("=")[2]
    return ";".join(f"{point}={chain}" for point, chain in chains.items()) or "none"


class OnDisk:
    """A recorded disk, and the folder of a run whose data are on it, or on a copy that a power cut left, always at the same path."""

    def __init__(self, runner: Runner, disk: Disk):
        self.runner = runner.on_real_disk()
        self.judge = Judge(self.runner)
        self.disk = disk
        self.folder = runner.work.new()
        (self.folder / DATA).mkdir()
        self.hits: list[tuple[str, int]] = []  # of the last run: each a point, and which hit of it
        self.failed: list[int] = []  # the numbers of those at which a call failed, or the run was ended
        self.words: list[str] = []  # of what the program wrote
        self.unmountable = 0  # how many cuts left a disk that the kernel can't mount
        self.runner.room.begin(self.folder)

    def end(self) -> None:
        self.runner.room.end(self.folder, 0)
        tree.remove(self.folder)

    @contextlib.contextmanager
    def laid(self, root: str) -> Iterator[None]:
        """While this lasts, the run's data are those below this root."""
        with bound(f"{root}/{DATA}", str(self.folder / DATA)):
            try:
                yield
            except Stopped:  # what goes on here would keep the disk from being unmounted
                self.runner.processes.end()
                raise

    def judged(self, record: Record) -> Judgement:
        return self.judge.judge(self.folder, self.runner.promises(record, record.run, record.said()), LooksUp.ALL)

    def made(self, scenario: str) -> Record:
        for name in ("run", "rewound"):
            if (self.folder / name).exists():
                tree.remove(self.folder / name)
        for name in ("said", "errors"):
            (self.folder / name).unlink(missing_ok=True)
        record = self.runner.made_in(self.folder, scenario)
        self.hits = numbered(record.points)
        self.failed = [int(hit[0]) for hit in trace_of(record.run) if hit[3] not in ("go", WAIT)]
        return record

    def uncut(self, scenario: str) -> Judgement:
        """The judgement of a run whose power isn't cut."""
        found = []

        def action(root: str) -> None:
            with self.laid(root):
                record = self.made(scenario)
                self.words = words_of(self.folder / DATA, self.runner.prepared)
                found.append(Judgement(UNRESOLVED, record.why) if record.why else self.judged(record))

        self.disk.run(action, touched=False)
        return found[0]

    def run(self, scenario: str, push: Push, chance: random.Random) -> Record:
        """Makes a run that is pushed, and records what comes to the disk."""
        records = []
        hits = sorted({self.some_hit(chance) for _ in range(chance.randint(1, MOST_PUSHES))}) if push.meanwhile and self.hits else []
        waits = [self.hits[hit - 1] for hit in hits] if chance.random() < 0.5 else []  # which may change the order of threads

        def action(root: str) -> None:
            with self.laid(root):
                with self.pushed(push.meanwhile, hits, root, chance):
                    records.append(self.made(waiting(scenario, waits)))
                self.disk.mark(OVER)
                self.words = words_of(self.folder / DATA, self.runner.prepared) or self.words
                for act in push.after:
                    self.act(act, root, chance)

        slow = f"{chance.choice(SLOW)} {chance.choice(self.words)}" if push.is_slow and self.words else ""
        self.disk.run(action, chance.random() < 0.5, slow)
        return records[0]

    def act(self, act: str, root: str, chance: random.Random) -> None:
        if act == "names":
            commit_names(f"{root}/{BESIDE}")
        elif act == "all":
            sync_all_of(root)
        elif act == "wait":
            time.sleep(chance.choice(WAITS))
        else:
            files = [path for path in (Path(place, name) for place, _, names in os.walk(f"{root}/{DATA}") for name in names) if path.is_file()]
            for path in chance.sample(files, chance.randint(min(1, len(files)), len(files))):
                with contextlib.suppress(FileNotFoundError):  # the program may have taken it away
                    write_out(str(path))

    def some_hit(self, chance: random.Random) -> int:
        """The number of a hit of the run, mostly near one at which the last run met a fault."""
        if self.failed and chance.random() < NEAR_SHARE:
            return min(max(1, chance.choice(self.failed) + chance.randint(-NEAR, NEAR)), len(self.hits))
        return chance.randint(1, len(self.hits))

    def comes_to(self, hit: int, over: threading.Event) -> bool:
        """Waits until the run has this hit. False if it is over before."""
        trace, length = self.folder / "run" / "trace", 0
        while not over.wait(LOOKS_EVERY):
            if length != (length := length_of(trace)) and hits_so_far(trace.parent) >= hit:
                return True
        return False

    @contextlib.contextmanager
    def pushed(self, acts: tuple[str, ...], hits: list[int], root: str, chance: random.Random) -> Iterator[None]:
        """While this lasts, these acts come when the run has come to each of these hits."""
        over = threading.Event()

        def go() -> None:
            for hit in hits:
                if self.comes_to(hit, over):
                    for act in acts:
                        self.act(act, root, chance)

        thread = threading.Thread(target=go)
        thread.start()
        try:
            yield
        finally:
            over.set()
            thread.join()

    def cuts(self, chance: random.Random) -> list[Cut]:
        """Cuts at the program's end and after it: with all that the kernel had written, with what was flushed alone, and at random. Each leaves another
        disk."""
        records = self.disk.records
        over = next(number for number, (kind, _, data) in enumerate(records) if kind == MARK and data == OVER.encode())
        cuts = [Cut(moment, share, 0) for moment in (over, len(records)) for share in SHARES[:2]]
        cuts += [Cut(chance.randint(over, len(records)), chance.choice(SHARES), chance.getrandbits(32)) for _ in range(MORE_CUTS)]
        return list({hash(tuple(self.disk.written(cut.moment, cut.share, random.Random(cut.seed)))): cut for cut in reversed(cuts)}.values())[::-1]

    def after(self, cut: Cut, record: Record) -> Judgement:
        """The judgement of what a cut leaves."""
        with self.disk.left(cut.moment, cut.share, random.Random(cut.seed)) as root, self.laid(root):
            return self.judged(record)
