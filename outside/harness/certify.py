"""Certificates: on which real file systems a finding comes true. For example, ext4 left what it needs, in an image that is kept, and no power cut made
Btrfs leave it, which doesn't say that none would."""

import contextlib
import os
import random
import re
import shlex
from collections.abc import Iterator
from dataclasses import dataclass
from hashlib import sha256
from pathlib import Path

from disks.disk import FORMATS, Disk, Unmountable, lacking

from . import tree
from .definition import FAILURES
from .identity import CERTIFIED
from .judging import PASS, Judgement
from .on_disk import PUSHES, Cut, OnDisk
from .run import Runner
from .scenario import POWER
from .shown import escaped, from_here, is_terminal, show_once, status

FILE_SYSTEMS = ("ext4", "xfs", "btrfs")
CERTIFICATES = "certificates"  # the file of the sentences, beside the images
TRIES, MOST = 40, 10  # runs for each finding on each file system, and how many findings and causes
MARGIN = 4  # an image has room for so many times what a run takes
MOUNTS = {"xfs": "loop,nouuid"}  # how an image is mounted, where `loop` alone refuses one that has the number of another
NEEDS = "--certify needs root, loop devices, FUSE and the programs of the file system"


@dataclass(frozen=True)
class Wanted:
    """What the command line asks for."""

    file_systems: tuple[str, ...]
    most: int = MOST
    tries: int = TRIES


@dataclass(frozen=True)
class Certificate:
    """What came of a finding on one file system: an image that shows it, or how often it was tried, or why it wasn't."""

    file_system: str
    image: Path | None = None
    tries: int = 0
    unmountable: int = 0  # how many of the disks of these tries the kernel couldn't mount
    why_not: str = ""


class Unfit(Exception):
    """A run can't be made on a real disk. The text gives the reason."""


def calls_alone(scenario: str) -> str:
    """A scenario without what it says of a power cut, of which a real disk decides."""
    pieces = [piece.strip() for piece in scenario.split(";") if not piece.strip().startswith(POWER)]
    return ";".join(pieces) or "none"


def sentences(certificates: list[Certificate]) -> list[str]:
    """What is told of a finding, each a line."""
    shown = [each for each in certificates if each.image]
    lines = [f"certified on {', '.join(each.file_system for each in shown)} (Linux {os.uname().release})"] * bool(shown)
    lines += [f"what {each.file_system} left in try {each.tries}: {mount_of(each)}" for each in shown]
    lines += [not_provoked(each) for each in certificates if each.tries and not each.image]
    missing: dict[str, list[str]] = {}
    for each in certificates:
        if each.why_not:
            missing.setdefault(each.why_not, []).append(each.file_system)
    lines += [f"not tried on {', '.join(names)}: {why}" for why, names in missing.items()]
    return [escaped(line) for line in lines]


def not_provoked(certificate: Certificate) -> str:
    """What is told where no try showed the finding. A disk that can't be mounted was judged by nobody."""
    line = f"not provoked on {certificate.file_system} in {certificate.tries} tries"
    return line if not certificate.unmountable else f"{line}, of whose disks {certificate.unmountable} can't be mounted"


def mount_of(certificate: Certificate) -> str:
    """The command that mounts an image. Its folder `root/data` is the one in which the judge started."""
    return shlex.join(["mount", "-o", MOUNTS.get(certificate.file_system, "loop"), str(from_here(certificate.image))]) + " FOLDER"


class Certifier:
    """Certifies findings, and keeps the images and the sentences in a folder."""

    def __init__(self, runner: Runner, folder: Path, wanted: Wanted):
        self.runner = runner
        self.folder = folder / CERTIFIED
        self.wanted = wanted
        self.refused: dict[str, str] = {}  # for each file system why it can't be tried, or nothing
        self.told: dict[str, list[str]] = {}  # the sentences, by scenario
        self.known: dict[tuple[str, str], list[str]] = {}  # the same by failed calls and verdict

    def certify(self, scenario: str, verdict: str) -> list[str]:
        """The sentences for a scenario that fails with this verdict. Scenarios that differ in the power cut alone are the same run."""
        self.folder.mkdir(exist_ok=True)
        calls = calls_alone(scenario)
        if (calls, verdict) not in self.known:
            self.known[calls, verdict] = sentences([self.tried(name, calls, verdict) for name in self.wanted.file_systems])
        self.told[scenario] = self.known[calls, verdict]
        self.write()
        return self.told[scenario]

    def write(self) -> None:
        lines = [f"{scenario}\t{sentence}\n" for scenario, told in self.told.items() for sentence in told]
        tree.write(self.folder / CERTIFICATES, "".join(lines).encode("utf-8", "surrogateescape"))

    def tried(self, file_system: str, calls: str, verdict: str) -> Certificate:
        try:
            if why := self.why_not(file_system, verdict):
                return Certificate(file_system, why_not=why)
            with self.on_disk(file_system) as place:
                return self.provoked(place, calls, verdict)
        except (OSError, Unfit, Unmountable) as error:
            return Certificate(file_system, why_not=str(error))
        finally:
            status.show("")

    @contextlib.contextmanager
    def on_disk(self, file_system: str) -> Iterator[OnDisk]:
        room, prepared = self.runner.room, self.runner.prepared
        more = MARGIN * (room.largest or tree.size(self.runner.work.folder)) >> 20  # the second, where one run alone was made
        with room.seat(alone=True), Disk(file_system, lambda root: tree.copy(str(prepared), f"{root}/data"), FORMATS[file_system].megabytes + more,
                str(self.runner.work.folder)) as disk:
            place = OnDisk(self.runner, disk)
            try:
                yield place
            finally:
                place.end()

    def why_not(self, file_system: str, verdict: str) -> str:
        """Why a finding can't be tried on a file system, or an empty text."""
        if "again" in self.runner.harness.steps:
            return "`again` needs a second power cut"
        if verdict.removeprefix("fail ") in FAILURES:
            return "no power cut is needed"
        if file_system not in self.refused:
            if why := lacking(file_system):
                show_once(f"loop: {why}: {NEEDS}")
            self.refused[file_system] = why or self.without_cut(file_system)
        return self.refused[file_system]

    def without_cut(self, file_system: str) -> str:
        """Why nothing that the judge says there counts, or an empty text: a run without faults has to pass if no power cut comes."""
        with self.on_disk(file_system) as place:
            judgement = place.uncut("none")
        if judgement.verdict == PASS or self.runner.harness.knows(judgement.verdict):
            return ""
        return f"without a fault and a power cut the verdict is {judgement.verdict}{judgement.why and ': '}{judgement.why}"

    def provoked(self, place: OnDisk, calls: str, verdict: str) -> Certificate:
        """Makes runs on a disk until a power cut leaves what the finding says."""
        name = place.disk.file_system
        for number, cut, judgement in self.judgements(place, calls):
            if judgement.verdict == verdict:
                return Certificate(name, image=self.keep(place, cut, calls, verdict), tries=number)
        return Certificate(name, tries=self.wanted.tries, unmountable=place.unmountable)

    def judgements(self, place: OnDisk, calls: str) -> Iterator[tuple[int, Cut, Judgement]]:
        """The judgements of what power cuts leave, each with the number of its run. A disk that can't be mounted says nothing about the program, and is counted."""
        for number in range(self.wanted.tries):
            chance = random.Random(number)
            if is_terminal():
                status.show(f"try {number + 1} of {self.wanted.tries} on {place.disk.file_system}: {calls}")
            record = place.run(calls, PUSHES[number % len(PUSHES)], chance)
            if record.why and not number:
                raise Unfit(record.why)
            for cut in place.cuts(chance) if not record.why else []:  # what pushes a run may make it take too long
                try:
                    yield number + 1, cut, place.after(cut, record)
                except Unmountable:
                    place.unmountable += 1

    def keep(self, place: OnDisk, cut: Cut, calls: str, verdict: str) -> Path:
        """Keeps the image that a cut leaves, sparse, as nobody has mounted it."""
        code = re.sub(r"[^A-Za-z0-9]+", "_", verdict.removeprefix("fail "))
        digest = sha256(calls.encode("utf-8", "surrogateescape")).hexdigest()[:8]
        image = self.folder / f"{code}-{digest}.{place.disk.file_system}"
        place.disk.keep(str(image), cut.moment, cut.share, random.Random(cut.seed))
        return image
