"""One run of a program under a scenario, from the files that it finds to those that a power cut leaves."""

import contextlib
import copy
import os
import subprocess
import sys
import threading
import time
from collections.abc import Iterator
from dataclasses import replace
from pathlib import Path

from . import programs, tree
from .answers import Stopped
from .definition import LASTING, Harness
from .disk import disk_of
from .looking import Looks
from .operations import Promises, promises_of, scenario_for, text_of
from .processes import WITHIN, Processes
from .programs import Tools
from .record import Record
from .room import Room, TooLarge
from .served import Served
from .shown import last_lines, show
from .trace import length_of, marks_of, trace_of
from .work import CLOSED, OPEN, Work, is_taken_away

PREPARED = "prepared"  # the folder in which `prepare` was run
TIME_IS_UP, CANNOT, NOT_FOUND = 124, 125, 127  # how `within` ends. A program of the harness may have these statuses too
MAPPED = b"each store into the mapping of"  # as the supervisor says that a program maps a file
OF_LOOP = ("FAULTS_OPERATIONS", "FAULTS_WORKLOAD", "FAULTS_LENGTH", "FAULTS_BEGIN", "FAULTS_QUIET")  # variables of the supervisor that the loop alone sets
BEGUN = "begun"  # in the folder of a run's notes, if its program said where faults begin and the supervisor hadn't been told that it would
NO_CALL = "any call under FAULTS_ROOT"  # as it says that a step never used its data


class Runner:
    """Makes runs, each in a folder of its own."""

    def __init__(self, harness: Harness, work: Work, processes: Processes, room: Room):
        self.harness = harness
        self.work = work
        self.processes = processes
        self.room = room
        self.seconds = room.bounds.seconds
        self.late = f"it was ended after {self.seconds} seconds (--seconds)"  # why a run is unresolved that took too long
        self.outer = {name: value for name, value in os.environ.items() if name not in OF_LOOP}
        self.tools = Tools(room)
        self.count = 0
        self.syncs_disk = False  # a simulated power cut goes by the notes alone
        self.first: Record | None = None  # the run without faults that was made to see where runs have to lie
        self.served = Served(harness.file, processes) if harness.functions & {"judge", "look"} else None
        self.lock = threading.Lock()
        self.looks = Looks(self) if harness.looks else None

    @property
    def runs(self) -> int:
        """How many it has made, also those that looks are held to."""
        return self.count + (self.looks.runner.count if self.looks else 0)

    @property
    def prepared(self) -> Path:
        return self.work.folder / PREPARED / "data"

    @contextlib.contextmanager
    def step(self, folder: Path, **more: str) -> Iterator[dict[str, str]]:
        """Opens a run's folder for a step, whose environment this is. TMPDIR is new, so that no step finds what another one left there. If a run is
        derived, its `judge` finds the data as they were at that hit, but what `run` wrote to its TMPDIR would be that of the whole run. The path is the
        same each time, and short, as that of a socket has at most 108 bytes."""
        place = folder / "tmp"
        if not is_taken_away(place):
            raise Stopped(f"{place} can't be deleted")
        place.mkdir()
        folder.chmod(OPEN)
        try:
            yield self.outer | {"HARNESS": str(self.harness.folder), "TMPDIR": str(place)} | self.harness.variables | more
        finally:
            folder.chmod(CLOSED)

    def with_harness(self, **changes: object) -> "Runner":
        """The same runner, of a harness in which this is otherwise."""
        other = copy.copy(self)
        other.harness = replace(self.harness, **changes)
        return other

    def with_variables(self, **variables: str) -> "Runner":
        """The same runner, with more variables in the environment of its programs."""
        return self.with_harness(variables=self.harness.variables | variables)

    def on_real_disk(self) -> "Runner":
        """The same runner, whose syncs sync the disk too, and all of whose programs see what is mounted now."""
        other = copy.copy(self)
        other.syncs_disk = True
        other.served = Served(self.harness.file, self.processes) if self.served else None
        return other

    def start(self, words: list[str], folder: Path, said: Path, **variables: str) -> tuple[int, str]:
        """Runs a step in the data's folder. Returns its status, and the reason if the run is unresolved by it."""
        begun = time.monotonic()
        with self.step(folder, **variables) as environment:
            with open(said, "ab") as output, open(folder / "errors", "ab") as errors:
                process = self.processes.start([str(WITHIN), str(self.seconds), "-", *words], cwd=folder / "data", stdin=subprocess.DEVNULL,
                    stdout=output, stderr=errors, env=environment)
            try:
                passed = self.room.wait(process, folder)
            finally:
                self.processes.ended(process)
        if passed:
            return process.returncode, passed
        if process.returncode == TIME_IS_UP and time.monotonic() - begun >= self.seconds:
            return process.returncode, self.late
        if process.returncode in (CANNOT, NOT_FOUND) and last_line(folder / "errors").startswith("within: "):
            raise Stopped(f"{words[-1]} can't be run: {in_a_line(last_lines(folder / 'errors'))}")
        return process.returncode, ""

    def judged(self, folder: Path, output: Path, step: str = "judge", **variables: str) -> tuple[int, str]:
        """Runs `judge` or `look` in the same way. It runs without the supervisor, so if it is a function of Python, it needs no new Python."""
        if step not in self.harness.functions:
            return self.start(self.harness.steps[step], folder, output, **variables)
        with self.step(folder, **variables) as environment:
            return self.served.call(step, folder, output, environment, self.room)

    def looked(self, folder: Path) -> tuple[int, str, bytes]:
        """Runs `look`. Returns what it printed too."""
        output = folder / "looked"
        output.unlink(missing_ok=True)
        output.touch()
        return *self.judged(folder, output, "look"), output.read_bytes()

    def prepare(self) -> None:
        """Makes the data with which each run begins. They are made once, and copied, so that each run finds the same bytes."""
        folder = self.work.new()
        self.room.begin(folder)
        (folder / "data").mkdir()
        if "prepare" in self.harness.steps:
            status, why = self.start(self.harness.steps["prepare"], folder, folder / "said")
            if status or why:
                raise Stopped(f"prepare failed: {why or f'it ended with {status}'}: {in_a_line(last_lines(folder / 'errors'))}")
        folder.rename(self.work.folder / PREPARED)
        self.room.hold(tree.size(self.prepared))
        self.room.end(folder, 0)
        if self.work.disk and not self.work.is_decided:
            self.decide_place()
        if self.work.begins is None:
            self.room.within(self.learn_begins)
        if self.first and self.harness.has_choice:
            self.remove_first()
        if self.looks:
            self.room.within(self.looks.learn)

    def decide_place(self) -> None:
        """Makes the run without faults in memory, and lets runs lie on a disk if the program maps its files. For example, MariaDB takes a log in memory
        for persistent memory, and never syncs it."""
        self.first = self.room.within(lambda: self.make(self.scenario_of_first()))
        with open(self.first.folder / "errors", "rb") as errors:
            maps = any(MAPPED in line for line in errors)
        self.work.decide(needs_disk=maps)
        if maps:
            self.remove_first()
            self.work.move(PREPARED)
            self.room.lie_on(disk_of(self.work.place))
            self.room.hold(tree.size(self.prepared))
            show(f"loop: runs lie in {self.work.place}, as the program maps its files, and may take memory for a disk that needs no sync")

    def scenario_of_first(self) -> str:
        """The scenario of a run without faults in which a session is asked for something, as one that is asked for nothing does little."""
        operations = range(1, min(len(self.harness.operations), self.harness.length) + 1)
        return scenario_for(operations) if self.harness.has_choice else "none"

    def remove_first(self) -> None:
        """Removes the run that was made to see something. It counts among the runs only if it is that of the scenario without faults."""
        self.room.end(self.first.folder, 0)
        tree.remove(self.first.folder)
        self.first = None
        self.count = 0

    def learn_begins(self) -> None:
        """Sees by a run without faults which steps say where faults begin. A fault before would act before that is seen, so from now on the supervisor is
        told that they will."""
        self.first = self.first or self.make(self.scenario_of_first())
        run, found = self.first.run, []
        if (run / BEGUN).exists():
            found.append(self.harness.begins)
        if "again" in self.harness.steps and not self.first.why:
            (run / BEGUN).unlink(missing_ok=True)
            with contextlib.suppress(TooLarge):
                self.tools.cut(run, self.first.data, LASTING, goes_on=True)
                self.under("again", run, self.first.folder, "none", self.first.said_again)
            found += ["again"] * (run / BEGUN).exists()
        if found or self.first.said_again.exists():
            self.remove_first()
        self.work.take_begins(found)

    @contextlib.contextmanager
    def on_disk(self) -> Iterator["Runner"]:
        """The same runner, of runs that lie on a disk."""
        other = copy.copy(self)
        other.work = Work(self.work.note, needs_disk=True, begins=self.work.begins)
        try:
            tree.copy(str(self.work.folder / PREPARED), str(other.work.folder / PREPARED))
            yield other
        finally:
            other.work.end()

    def under(self, step: str, run: Path, folder: Path, scenario: str, said: Path) -> tuple[int, str]:
        """Runs a step under the supervisor. Returns its status, and the reason if the run is unresolved."""
        order = [] if self.harness.order == "arrival" else ["--order", self.harness.order]
        before = length_of(folder / "errors")
        words = [str(programs.FAULTS), *order, *["--pin"] * self.harness.pins, *["--sync"] * self.syncs_disk, "--", *self.harness.steps[step]]
        variables = {"FAILPOINTS": scenario, "FAULTS_ROOT": str(folder / "data"), "FAULTS_RUN": str(run)}
        if self.harness.quiet:
            variables["FAULTS_QUIET"] = "\n".join(self.harness.quiet)
        if step in (self.work.begins or ()):
            variables["FAULTS_BEGIN"] = "1"
        if step == "session":
            operations = folder / "operations"
            operations.write_bytes(text_of(self.harness.operations))
            variables |= {"FAULTS_WORKLOAD" if self.harness.is_workload else "FAULTS_OPERATIONS": str(operations), "FAULTS_LENGTH": str(self.harness.length)}
        status, why = self.start(words, folder, said, **variables)
        if status == programs.REFUSED:
            why = why_refused(step, last_lines(folder / "errors", before))
        if status == programs.PAUSED:
            why = "the scenario has a pause"
        return status, why

    def promises(self, record: Record, run: Path, said: bytes) -> Promises:
        """What a run has promised that goes by the trace in this folder, and has printed that."""
        if self.harness.operations:
            return promises_of(trace_of(run), marks_of(record.run), said, reads_ahead=bool(self.looks and self.looks.reads_ahead))
        return self.looks.promises(said) if self.looks else Promises(said)

    def make(self, scenario: str) -> Record:
        """Makes a run under a scenario, from the prepared data to its end, or to the hit at which the scenario ends it."""
        with self.lock:
            first = self.first if scenario == "none" else None
            if first:
                self.first = None
                self.room.begin(first.folder)
                return first
            self.count += 1
        return self.made_in(self.new_data(), scenario)

    def new_data(self) -> Path:
        """A new folder of a run, with the prepared data."""
        folder = self.work.new()
        self.room.begin(folder)
        tree.copy(self.prepared, folder / "data")
        return folder

    def made_in(self, folder: Path, scenario: str) -> Record:
        """The same in a run's folder that has the prepared data."""
        try:
            self.tools.begin(folder / "run", folder / "data")
        except TooLarge as found:
            raise Stopped(f"the files that prepare made: {found}") from found
        status, why = self.under(self.harness.begins, folder / "run", folder, scenario, folder / "said")
        points = [sys.intern(hit[1]) for hit in trace_of(folder / "run")]  # interned, since each run keeps such a list of the same few texts
        return Record(folder, scenario, status, why, points, length_of(folder / "errors"))


def last_line(path: Path) -> str:
    return last_lines(path).rpartition("\n")[2]


def in_a_line(lines: str) -> str:
    return "; ".join(lines.splitlines())


def why_refused(step: str, errors: str) -> str:
    """Why the supervisor refused a step, by its last lines. If the step never used its data, the lines before say more, such as that its program isn't
    there."""
    before, _, last = errors.rpartition("\n")
    if before and NO_CALL in last:
        return f"{step} made no call on its data: {in_a_line(before)}"
    return last or f"{step} ended with {programs.REFUSED}"


def tell_errors(path: Path) -> None:
    if path.exists():
        show(path.read_text("utf-8", "surrogateescape"))
