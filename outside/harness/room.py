"""Limits what all runs take on the disk together, those that are recorded and those in the making.

If room gets short, recorded runs are deleted, and then no two runs are made at once. A campaign never fills a file system."""

import contextlib
import errno
import subprocess
import threading
import time
from collections.abc import Callable, Iterator
from dataclasses import dataclass
from pathlib import Path
from typing import TypeVar

from . import tree
from .answers import Stopped
from .bounds import Bounds
from .disk import Disk
from .records import Records
from .shown import show_once

LOOKS_EVERY = 0.05  # seconds
LOOKS_LESS = 4  # the pause between two looks is at least so many times as long as a look takes
LEAST = 16 << 20  # bytes that always stay free
SHARE = 4  # a campaign takes one in so many of the bytes that are free when it begins

Made = TypeVar("Made")


class Crowded(Exception):
    """A run was ended, because there is no room for it beside others."""


class TooLarge(Exception):
    """A run was ended, because there is no room for it. The text gives the reason."""


@dataclass
class Making:
    """A run in the making."""

    folder: Path
    thread: int
    process: subprocess.Popen | None = None  # the program that runs now, which is ended with the run
    why: str = ""  # the limit that it passed, if it was ended for that
    is_crowded: bool = False  # whether it was ended because there is no room

    def end(self) -> None:
        if self.process:
            self.process.terminate()


class Room:
    def __init__(self, disk: Disk, asked: int, bounds: Bounds, records: Records):
        self.asked = asked
        self.bounds = bounds
        self.records = records
        self.lie_on(disk)
        self.changed = threading.Condition()
        self.makings: dict[Path, Making] = {}
        self.seats = 0  # how many threads make runs
        self.is_alone = False
        self.waiting_alone = 0
        self.largest = 0  # the most bytes that one run took
        threading.Thread(target=self.watch, daemon=True).start()

    def lie_on(self, disk: Disk) -> None:
        """Takes the room of a file system on which all runs lie from now on."""
        free = disk.free()
        self.disk = disk
        self.most = min(self.asked, free // SHARE)
        self.stays_free = min(free // SHARE, 2 * self.most)
        if self.most < self.asked:
            show_once(f"loop: all runs together may take {self.most} bytes in {disk.folder}, where {free} are free")

    # ---- who makes a run

    def may_sit(self, alone: bool) -> bool:
        if self.is_alone or (self.waiting_alone and not alone):
            return False
        return self.seats == 0 or (not alone and (self.seats + 1) * self.largest <= self.most)

    @contextlib.contextmanager
    def seat(self, alone: bool = False) -> Iterator[None]:
        """Waits until there is room for one more run, or until no other is made."""
        with self.changed:
            self.waiting_alone += alone
            self.changed.wait_for(lambda: self.may_sit(alone))
            self.waiting_alone -= alone
            self.seats += 1
            self.is_alone = alone
        try:
            self.make_way()
            yield
        finally:
            with self.changed:
                self.seats -= 1
                self.is_alone = False
                self.changed.notify_all()

    def within(self, make: Callable[[], Made]) -> Made:
        """Makes a run, and if it was ended because others take the room, makes it once more, alone."""
        for alone in (False, True):
            with self.seat(alone), contextlib.suppress(Crowded):
                return self.made(make)
        raise Stopped(self.full())

    def made(self, make: Callable[[], Made]) -> Made:
        try:
            return make()
        except Crowded:
            self.take_away()
            raise
        except OSError as error:
            if error.errno != errno.ENOSPC:
                raise
            self.take_away()
            raise Crowded from error

    def full(self) -> str:
        free = self.disk.free()
        return f"{self.disk.folder}: {free} bytes are free, which is too few: one run took {self.largest}. Free some, or set TMPDIR to another folder"

    # ---- its folder

    def hold(self, size: int) -> None:
        """Takes so many bytes for the whole campaign: the data with which each run begins."""
        self.most = max(0, self.most - size)

    def begin(self, folder: Path) -> None:
        with self.changed:
            self.makings[folder] = Making(folder, threading.get_ident())

    def end(self, folder: Path, size: int) -> None:
        """The run in this folder is made, and has this size."""
        with self.changed:
            self.makings.pop(folder, None)
            self.largest = max(self.largest, size)

    def take_away(self) -> None:
        """Deletes the run that this thread was making."""
        with self.changed:
            mine = [making for making in self.makings.values() if making.thread == threading.get_ident()]
            for making in mine:
                del self.makings[making.folder]
        for making in mine:
            self.largest = max(self.largest, tree.size(making.folder))
            tree.remove(making.folder)

    def make_way(self) -> None:
        """Deletes recorded runs until they fit beside the runs in the making."""
        self.records.shrink(max(0, self.most - self.seats * self.largest))

    # ---- its programs

    def wait(self, process: subprocess.Popen, folder: Path) -> str:
        """Waits for a program's end. The limit that the run has passed, or an empty text."""
        with self.watched(process, folder):
            process.wait()
        return self.why_ended(folder) or self.bounds.passed(folder)

    @contextlib.contextmanager
    def watched(self, process: subprocess.Popen, folder: Path) -> Iterator[None]:
        """While this lasts, the process is ended if the run is."""
        making = self.makings[folder]
        making.process = process
        try:
            yield
        finally:
            making.process = None

    def why_ended(self, folder: Path) -> str:
        """Why the run was ended, or an empty text if it wasn't."""
        return self.want(folder) or self.makings[folder].why

    def want(self, folder: Path) -> str:
        """The reason why there is no room for the run, or an empty text if there is room."""
        if not self.makings[folder].is_crowded:
            return ""
        if not self.is_alone:
            raise Crowded
        if self.is_short():
            raise Stopped(self.full())
        return f"it took more than the {self.most} bytes that all runs together may take (--room)"

    def is_crowded(self, folder: Path) -> bool:
        return folder in self.makings and self.makings[folder].is_crowded

    # ---- looking

    def is_short(self) -> bool:
        """Whether too little is free. A run that is made alone may use more: all but twice what the largest run took."""
        stays = min(self.stays_free, max(2 * self.largest, LEAST)) if self.is_alone else self.stays_free
        return self.disk.free() < stays

    def watch(self) -> None:
        tick = threading.Event()
        took = 0.0
        while not tick.wait(max(LOOKS_EVERY, LOOKS_LESS * took)):
            begun = time.monotonic()
            with contextlib.suppress(FileNotFoundError, Stopped):  # a run's folder may be deleted meanwhile, or have a mount, which the end tells
                self.look()
            took = time.monotonic() - begun

    def look(self) -> None:
        with self.changed:
            makings = list(self.makings.values())
        for making in makings:
            if making.process and not making.why and (why := self.bounds.passed(making.folder)):
                making.why = why
                making.end()
        self.settle({making.folder: tree.size(making.folder) for making in makings})

    def settle(self, sizes: dict[Path, int]) -> None:
        """If too much is taken, recorded runs are deleted, and then the largest runs in the making are ended, one after the other. If the file
        system itself gets full, all of them are ended, so that none fails by that."""
        taken, is_short = sum(sizes.values()), self.is_short()
        if taken + self.records.taken <= self.most and not is_short:
            return
        self.records.shrink(0 if is_short else max(0, self.most - taken))
        with self.changed:
            makings = sorted((making for folder, making in self.makings.items() if folder in sizes), key=lambda making: sizes[making.folder])
            if is_short and self.is_short():
                self.end_all(makings)
            elif taken > self.most and not any(making.is_crowded for making in makings):
                self.end_all(makings[-1:])

    def end_all(self, makings: list[Making]) -> None:
        for making in makings:
            making.is_crowded = True
            making.end()
