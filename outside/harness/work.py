"""The folder of a campaign's runs, each in a folder of its own. It is deleted with the campaign, or by the next one if this one is killed."""

import contextlib
import itertools
import json
import os
import re
import secrets
import stat
import tempfile
import threading
import time
from pathlib import Path

from . import tree
from .answers import Answers
from .disk import IN_MEMORY, disk_of, kind_of
from .identity import NOTE, Identity, noted, other_in
from .shown import from_here, show

PREFIX = "paklour-"
NAME = re.compile(PREFIX + "[0-9a-f]{8}")
CLOSED, ENTERED = 0o700, 0o711  # the modes of folders of runs
OPEN = ENTERED if os.geteuid() == 0 else CLOSED  # a service that root starts may drop its rights, and must get to its data all the same
TRIES = 20  # so often it tries to delete a folder, a tenth of a second apart
MEMORY = "/dev/shm"
NO_DISK = {*IN_MEMORY, "overlay"}  # an overlay, as containers have, records no times of birth, so no run can lie there
ENOUGH = 1 << 30  # runs lie in memory if so many bytes are free there; a campaign takes a fourth


def places() -> list[str]:
    """Where runs may lie. If TMPDIR isn't set, that is in memory, if enough is free there, since with the syncs of a disk runs take several times as
    long; and then on a disk, for programs that do something else in memory."""
    if "TMPDIR" in os.environ:
        return [tempfile.gettempdir()]
    memory = [MEMORY] if os.access(MEMORY, os.W_OK) and disk_of(MEMORY).free() >= ENOUGH else []
    disks = [place for place in (tempfile.gettempdir(), "/var/tmp") if os.access(place, os.W_OK) and kind_of(place) not in NO_DISK]
    return memory + disks[:1] or [tempfile.gettempdir()]


def is_of_loop(folder: Path) -> bool:
    """Whether a folder looks like one that the loop makes: it has such a name and mode, and is this user's. A note may be a stranger's, and name any
    folder."""
    try:
        told = folder.lstat()
    except OSError:
        return False
    return bool(NAME.fullmatch(folder.name)) and stat.S_ISDIR(told.st_mode) and told.st_uid == os.getuid() and stat.S_IMODE(told.st_mode) in (CLOSED, ENTERED)


def is_taken_away(folder: Path) -> bool:
    """Deletes a folder, though for a moment a thread that lays out a run, or a program of a killed campaign, may go on in it."""
    for _ in range(TRIES):
        with contextlib.suppress(OSError):
            tree.remove(folder)
        if not os.path.lexists(folder):
            return True
        time.sleep(0.1)
    return False


def why_not(place: Path, own: Identity, every_run: bool) -> str:
    """Why a campaign can't go on from answers, or an empty text."""
    if other := other_in(place, own):
        return f"belongs to {other}"
    return "may have answers that were derived from other runs" if every_run and not noted(place).get("every_run") else ""


class Note:
    """The note beside answers: to which harness they belong, whether each comes from its own run, whether runs need a disk, and where they lie."""

    def __init__(self, answers: Answers, own: Identity, every_run: bool):
        place = Path(answers.path)
        known = noted(place)
        self.path = place.with_name(NOTE)
        self.said = {"harness": own, "every_run": every_run}
        self.folders: list[str] = []  # where runs lie now
        if answers.count and (why := why_not(place, own, every_run)):
            show(f"loop: {from_here(place)} {why}, so it is now {from_here(Path(answers.set_aside()))}, and this campaign begins anew")
        self.needs_disk: bool | None = known.get("needs_disk") if answers.count else None
        self.begins: list[str] | None = known.get("begins") if answers.count else None  # which steps say where faults begin
        for left in folders_in(known):
            if is_of_loop(left) and not is_taken_away(left):
                show(f"loop: {left} has the runs of a campaign that was killed, and can't be deleted")
        self.write()

    def write(self) -> None:
        tree.write(self.path, f"{json.dumps(self.said | {'needs_disk': self.needs_disk, 'begins': self.begins, 'work': self.folders})}\n".encode())

    def take(self, folder: Path) -> None:
        """Notes a folder for runs before it is made, so that the next campaign knows it if this one is killed."""
        self.folders.append(str(folder))
        self.write()

    def forget(self, folder: Path) -> None:
        self.folders.remove(str(folder))
        self.write()


def folders_in(known: dict) -> list[Path]:
    """The folders of runs that a note names. An earlier version of the loop named one, in place of a list."""
    named = known.get("work", [])
    return [Path(str(name)) for name in (named if isinstance(named, list) else [named])]


class Work:
    """The folder of the runs. `needs_disk` says whether they have to lie on a disk, and `begins` which steps say where faults begin. Each is None if nobody
    knows yet."""

    def __init__(self, note: Note | None, needs_disk: bool | None, begins: list[str] | None):
        found = places()
        self.note = note
        self.place = found[-1] if needs_disk else found[0]
        self.disk = found[1] if self.place != found[-1] else ""  # where runs may lie on a disk, if they lie in memory
        self.is_decided = needs_disk is not None
        self.begins = begins
        self.folder = self.new_folder()
        self.numbers = itertools.count(1)
        self.lock = threading.Lock()

    def new_folder(self) -> Path:
        while os.path.lexists(folder := Path(self.place, PREFIX + secrets.token_hex(4))):
            pass
        if self.note:
            self.note.take(folder)
        folder.mkdir(CLOSED)
        folder.chmod(OPEN)
        return folder

    def new(self) -> Path:
        """Makes a folder for a run, which is closed to other users while none of its programs runs. The paths of all such folders have the same length."""
        with self.lock:
            folder = self.folder / f"{next(self.numbers):08d}"
        folder.mkdir(CLOSED)
        return folder

    def decide(self, needs_disk: bool) -> None:
        """Notes whether runs have to lie on a disk, for campaigns that go on after a stop."""
        self.is_decided = True
        if self.note:
            self.note.needs_disk = needs_disk
            self.note.write()

    def take_begins(self, steps: list[str]) -> None:
        """Notes which steps say where faults begin."""
        self.begins = steps
        if self.note:
            self.note.begins = steps
            self.note.write()

    def move(self, kept: str) -> None:
        """Goes on in a folder on a disk, with the folder of this name."""
        left, self.place, self.disk = self.folder, self.disk, ""
        self.folder = self.new_folder()
        tree.copy(str(left / kept), str(self.folder / kept))
        self.delete(left)

    def delete(self, folder: Path) -> None:
        """Deletes a folder of runs. If something stays, the note still has it for the next campaign."""
        if is_taken_away(folder) and self.note:
            self.note.forget(folder)

    def end(self) -> None:
        self.delete(self.folder)
