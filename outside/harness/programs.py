"""The programs of outside/ that lay a run out: the supervisor, the power cut, and `rewind`, which lays a run out as it was at an earlier hit."""

import os
import select
import signal
from pathlib import Path
from typing import BinaryIO

from .answers import Stopped
from .processes import OUTSIDE
from .room import LOOKS_EVERY, Room, TooLarge
from .shown import show_once
from .trace import MARKS

OUT = OUTSIDE / "out"
FAULTS, POWERCUT, REWIND = OUT / "faults", OUT / "powercut", OUT / "rewind"
PAUSED, REFUSED, PANICKED = 97, 98, 99  # how the supervisor ends a run
UNTOLD = 3  # how `rewind` ends if the run's notes don't show the files at that hit


def check_built() -> None:
    for program in (FAULTS, POWERCUT, REWIND, OUT / "within"):
        if not os.access(program, os.X_OK):
            raise Stopped(f"{program} isn't built: call make -C {OUTSIDE}")


class Tools:
    """Calls these programs for runs, each in a folder of its own. If one ends unexpectedly, the campaign ends: the run can't be judged."""

    def __init__(self, room: Room):
        self.room = room
        self.environment = dict(os.environb)

    def call(self, program: Path, run: Path, *words: str | Path, may_end_with: int | None = None) -> tuple[int, str]:
        """The program's status and output. Many calls are made for each campaign, and the system's spawn takes half the time of `subprocess`."""
        reader, writer = os.pipe()
        outputs = [(os.POSIX_SPAWN_DUP2, writer, number) for number in (1, 2)]
        child = os.posix_spawn(program, [program, *words], self.environment, file_actions=outputs)
        os.close(writer)
        with open(reader, "rb") as output:
            self.await_room(output, child, run.parent)
            told = output.read().decode("utf-8", "surrogateescape").strip()
        status = os.waitstatus_to_exitcode(os.waitpid(child, 0)[1])
        is_expected = status in (0, may_end_with)
        if not is_expected:
            self.room.look()  # since it may have ended because there is no room
        if why := self.room.want(run.parent):
            raise TooLarge(why)
        if not is_expected:
            raise Stopped(told or f"{program.name} ended with status {status}")
        return status, told

    def await_room(self, output: BinaryIO, child: int, folder: Path) -> None:
        """Waits until the program writes or ends, and ends it if there is no room for what it lays out."""
        heard = select.poll()
        heard.register(output, select.POLLIN)
        while not heard.poll(LOOKS_EVERY * 1000):
            if self.room.is_crowded(folder):
                os.kill(child, signal.SIGKILL)

    def begin(self, run: Path, data: Path) -> None:
        self.call(POWERCUT, run, "begin", run, data)
        (run / MARKS).touch()

    def cut(self, run: Path, data: Path, *state: str, goes_on: bool = False) -> bool:
        """Cuts the power. False if the scenario has a pause there."""
        status, told = self.call(POWERCUT, run, "recover" if goes_on else "cut", run, data, *state, may_end_with=PAUSED)
        show_once(told)
        return status != PAUSED

    def pending(self, run: Path) -> list[list[str]]:
        """The number and the words of each pending change."""
        told = self.call(POWERCUT, run, "pending", run)[1]
        return [line.split("\t") for line in told.split("\n") if line]  # names may have other characters at which `splitlines` parts a text

    def rewind(self, run: Path, new: Path, hit: int, scenario: str) -> int | None:
        """Makes `new`, the run as it was when the scenario ended it at that hit, or at its end if the hit is behind the last one. Returns how
        many bytes it had printed, -1 for all, or None if the run doesn't show that."""
        status, said = self.call(REWIND, run, run, new, str(hit), scenario, may_end_with=UNTOLD)
        if status == UNTOLD:
            return None
        return -1 if said == "all" else int(said)
