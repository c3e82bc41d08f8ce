"""The round of a campaign: it asks what is to be tried, lets an engine try it, records the answers, and asks again until nothing is left."""

import time
from collections import deque
from collections.abc import Callable, Iterable, Iterator
from datetime import timedelta
from typing import Protocol

from .answers import Answers, Stopped
from .following import Batch, Following
from .paklour import Paklour
from .shown import is_terminal, show, so_many, status

TELLS_EVERY, WRITES_EVERY = 10, 0.1  # seconds between two lines, or until a line is written over
AHEAD = 2  # so many scenarios for each worker are to wait


class Engine(Protocol):
    """What tries scenarios: a script or a harness."""

    name: str
    jobs: int
    takes_more: bool  # whether it begins scenarios that come while it tries others
    runs: int  # how many it has made

    def try_all(self, asked: Batch, more: Iterable[Batch] = ()) -> Iterable[list[str]]:
        """The answers that come of each scenario, in the order in which they come. More scenarios may come while these are tried."""


class Campaign:
    def __init__(self, paklour: Paklour, answers: Answers, engine: Engine, shows_progress: bool):
        self.paklour = paklour
        self.answers = answers
        self.engine = engine
        self.shows_progress = shows_progress
        self.following: Following | None = None
        self.asked = 0  # how many scenarios the engine was given in this round
        self.tried = 0  # and how many of them it has tried
        self.came: deque[float] = deque(maxlen=32)  # when the last answers came
        self.begun = self.told = time.monotonic()
        self.writes_over = is_terminal()

    @property
    def waiting(self) -> int:
        return self.asked - self.tried

    def apart(self) -> float | None:
        """The mean time between the last answers, in seconds."""
        return (self.came[-1] - self.came[0]) / (len(self.came) - 1) if len(self.came) > 1 else None

    def tell(self) -> None:
        apart = self.apart()
        left = "unknown" if apart is None else str(timedelta(seconds=int(apart * self.waiting)))
        if self.writes_over:
            answered, taken = self.answers.count, int(time.monotonic() - self.begun)
            plans, runs = so_many(answered + self.waiting, "plan"), so_many(self.engine.runs, "run")
            status.show(f"{answered} of {plans} answered by {runs}, {self.answers.failing} failing; "
                f"{taken} s, time left {left}")
        elif self.shows_progress:
            pace = f" ({1 / apart:.1f} a second)" if apart else ""
            show(f"loop: {self.answers.count} answered{pace}, {self.waiting} still to answer, {self.answers.failing} failing, time left {left}")
        self.told = time.monotonic()

    def keep(self, answer: str) -> None:
        self.answers.keep(answer)
        self.came.append(time.monotonic())
        if self.following:
            self.following.tell(answer, at_once=self.waiting - self.engine.jobs < AHEAD * self.engine.jobs)

    def look(self) -> None:
        """Checks that the recorded answers can be read, unless the program that follows them does."""
        if not self.following or self.following.has_failed():
            self.paklour.look()

    def follows(self, asked: Batch) -> bool:
        """Whether scenarios are begun as soon as they are known. One worker never waits for another, and all scenarios wait for `none`."""
        return self.engine.takes_more and self.engine.jobs > 1 and asked != ["none"] and self.paklour.can_follow

    def counted(self, batches: Iterable[Batch]) -> Iterator[Batch]:
        for batch in batches:
            self.asked += len(batch)
            yield batch

    def try_round(self, asked: Batch, after: Callable[[str], None]) -> None:
        """Tries scenarios, and what is asked for meanwhile, until nothing is left to begin."""
        self.asked, self.tried = len(asked), 0
        self.tell()
        more = self.counted(self.following.batches()) if self.following else ()
        for answers in self.engine.try_all(asked, more):
            self.tried += 1
            for answer in answers:
                self.keep(answer)
                after(answer)
            if self.came and self.came[-1] - self.told >= (WRITES_EVERY if self.writes_over else TELLS_EVERY):
                self.tell()
            self.look()
            if self.following and not self.waiting:
                self.following.finish()

    def grow(self, after: Callable[[str], None] = lambda answer: None, mine: Callable[[Batch], Batch] | None = None) -> None:
        """Tries scenarios until none is left, or none of this machine's share. Each recorded answer is passed to `after`."""
        before: Batch = []
        while asked := self.paklour.asks() if mine is None else mine(self.paklour.asks()):
            if asked == before:
                raise Stopped(f"{self.engine.name} answers other scenarios than those that it was given, the first of which is: {asked[0]}")
            before, known = asked, self.answers.count
            self.following = Following(self.paklour.settings, self.answers, asked) if mine is None and self.follows(asked) else None
            try:
                self.try_round(asked, after)
            finally:
                status.show("")
                if self.following:
                    self.following.end()
            if self.answers.count == known:
                raise Stopped(f"{self.engine.name} printed no answer: run it by hand with the first scenario that it was given: {asked[0]}")
        if not self.writes_over:
            self.asked = self.tried = 0
            self.tell()
