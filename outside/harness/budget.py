"""What a campaign may take. It then goes on depth by depth, and the plans of a depth are tried in an order that the seed draws: so what is left when the
budget is spent is whole to a depth, with a sample of the next one, which is the same on every machine."""

import hashlib
import re
import time
from collections.abc import Iterable
from dataclasses import dataclass, field

from .answers import Answers
from .scenario import Scenario, Unreadable
from .shard import scenario_in
from .words import Usage

UNITS = {"s": 1, "m": 60, "h": 3600}


class Spent(Exception):
    """As much time or as many plans as were asked for are used up."""


def seconds_of(text: str, name: str) -> int:
    """Reads a time such as 90s, 10m or 2h."""
    if not re.fullmatch("[1-9][0-9]*[smh]", text):
        raise Usage(f"{name} {text}: this is no time such as 90s, 10m or 2h")
    return int(text[:-1]) * UNITS[text[-1]]


@dataclass(frozen=True)
class Budget:
    seconds: int | None  # how long new plans are begun
    plans: int | None  # so many plans are tried, with those of earlier campaigns that this one goes on from
    begun: float = field(default_factory=time.monotonic)

    def check(self, tried: int) -> None:
        """Raises `Spent` once it is used up."""
        is_late = self.seconds is not None and time.monotonic() - self.begun >= self.seconds
        if is_late or self.plans is not None and tried >= self.plans:
            raise Spent


def faults_in(text: str) -> int | None:
    """How many faults a plan has. None if one of them is sticky, or drawn."""
    try:
        return len(Scenario(text).faults())
    except Unreadable:
        return None


@dataclass
class Sample:
    """Plans of one depth, in the order in which they are tried."""

    seed: int
    depth: int
    known: set[str] = field(default_factory=set)  # the plans with so many faults, as far as they are known

    def drawn(self, asked: Iterable[str]) -> list[str]:
        """Those that are asked for, drawn by the seed: first plans with as many faults as the depth, and then sticky ones, which follow from these."""
        texts = list(asked)
        self.known.update(text for text in texts if faults_in(text) == self.depth)
        return sorted(texts, key=lambda text: (text not in self.known, self.place(text)))

    def place(self, text: str) -> bytes:
        return hashlib.sha256(f"{self.seed} {text}".encode("utf-8", "surrogateescape")).digest()

    def tried(self, answers: Answers) -> list[str]:
        """The answers to its plans."""
        return [line for line in answers.lines() if faults_in(scenario_in(line)) == self.depth]

    def told(self, answers: Answers) -> str:
        """What was tried of it, as a sentence."""
        tried = self.tried(answers)
        fails = sum(line.startswith("fail") for line in tried)
        plans = self.known | {scenario_in(line) for line in tried}
        return (f"of the {len(plans)} plans with {self.depth} fault{'s' * (self.depth > 1)}, {len(tried)} were tried, drawn by seed {self.seed}: "
            f"{fails or 'none'} of them fail{'s' * (fails < 2)}")
