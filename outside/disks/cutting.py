"""The power cut of campaigns beside the model: a workload as a program under the supervisor, and every state that its cut can lay out."""

import os
import subprocess
import sys
import tempfile
from collections.abc import Iterator
from dataclasses import dataclass
from pathlib import Path

from .comparison import Seen, model_at
from .disk import read_tree
from .model import state_of
from .profile import Profile
from .steps import Generator, Step, make_base, text_of

OUTSIDE = Path(__file__).resolve().parent.parent
POWERCUT, SUPERVISOR = OUTSIDE / "out" / "powercut", OUTSIDE / "out" / "faults"
KEEP = "power::keep"
PROGRAM = "import sys; sys.path.insert(0, sys.argv[1]); from disks.steps import Maker, steps_of; Maker('.', print).make_all(steps_of(sys.argv[2]))"
BY_THE_KERNEL = ("commit", "writeback")  # steps that no program makes


class TooMany(Exception):
    """A workload has more states than were asked for."""


def keeping(hits: list[int]) -> str:
    """The scenario that keeps at these hits alone."""
    terms, last = [], 0
    for hit in hits:
        terms += [f"{hit - last - 1}*off"] * (hit > last + 1) + ["1*return"]
        last = hit
    return f"{KEEP}={'->'.join(terms)}" if hits else "none"


@dataclass
class Cut:
    """A run of a workload, whose power can be cut in turn."""

    folder: str

    @property
    def data(self) -> str:
        return f"{self.folder}/data"

    def call(self, *words: str) -> str:
        return subprocess.run([POWERCUT, *words], capture_output=True, text=True, check=True).stdout

    def run(self, steps: list[Step], profile: str, **variables: str) -> None:
        os.mkdir(self.data, 0o755)
        make_base(self.data)
        self.call("begin", f"{self.folder}/run", self.data)
        environment = os.environ | {"FAULTS_ROOT": self.data, "FAULTS_RUN": f"{self.folder}/run", "FAULTS_SYNC": profile, "FAILPOINTS": "none"} | variables
        words = [SUPERVISOR, sys.executable, "-B", "-c", PROGRAM, OUTSIDE, text_of(steps)]
        subprocess.run(words, cwd=self.data, env=environment, check=True, capture_output=True)

    def lay(self, *state: str) -> tuple:
        self.call("cut", f"{self.folder}/run", self.data, *state)
        return state_of(read_tree(self.data))

    def asked(self) -> list[list[str]]:
        """The hits of the last cut."""
        lines = Path(f"{self.folder}/run/trace").read_text(encoding="utf-8").splitlines()
        return [line.split("\t") for line in lines if line.split("\t")[1] == KEEP]

    def states(self, most: int) -> Iterator[tuple[str, tuple]]:
        """Each state that scenarios can lay out, with its scenario."""
        todo: list[list[int]] = [[]]
        count = 0
        while todo:
            kept = todo.pop()
            count += 1
            if count > most:
                raise TooMany
            yield keeping(kept), self.lay("keep", keeping(kept))
            todo += [[*kept, hit] for hit in range((kept[-1] if kept else 0) + 1, len(self.asked()) + 1)]


@dataclass
class Difference:
    """What one of the two has alone."""

    steps: list[Step]
    profile: str
    only_cut: dict[tuple, str]
    only_model: set[tuple]
    count: int

    def __bool__(self) -> bool:
        return bool(self.only_cut or self.only_model)


def states_of_cut(steps: list[Step], profile: str, most: int) -> dict[tuple, str]:
    """Each state, with the first scenario that lays it out."""
    made = [step for step in steps if step[0] not in BY_THE_KERNEL]
    with tempfile.TemporaryDirectory(prefix="disks.") as folder:
        cut, found = Cut(folder), {}
        cut.run(made, profile)
        for scenario, state in cut.states(most):
            found.setdefault(state, scenario)
        return found


def difference(steps: list[Step], profile: Profile, most: int) -> Difference:
    by_model = model_at(profile, steps, Seen(len(steps), True, "")).states(most + 1)
    if len(by_model) > most:
        raise TooMany
    by_cut = states_of_cut(steps, profile.name, 4 * most)
    only_cut = {state: scenario for state, scenario in by_cut.items() if state not in by_model}
    return Difference(steps, profile.name, only_cut, by_model - by_cut.keys(), len(by_cut))


def small_workload(seed: int) -> list[Step]:
    generator = Generator(seed)
    steps = generator.steps(generator.chance.choice([1, 2, 2, 3, 3, 4]))
    return [step for step in steps if step[0] not in BY_THE_KERNEL]
