"""Judges what a power cut left, by the harness. The same promises over the same state are judged once."""

import hashlib
import threading
from dataclasses import dataclass
from enum import Enum
from pathlib import Path

from . import tree
from .compared import Comparison, compared
from .looking import looks_in_words
from .operations import MOST_CHOICES, Promises
from .run import Runner, last_line
from .settings import MOST_TEXT
from .shown import last_of, plain

PASS, UNRESOLVED = "pass", "unresolved"
CRASHED, HUNG = "fail crashed", "fail hung"


@dataclass(frozen=True)
class Evidence:
    """What lay before the judge when it found that a promise is broken."""

    said: bytes  # the promises
    files: Comparison  # with those that `prepare` left
    printed: str  # the last lines that it printed behind the code


@dataclass(frozen=True)
class Judgement:
    verdict: str
    why: str = ""  # why it is unresolved, crashed or hung
    is_known: bool = False  # it was taken from another run
    state: str = ""  # the state of the power cut in which it fails, if that is another one than the scenario says
    evidence: Evidence | None = None  # if it was asked for, and the judge itself found the failure
    looks: tuple[str, ...] = ()  # if `look` found it: what was expected, and what was seen


class LooksUp(Enum):
    """Which judgements may be taken from an earlier one of the same state."""

    NONE = "none"
    PASSES = "those that pass"
    ALL = "all"


class Judge:
    def __init__(self, runner: Runner):
        self.runner = runner
        self.known: dict[bytes, Judgement] = {}
        self.keeps_evidence = False  # comparing files takes time for each judgement, and few of them are told one by one
        self.count = 0
        self.lock = threading.Lock()

    def judge(self, folder: Path, promised: Promises, looks_up: LooksUp) -> Judgement:
        """Judges the data of a run's folder, or returns the known judgement of the same promises and state."""
        key = hashlib.sha256(repr(promised).encode()).digest() + tree.digest(folder / "data", self.runner.harness.unjudged)
        known = self.known.get(key) if looks_up != LooksUp.NONE else None
        if known and (looks_up == LooksUp.ALL or known.verdict == PASS):
            return known
        judgement = self.ask(folder, promised)
        with self.lock:
            self.count += 1
            self.known.setdefault(key, Judgement(judgement.verdict, judgement.why, is_known=True))
        return judgement

    def files(self, folder: Path) -> Comparison:
        return compared(self.runner.prepared, folder / "data", self.runner.harness.unjudged)

    def ask(self, folder: Path, promised: Promises) -> Judgement:
        """The judgement of `judge` if the harness has one, and if that passes, the one by looking."""
        files = self.files(folder) if self.keeps_evidence else None  # now, since the judge may change them
        judgement = self.ask_judge(folder, promised.said, files) if "judge" in self.runner.harness.steps else Judgement(PASS)
        return self.look(folder, promised, files) if self.runner.looks and judgement.verdict == PASS else judgement

    def look(self, folder: Path, promised: Promises, files: Comparison | None) -> Judgement:
        """What `look` prints has to be what it prints after a run without faults of some operations, among them all that were acknowledged."""
        status, why, seen = self.runner.looked(folder)
        evidence = Evidence(promised.said, files, "") if files else None
        if why:
            return Judgement(UNRESOLVED, f"look: {why}")
        if status:
            return Judgement("fail unopenable", evidence=evidence)
        if promised.are_too_many:
            return Judgement(UNRESOLVED, f"look: there are more than {MOST_CHOICES} choices of operations that may be done or not")
        looks = self.runner.looks
        done = next((done for done in promised.choices() if looks.after(promised.numbers(done)).seen == seen), None)
        if done is not None and promised.allows(done):
            return Judgement(PASS)
        return Judgement("fail torn" if done is None else "fail lost", evidence=evidence, looks=looks_in_words(looks.expected(promised), seen))

    def ask_judge(self, folder: Path, said: bytes, files: Comparison | None) -> Judgement:
        promises, output = folder / "promises", folder / "judged"
        promises.write_bytes(said)
        output.unlink(missing_ok=True)
        output.touch()
        status, why = self.runner.judged(folder, output, SAID=str(promises), PREPARED=str(self.runner.prepared))
        if why:
            return Judgement(UNRESOLVED, f"judge: {why}")
        if status == 0:
            return Judgement(PASS)
        if status == 1:
            printed = last_of(output.read_bytes().partition(b"\n")[2])
            return Judgement(f"fail {code_of(output)}", evidence=Evidence(said, files, printed) if files else None)
        return Judgement(UNRESOLVED, f"judge ended with {status}: {last_line(folder / 'errors') or 'it wrote nothing to standard error'}")


def code_of(output: Path) -> str:
    """The first line of the judge's output, in a form that settings can have."""
    first = output.read_bytes().split(b"\n", 1)[0].strip()
    return " ".join(plain(first, MOST_TEXT).split()) or "broken"
