"""The outcome of a scenario: its judgement and its hits."""

from dataclasses import dataclass, field

from .judging import PASS, Judgement
from .operations import Promises
from .scenario import hits_text
from .trace import MOST_HITS


@dataclass(frozen=True)
class Parting:
    """Where a run does otherwise than a run before it."""

    number: int  # of the hit
    before: str
    now: str

    def __str__(self) -> str:
        return f"hit {self.number} was {self.before}, and now is {self.now}"


@dataclass
class Outcome:
    scenario: str
    judgement: Judgement
    trace: list[list[str]]
    pending: list[list[str]] = field(default_factory=list)  # the pending changes at its cuts, in order, if it fails
    follows: bool = False  # it was derived from another run, or from a judgement of the same state
    status: int = 0  # how `run` ended, as a shell has it
    promised: Promises = Promises(b"")
    errors: str = ""  # the last lines on standard error: of the judge if it fails, otherwise of the program
    knows_hits: bool = True
    is_late: bool = False  # its run was ended at its time, so its hits are those up to that moment
    parting: Parting | None = None  # where its run, or the first of its runs, did otherwise than the runs before
    differs_from: "Outcome | None" = None  # what was derived from another run, if the run of its own came out otherwise

    @property
    def verdict(self) -> str:
        return self.judgement.verdict

    @property
    def works(self) -> bool:
        """Whether the program did what it is there for, as it has to without faults: it ended with 0, promised something, and kept it."""
        return self.verdict == PASS and not self.status and not self.promised.lack

    @property
    def hits(self) -> str:
        """The hits as an answer has them, or `-` if nobody knows them, or there are more than an answer may have."""
        if not self.knows_hits or len(self.trace) > MOST_HITS:
            return "-"
        return hits_text([hit[1] for hit in self.trace])

    def answer(self, tells_hits: bool = True) -> str:
        return f"{self.verdict}\t{self.scenario}" + (f"\t{self.hits}" if tells_hits else "")
