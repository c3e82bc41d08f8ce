"""Finds the outcome of each scenario, by a run of its own or from another run.

A run that ends by a panic is the same as another run up to that hit. What the power cut keeps is another cut of the same run. So the run
with the other faults is made once, and the rest is laid out from its notes. One in twenty of the derived outcomes is run and judged all the same,
and must come out alike."""

import hashlib
import itertools
import threading
from collections import Counter
from dataclasses import dataclass, replace
from pathlib import Path

from . import tree
from .crashes import noted_crash, told_crash
from .definition import ALL_STATES, LASTING, LIVE, Harness
from .judging import CRASHED, HUNG, PASS, UNRESOLVED, Judge, Judgement, LooksUp
from .operations import WORK, Promises
from .outcome import Outcome
from .record import Record
from .records import Key, key_of, lasting_faults
from .repeats import Repeats
from .room import TooLarge
from .run import Runner
from .scenario import ONCE, POWER, Scenario, Unreadable, is_own, scenario_of
from .shown import last_lines
from .trace import MARKS, length_of, trace_of

ONE_IN = 20  # of so many derived outcomes one is run as a check
MORE_RUNS = 3  # so often a run is made again that does otherwise than the runs before
OTHERWISE = f"in {MORE_RUNS + 1} runs it did otherwise than the run that it grew from"
OF_BYTES = ("length ", "block ")  # how the words of a pending change begin if it is none of the sequence of names


@dataclass(frozen=True)
class Ended:
    """The outcome of a run that was ended at a hit. There may be tens of thousands of them, so it has no whole trace."""

    hit: int
    rest: str  # lines of its trace, from that hit on
    judgement: Judgement
    pending: list[list[str]]

    def outcome_at(self, hit: int, scenario: str, trace: list[list[str]]) -> Outcome:
        """The outcome for another hit at the same place. `trace` is the trace of the known run up to that hit."""
        end, *asked = [line.split("\t") for line in self.rest.split("\n")]
        trace[-1][3] = end[3]
        later = [[str(int(number) + hit - self.hit), *fields] for number, *fields in asked]
        return Outcome(scenario, replace(self.judgement, is_known=True), trace + later, self.pending)


def ended(outcome: Outcome, hit: int) -> Ended:
    rest = "\n".join("\t".join(fields) for fields in outcome.trace[hit - 1:])
    return Ended(hit, rest, outcome.judgement, outcome.pending)


def is_tried(scenario: str) -> bool:
    """Whether this derived scenario is run all the same. The choice is the same in each campaign."""
    return int.from_bytes(hashlib.sha256(scenario.encode("utf-8", "surrogateescape")).digest()[:8], "big") % ONE_IN == 0


def require_met(outcome: Outcome) -> None:
    """Without a depth, a run that met none of its faults has tried nothing. A program may read the scenario by itself, and then nobody sees its points."""
    names = [piece.partition("=")[0].strip() for piece in outcome.scenario.split(";")]
    if outcome.scenario != "none" and not any(map(is_own, names)) and all(hit[3] == "go" for hit in outcome.trace):
        outcome.judgement = Judgement(UNRESOLVED, "the run met none of its faults")


class Decider:
    def __init__(self, runner: Runner, asks: bool, depth: int, every_run: bool):
        self.runner = runner
        self.tools = runner.tools
        self.room = runner.room
        self.harness: Harness = runner.harness
        self.judge = Judge(runner)
        self.records = runner.room.records
        self.asks = asks  # whether the scenario says what a power cut keeps
        self.depth = depth  # nothing is derived from a run with so many faults
        self.every_run = every_run or not depth  # without a depth, runs need not repeat each other's hits
        self.tried = 0
        self.followed = 0
        self.losses: Counter[str] = Counter()  # how many judgements found a loss that is known, by its code
        self.made_bases: set[Key] = set()
        self.repeats = Repeats()
        self.unsteady: set[Key] = set()  # the faults of runs that came out otherwise when they were made again: nothing is derived from these
        self.places: dict[tuple, Ended] = {}  # the outcomes of runs that were ended, by the place where they were
        self.lock = threading.Lock()

    def base_of(self, text: str) -> tuple[Key, int] | None:
        """The known run from which this scenario's outcome can be derived, and the hit at which it ends, if there is such a run."""
        try:
            scenario = Scenario(text)
            base = None if self.every_run or scenario.is_endless() else self.records.base_of(scenario)
        except Unreadable:
            return None
        return base if base and base[0] not in self.unsteady else None

    def make_base(self, text: str) -> None:
        """Makes, once, the run from which this scenario's outcome can be derived. A campaign that goes on after a stop has no runs yet."""
        try:
            scenario = Scenario(text)
            key = lasting_faults(scenario)
        except Unreadable:
            return
        with self.lock:
            is_new = not self.every_run and not scenario.is_endless() and key != set(scenario.faults()) and key not in self.made_bases
            self.made_bases.add(key)
        if is_new and (record := self.steady(key)):
            self.keep(key_of(trace_of(record.run)), record)

    def decide(self, text: str) -> Outcome:
        outcome = self.room.within(lambda: self.decided(text))
        with self.lock:
            self.followed += outcome.follows
        return outcome

    def decided(self, text: str) -> Outcome:
        base = self.base_of(text)
        if base is None:
            self.make_base(text)
            base = self.base_of(text)
        outcome = self.follow(text, *base) if base else None
        if outcome is None:
            outcome = self.run(text, LooksUp.NONE if self.every_run else LooksUp.ALL)
        if outcome.follows and is_tried(text):
            return self.tried_out(outcome, base)
        return self.repeated(outcome)

    def tried_out(self, followed: Outcome, base: tuple[Key, int] | None) -> Outcome:
        """The outcome of the own run of a scenario whose outcome was derived. If the two differ, nothing more is derived from that other run."""
        with self.lock:
            self.tried += 1
        outcome = self.repeated(self.run(followed.scenario, LooksUp.NONE))
        outcome.follows = (outcome.verdict, outcome.hits) == (followed.verdict, followed.hits)
        if outcome.knows_hits and not outcome.follows:
            outcome.differs_from = followed
            if base:
                self.unsteady.add(base[0])
        return outcome

    def repeated(self, outcome: Outcome) -> Outcome:
        """This outcome. If its run does otherwise than the runs before, that of another run of this scenario, or if none does as they did, an unresolved
        one. A run without a verdict, or that was ended at its time, isn't made again."""
        if not self.depth:
            return outcome
        first = parting = self.repeats.take(outcome)
        for _ in range(MORE_RUNS):
            if parting and outcome.verdict != UNRESOLVED and not outcome.is_late:
                outcome = self.run(outcome.scenario, LooksUp.NONE)
                parting = self.repeats.take(outcome)
        if parting:
            why = outcome.judgement.why or OTHERWISE
            outcome = Outcome(outcome.scenario, Judgement(UNRESOLVED, why), [], knows_hits=False)
        outcome.parting = first
        return outcome

    def run_again(self, text: str, looks_up: LooksUp) -> Outcome:
        return self.room.within(lambda: self.run(text, looks_up))

    def works(self, runner: Runner) -> bool:
        """Whether the program works without faults if this runner makes its run."""
        asks = self.asks and not runner.harness.is_killed_only
        return Decider(runner, asks, self.depth, every_run=True).run_again("none", LooksUp.NONE).works

    def works_killed(self) -> bool:
        """Whether the program works without faults if no power cut comes."""
        return "again" not in self.harness.steps and self.works(self.runner.with_harness(states=(LIVE,)))

    def works_on_disk(self) -> bool:
        with self.runner.on_disk() as runner:
            return self.works(runner)

    def sees_nothing(self, promised: Promises) -> bool:
        """Whether the judge passes what lay there before the run without faults, though that run changes it, and everything was promised."""
        return self.room.within(lambda: self.passes_what_was_before(promised))

    def passes_what_was_before(self, promised: Promises) -> bool:
        record = self.runner.make("none")
        data = record.folder / "data"
        is_changed = tree.digest(data) != tree.digest(self.runner.prepared)
        tree.remove(data)
        tree.copy(str(self.runner.prepared), str(data))
        passes = is_changed and self.judge.ask(record.folder, promised).verdict == PASS
        tree.remove(record.folder)
        self.room.end(record.folder, 0)
        return passes

    def run(self, text: str, looks_up: LooksUp) -> Outcome:
        record = self.runner.make(text)
        outcome = self.finish(record, len(record.points) + 1, text, looks_up)
        outcome.follows = outcome.judgement.is_known
        outcome.parting = self.repeats.parting(outcome.trace, outcome.verdict) if self.depth else None
        self.keep(key_of(trace_of(record.run)[:len(record.points)]), record, is_steady=not outcome.parting)
        return outcome

    def keep(self, key: Key, record: Record, is_steady: bool = True) -> None:
        ends = any(fault.answer.startswith("panic") for fault in key)
        size = tree.size(record.folder)
        if record.why or ends or len(key) >= self.depth + self.is_sticky_too(key) or self.every_run or not is_steady:
            tree.remove(record.folder)
            self.room.end(record.folder, size)
        else:
            self.room.end(record.folder, size)
            self.records.give(key, record, size)
            self.room.make_way()

    @staticmethod
    def is_sticky_too(key: Key) -> bool:
        """Whether a run with these faults is also that of a plan with its last fault sticky."""
        return any(fault.answer in ONCE for fault in key)

    def follow(self, text: str, key: Key, hit: int) -> Outcome | None:
        """Derives the outcome from a known run, which is made again if its files are gone. None if it can't be derived from that run."""
        record = self.records.take(key)
        if record:
            self.room.begin(record.folder)
        else:
            record = self.steady(key)
        if not record:
            return None
        outcome = None if record.why else self.ended_at(record, key, hit, text)
        if outcome:
            outcome.follows = True
        self.keep(key, record)
        return outcome

    def ended_at(self, record: Record, key: Key, hit: int, text: str) -> Outcome | None:
        """The outcome of a run that ends at a hit. If there is no change between two hits, such as two reads, a run that ends at either leaves the same."""
        if "again" in self.harness.steps or hit > len(record.points):
            return self.finish(record, hit, text, LooksUp.ALL)
        given = record.points[:hit - 1].count(WORK)  # an operation that was given may be done, though nothing has changed since
        place = key, given, *record.place(hit), noted_crash(record.run, hit), *(piece for piece in text.split(";") if piece.strip().startswith(POWER))
        if place in self.places:
            return self.places[place].outcome_at(hit, text, trace_of(record.run)[:hit])
        outcome = self.finish(record, hit, text, LooksUp.ALL)
        if outcome:
            self.places[place] = ended(outcome, hit)
        return outcome

    def steady(self, key: Key) -> Record | None:
        """A run with these faults that does as the runs before it. None if several runs do otherwise."""
        for _ in range(1 + MORE_RUNS):
            record = self.runner.make(scenario_of(key))
            is_same = record.points == self.records.points.get(key, record.points)
            if record.why or is_same and not self.repeats.parting(trace_of(record.run)):
                return record
            self.keep(key, record, is_steady=False)
        self.unsteady.add(key)
        return None

    # ---- from the end of a run to its judgement

    def finish(self, record: Record, hit: int, text: str, looks_up: LooksUp) -> Outcome | None:
        """Cuts the power of a run at that hit, runs `again` if the harness has one, and judges what is left."""
        if record.why:
            return self.ended_early(text, record.why, record.run)
        try:
            outcome = self.finished(record, hit, text, looks_up)
        except TooLarge as found:
            return Outcome(text, Judgement(UNRESOLVED, str(found)), trace_of(record.run))
        if outcome:
            outcome.status = record.status
        if not self.depth:
            require_met(outcome)
        return outcome

    def ended_early(self, text: str, why: str, run: Path) -> Outcome:
        """The outcome of a run that was ended for this reason. If it took too long, and the run that it grew from ended by itself, it hangs."""
        trace, is_late = trace_of(run), why == self.runner.late
        hangs = is_late and self.depth and "hung" not in self.harness.allowed and self.repeats.grows_from_whole(trace)
        return Outcome(text, Judgement(HUNG if hangs else UNRESOLVED, why), trace, errors=last_lines(run.parent / "errors"), is_late=is_late)

    def crash(self, record: Record, hit: int) -> str:
        """The crash of a process in a run that ends at that hit, or an empty text."""
        if hit <= len(record.points):
            return noted_crash(record.run, hit)
        return noted_crash(record.run) or told_crash("run", record.status, record.folder / "errors", 0, record.wrote)

    def with_crash(self, outcome: Outcome, run: Path, crash: str) -> Outcome:
        """The outcome of a run of which a process crashed, or none if the text is empty. What a judge says of it comes first."""
        if crash and outcome.verdict == PASS and "crashed" not in self.harness.allowed:
            outcome.judgement = replace(outcome.judgement, verdict=CRASHED, why=crash)
            outcome.pending += self.tools.pending(run)
        return outcome

    def finished(self, record: Record, hit: int, text: str, looks_up: LooksUp) -> Outcome | None:
        run, said = record.run, record.said()
        is_end = hit == len(record.points) + 1
        if "again" in self.harness.steps or not is_end:
            if not record.is_cut:
                self.tools.cut(record.run, record.data)
            run = record.rewound
            if run.exists():
                tree.remove(run)
            length = self.tools.rewind(record.run, run, hit, text)
            if length is None:
                return None
            said = said if length < 0 else said[:length]
        record.is_cut = True
        promised = self.runner.promises(record, run, said)
        if "again" in self.harness.steps:
            outcome = self.go_on(record, run, text, promised, looks_up)
            if outcome.verdict == PASS and self.is_killed(outcome, min(hit, len(record.points))):
                self.go_on_killed(record, hit, outcome, promised, looks_up)
        else:
            outcome = self.cut_and_judge(record.folder, run, text, promised, looks_up)
        return self.with_crash(outcome, run, self.crash(record, hit))

    def go_on(self, record: Record, run: Path, text: str, promised: Promises, looks_up: LooksUp) -> Outcome:
        """Runs recovery under the same scenario, from what the power cut left."""
        more, errors = record.said_again, record.folder / "errors"
        more.unlink(missing_ok=True)
        begun = length_of(errors)
        state = ["keep", text] if self.asks else [LASTING]
        if not self.tools.cut(run, record.data, *state, goes_on=True):
            return Outcome(text, Judgement(UNRESOLVED, "the scenario has a pause"), trace_of(run))
        (run / MARKS).touch()
        status, why = self.runner.under("again", run, record.folder, text, more)
        if why:
            return self.ended_early(text, why, run)
        crash = noted_crash(run) or told_crash("again", status, errors, begun, length_of(errors))
        outcome = self.cut_and_judge(record.folder, run, text, promised.with_more(more.read_bytes()), looks_up)
        return self.with_crash(outcome, run, crash)

    @property
    def only_state(self) -> str:
        """The state in which each run is judged, if that is always the same one, and not that in which all pending changes are lost."""
        states = self.harness.states
        return states[0] if len(states) == 1 and states[0] != LASTING and not self.asks else ""

    def is_killed(self, outcome: Outcome, hit: int) -> bool:
        """Whether `run` was ended at that hit and nothing acted behind it, and so whether a kill alone is judged too."""
        ends = hit > 0 and outcome.trace[hit - 1][3].startswith("panic") and all(each[3] == "go" for each in outcome.trace[hit:])
        return ends and LIVE in (self.harness.states or ALL_STATES)

    def go_on_killed(self, record: Record, hit: int, outcome: Outcome, promised: Promises, looks_up: LooksUp) -> None:
        """Judges recovery after the program alone was killed at that hit, so that all it did is there. As nothing acts in this recovery, its hits belong to
        no answer, and the judgement to the scenario that keeps nothing."""
        run, more, errors = record.killed, record.folder / "said_killed", record.folder / "errors"
        if run.exists():
            tree.remove(run)
        more.unlink(missing_ok=True)
        self.tools.rewind(record.run, run, hit, outcome.scenario)
        pending = self.tools.pending(run)
        if not pending:
            return
        self.tools.cut(run, record.data, LIVE, goes_on=True)
        (run / MARKS).touch()
        _, why = self.runner.under("again", run, record.folder, "none", more)
        if why:
            outcome.judgement = Judgement(UNRESOLVED, f"after a kill: {why}")
            return
        begun = length_of(errors)
        self.tools.cut(run, record.data, LIVE)
        judgement = self.judged(record.folder, promised.with_more(more.read_bytes()), looks_up, LIVE)
        if judgement.verdict != PASS:
            outcome.judgement, outcome.pending, outcome.errors = judgement, pending, last_lines(errors, begun)

    def cut_and_judge(self, folder: Path, run: Path, text: str, promised: Promises, looks_up: LooksUp) -> Outcome:
        """Judges each state that a power cut may leave, up to the first that breaks a promise."""
        errors, begun = folder / "errors", length_of(folder / "errors")
        if self.asks and not self.tools.cut(run, folder / "data", "keep", text):
            return Outcome(text, Judgement(UNRESOLVED, "the scenario has a pause"), trace_of(run))
        trace = trace_of(run)
        judgements = [self.judged(folder, promised, looks_up, "")] if self.asks else []
        for name, state in self.states(run, trace):
            if judgements and judgements[-1].verdict != PASS:
                break
            self.tools.cut(run, folder / "data", state)
            judgements.append(self.judged(folder, promised, looks_up, name))
        judgement = replace(judgements[-1], is_known=all(each.is_known for each in judgements))
        outcome = Outcome(text, judgement, trace, promised=promised)
        if outcome.verdict.startswith("fail"):
            outcome.pending = self.tools.pending(run)
            outcome.errors = last_lines(errors, begun)
        else:
            outcome.errors = last_lines(errors, end=begun)
        return outcome

    def judged(self, folder: Path, promised: Promises, looks_up: LooksUp, state: str) -> Judgement:
        """The judgement of a state of this name. A loss that is known is none."""
        judgement = self.judge.judge(folder, promised, looks_up)
        if self.harness.knows(judgement.verdict):
            self.losses[judgement.verdict.removeprefix("fail ")] += 1
            return replace(judgement, verdict=PASS)
        return judgement if judgement.verdict == PASS else replace(judgement, state=state)

    def states(self, run: Path, trace: list[list[str]]) -> list[tuple[str, str]]:
        """The states in which a run is judged besides that of its scenario, if they keep different changes, each with its name as it is told and as the cut
        has it. They belong to the scenario that keeps nothing, so that the same answers have the same verdict."""
        asked = [hit[3] for hit in itertools.takewhile(lambda hit: hit[1].startswith(POWER), reversed(trace))]
        if self.asks and (not asked or any(answer.startswith("return") for answer in asked)):
            return []
        changes = self.tools.pending(run)
        has_bytes = any(change[1].startswith(OF_BYTES) for change in changes)
        has_names = not all(change[1].startswith(OF_BYTES) for change in changes)
        kept = {LASTING: (False, False), "names": (has_names, False), "contents": (False, has_bytes), LIVE: (has_names, has_bytes)}
        judged = [*[LASTING] * self.asks, *(self.harness.states or ALL_STATES)]
        differing = {kept[state]: state for state in judged}
        states = [("" if keeps == kept[LASTING] or len(judged) == 1 else state, state) for keeps, state in differing.items()]
        return states[self.asks:]  # the first is that of the scenario
