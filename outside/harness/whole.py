"""A whole campaign of a harness: its files, its lines for a person, and its exit status."""

import math
import os
import re
import shlex
import time
from collections import Counter
from collections.abc import Iterable, Iterator
from dataclasses import dataclass
from pathlib import Path
from typing import NoReturn

from . import failing, tree
from .answers import DIFFERS, Answers, Stopped, changed
from .appendix import ADDS, Appendix
from .budget import Budget, Sample, Spent
from .campaign import Campaign
from .certify import Certifier
from .deciding import OTHERWISE, Decider
from .definition import Harness
from .guess import guesses
from .judging import CRASHED, UNRESOLVED
from .outcome import Outcome
from .paklour import MOST_PLANS, Paklour, TooManyPlans
from .run import NOT_FOUND, Runner
from .settings import NO_POINT, Settings
from .shard import Shard, places_in, scenario_in
from .scenario import scenario_of
from .shown import GREEN, OUTPUT, RED, YELLOW, from_here, show, show_once, so_many, write_out
from .story import Story, again, hits_of, story_of, text_of
from .telling import failure, group_of, in_order
from .under_test import program_of, today
from .workers import Workers

LOOK_SHARE = 200  # checking the answers takes one part in so many of the time: the loop wrote them itself, and the next round checks them too
MOST_STORIES = 100  # so many findings and causes have a story on the page, as many as have their runs there
MOST_OF_A_KIND = 10  # so many failures that have the same calls in common are printed one by one
UNHIT = re.compile(rb"(census|reached) .* 0\n")  # the lines of a point that no run hits
ALWAYS = "--page"
FORMS = {ALWAYS: "page.html", "--junit": "junit.xml", "--json": "report.json"}
TRUSTS = {  # what FAULTS_SYNC may be, and what that means
    "ext4": "the sync of a file that has grown, or whose name is new, makes all names before that last too, which XFS does and Btrfs doesn't",
    "xfs": "as on ext4, and fdatasync also makes a rename last, which ext4 doesn't",
    "btrfs": "fdatasync makes a rename last, which ext4 doesn't, and a file that was renamed over another is never zeros",
}


@dataclass
class Asked:
    """What the arguments of the command line ask for."""

    words: str  # the command and the harness, as `again:` prints them
    jobs: int
    shows_progress: bool
    brief: bool
    strict: bool
    forms: list[str]
    failures: int | None  # after how many it stops
    shard: Shard | None  # this machine's share of the campaign
    failing: bool  # whether scenarios that failed once are tried first, and kept
    budget: Budget | None  # what the campaign may take


class Enough(Exception):
    """As many plans fail as were asked for, or the run without faults fails."""


class Whole:
    """A campaign of a harness, and its engine: it passes on what the workers decide, and prints lines about it."""

    name = "the harness"
    takes_more = True

    def __init__(self, harness: Harness, settings: Settings, decider: Decider, answers: Answers, asked: Asked, certifier: Certifier | None = None):
        self.harness = harness
        self.settings = settings
        self.decider = decider
        self.answers = answers
        self.asked = asked
        self.certifier = certifier
        self.confirmed: dict[str, Outcome] = {}  # what findings and causes came to when they were run once more, by scenario
        self.jobs = asked.jobs
        self.folder = Path(answers.path).parent
        self.begun = time.monotonic()
        self.paklour = Paklour(str(settings.path), answers, LOOK_SHARE)
        self.workers = Workers(decider, asked.jobs)
        self.found: list[str] = []  # scenarios that fail
        self.fails_again: list[str] = []  # those among the ones that failed once
        self.failing: Counter[tuple[str, str]] = Counter()  # by its kind
        self.unresolved: Counter[str] = Counter()
        self.stories: dict[str, Story] = {}  # by scenario
        self.clean: list[str] = []  # what each hit of the run without faults is about
        self.flaky: list[str] = []  # what is told of each run that did otherwise than the run that it grew from, until it was made again
        self.sample: Sample | None = None  # of the depth that is tried, if there is a budget
        self.is_same = True  # whether no second run came out otherwise than the first
        self.has_told_size = answers.count > 0

    # ---- as an engine

    def try_all(self, asked: list[str], more: Iterable[list[str]] = ()) -> Iterator[list[str]]:
        self.tell_size(asked)
        for outcome in self.workers.decided(asked, more):
            answer = outcome.answer(self.settings.depth > 0)
            self.settings.take_code(answer)
            self.settings.take_points(answer)
            if outcome.scenario == "none":
                self.require_pass(outcome)
            yield [answer]
            self.tell(outcome)
            if self.asked.budget:
                self.asked.budget.check(self.answers.count)

    # ---- lines for a person

    def tell_size(self, asked: list[str]) -> None:
        """Prints how many plans there are, once the first round of them is known."""
        if asked == ["none"] or self.has_told_size or self.harness.has_choice:  # of operations, which lead to more
            return
        self.has_told_size = True
        hits = len(asked) // 2
        more = sum(2 * math.comb(hits, faults) for faults in range(2, self.settings.depth + 1))
        rest = f", and perhaps {more} more up to depth {self.settings.depth}" if more else ""
        show(f"loop: {so_many(len(asked), 'plan')}" + " with one fault" * (self.settings.depth > 0) + rest)
        if more + len(asked) >= MOST_PLANS:
            show(f"loop: a campaign may have {MOST_PLANS} plans. If there are more, the report is of a lower depth: so take one, or fewer points or kinds")

    def tell(self, outcome: Outcome) -> None:
        if outcome.parting and outcome.knows_hits:
            self.flaky.append(f"{outcome.parting}: {outcome.scenario}")
        if outcome.differs_from:
            self.tell_difference(outcome.differs_from.verdict, outcome.differs_from.hits, outcome)
        if outcome.verdict == UNRESOLVED:
            self.tell_unresolved(outcome)
        if outcome.verdict.startswith("fail"):
            self.tell_failure(outcome)
            if self.asked.failures and len(self.found) >= self.asked.failures:
                raise Enough

    def tell_unresolved(self, outcome: Outcome) -> None:
        """Prints each reason for an unresolved run once."""
        why = outcome.judgement.why
        self.unresolved[why] += 1
        if self.unresolved[why] == 1:
            show(": ".join(["unresolved", why, *[str(outcome.parting)] * (why == OTHERWISE), outcome.scenario]), YELLOW)

    def tell_failure(self, outcome: Outcome) -> None:
        """Prints a failure, or counts it if enough of its kind were printed."""
        self.found.append(outcome.scenario)
        kind = group_of(outcome)
        self.failing[kind] += 1
        if self.failing[kind] <= MOST_OF_A_KIND:
            show(failure(outcome), RED)

    def require_pass(self, outcome: Outcome) -> None:
        """Ends the campaign if the run without faults doesn't work. This run is no answer: the next campaign begins with it again."""
        if outcome.works:
            return
        if on_disk := self.works_on_disk():
            show(f"loop: the run without faults passes on a disk: set TMPDIR={self.decider.runner.work.disk}")
        if outcome.verdict == UNRESOLVED:
            self.tell_unresolved(outcome)
            refuse("the run without faults is unresolved, for the reason above, so nothing else is tried", outcome)
        if outcome.status:
            *_, last = ["", *outcome.errors.splitlines()]
            missing = f", as a shell does if a program isn't there: {last}" * (outcome.status == NOT_FOUND)
            refuse(f"the run without faults is refused: `run` ended with {outcome.status}{missing}", outcome)
        if outcome.promised.lack:
            refuse("the run without faults is refused: it printed no line, so it promised nothing, and every plan would pass", outcome)
        self.tell_failure(outcome)
        self.certify([outcome])
        self.found = ["none"]  # then no other failure means anything
        for change in outcome.pending:
            show(f"pending: {' '.join(change)}")
        show("\n".join([*outcome.judgement.looks, *[f"judge: {line}" for line in outcome.errors.splitlines()]]))
        show("\n".join(f"loop: {line}" for line in guesses(outcome, "again" in self.harness.steps)))
        if outcome.verdict != CRASHED and not on_disk:
            self.tell_trust(is_pending=bool(outcome.pending))
        show(f"loop: if this is known, {shlex.join(['--known', outcome.verdict.removeprefix('fail ')])} goes on, and counts what else fails")
        raise Enough

    def works_on_disk(self) -> bool:
        """Whether the run without faults was made in memory, and works on a disk."""
        return bool(self.decider.runner.work.disk) and self.decider.works_on_disk()

    def tell_trust(self, is_pending: bool) -> None:
        """Prints whether the run without faults passes on file systems that promise more about names."""
        if not is_pending:
            return show("loop: no change is pending, so no power cut did this: look at the judge and at the program")
        if not self.harness.is_killed_only and self.decider.works_killed():
            show("loop: the run without faults passes if no power cut comes: if the program promises no sync, --kill tries it so")
        if "FAULTS_SYNC" in os.environ | self.harness.variables:
            return
        passing = [word for word in TRUSTS if self.decider.works(self.decider.runner.with_variables(FAULTS_SYNC=word))]
        for word in passing:
            show(f"loop: the run without faults passes if you set FAULTS_SYNC={word}: {TRUSTS[word]}")
        if not passing:
            show(f"loop: the run without faults fails with FAULTS_SYNC={' and FAULTS_SYNC='.join(TRUSTS)} too: the pending changes need a sync after them")

    # ---- the campaign

    def run(self) -> int:
        campaign = Campaign(self.paklour, self.answers, self, self.asked.shows_progress)
        for point in self.settings.refused_points():
            raise Stopped(f"{self.settings.path}: {point}: {NO_POINT}")
        if self.decider.runner.looks:
            self.decider.room.within(self.decider.runner.looks.check)
        try:
            if self.asked.failing:
                self.try_failing()
            is_whole = self.grow_within(campaign) if self.asked.budget else self.grow(campaign)
            if self.asked.shard:
                return self.end_of_shard()
            return self.report() if is_whole else self.end_of_sample()
        except Enough:
            return self.end_early()

    def try_failing(self) -> None:
        """Tries the scenarios that failed once. They are no answers of this campaign, since a program that has changed may not meet their faults."""
        known = failing.scenarios_in(failing.path_of(self.harness))
        unmet = 0
        for outcome in self.workers.run_again(known):
            if outcome.verdict.startswith("fail"):
                self.fails_again.append(outcome.scenario)
                show(failure(outcome), RED)
            elif outcome.verdict == UNRESOLVED:
                self.tell_unresolved(outcome)
            unmet += not failing.meets_all(outcome)
        not_met = f", and {unmet} don't meet all of their faults any more" if unmet else ""
        show(f"loop: {len(self.fails_again)} of {len(known)} scenarios that failed once fail again{not_met}")
        if self.asked.failures and len(self.fails_again) >= self.asked.failures:
            raise Enough

    def keep_failing(self, found: list[str]) -> None:
        if self.asked.failing and (count := failing.add(failing.path_of(self.harness), found)):
            show(f"loop: added to {from_here(failing.path_of(self.harness))}, of the scenarios that fail: {count}")

    def grow(self, campaign: Campaign) -> bool:
        """Tries scenarios until none is left. If there are more plans than a campaign may have, it goes on to a lower depth."""
        while True:
            try:
                campaign.grow(mine=self.mine if self.asked.shard else None)
                return True
            except TooManyPlans:
                self.end_below(self.settings.depth)

    def end_below(self, depth: int) -> None:
        """Goes back to the depth before one that has too many plans."""
        if depth < 2:
            raise TooManyPlans
        self.take_depth(depth - 1)
        show(f"loop: depth {depth} has more than {MOST_PLANS} plans, so this campaign goes to depth {depth - 1}: plans with up to {depth - 1} "
            f"fault{'s' * (depth > 2)} are tried whole, and the report is of these")

    def take_depth(self, depth: int) -> None:
        self.settings.take_depth(depth)
        self.paklour.settings = str(self.settings.path)

    def grow_within(self, campaign: Campaign) -> bool:
        """Tries one depth whole after the other, until the budget is spent, and goes back to the last one that is whole. Whether there is one."""
        seed, depths = self.settings.table.get("seed", 0), range(1, self.settings.depth + 1)
        for depth in depths:
            self.take_depth(depth)
            self.sample = Sample(seed, depth)
            try:
                campaign.grow(mine=self.mine)
            except TooManyPlans:
                self.end_below(depth)
                break
            except Spent:
                if depth > 1:
                    self.take_depth(depth - 1)
                return depth > 1
        self.sample = None
        return True

    def mine(self, asked: list[str]) -> list[str]:
        """What this machine tries of what is asked for, in its order."""
        places = places_in(self.answers)
        own = [text for text in asked if self.asked.shard.has(text, places)] if self.asked.shard else asked
        if not self.sample or not own:
            return own
        drawn = self.sample.drawn(own)
        self.asked.budget.check(self.answers.count)
        return drawn

    def end_early(self) -> int:
        """Runs the failures once more, as a report's findings are. The run without faults was just made, so it isn't made again."""
        if self.fails_again and not self.found:
            self.tell_counts()
            self.tell_end("scenarios that failed once fail again, so nothing else was tried", self.fails_again[0])
            return 1
        if self.found == ["none"]:
            self.tell_counts()
            self.tell_end("the run without faults fails, so nothing else was tried", "none")
            return 1
        ways = self.confirm(self.found)
        self.certify(self.confirmed[scenario] for scenario in self.found)
        self.keep_failing(self.found)
        self.tell_counts()
        self.tell_end(came_to(self.answers.failing, f"{self.answers.count} plans that were tried", self.answers.unresolved, ways), self.found[0])
        return self.status(1)

    def end_of_sample(self) -> int:
        """Ends a campaign of which not even the plans with one fault could all be tried. Its report is what is known so far."""
        write_out(self.paklour.report("--partial")[1])
        found = [scenario_in(line) for line in self.answers.lines() if line.startswith("fail")]
        ways = self.confirm(found)
        self.certify(self.confirmed[scenario] for scenario in found)
        self.keep_failing(found)
        self.tell_counts()
        plans = f"{so_many(self.answers.count, 'plan')} that {'was' if self.answers.count == 1 else 'were'} tried"
        self.tell_end(f"depth 1 isn't whole: {came_to(self.answers.failing, plans, self.answers.unresolved, ways)}; {self.sample.told(self.answers)}", *found[:1])
        return self.status(1) if found else DIFFERS

    def end_of_shard(self) -> int:
        """Ends a share of a campaign. It has no report: the campaign that joins the shares writes one, and runs failures once more."""
        self.tell_counts()
        if self.sample:
            show(f"loop: the budget is spent: {self.sample.told(self.answers)}, of this share; the same command goes on with the rest")
        return self.status(1 if self.answers.failing or self.fails_again else 0)

    def report(self) -> int:
        status, report = self.paklour.strict_report(self.settings.is_made) if self.asked.strict else self.paklour.report()
        brief = self.paklour.report("--brief", tells=False)[1]
        tree.write(self.folder / "report", report)
        forms = {form: self.paklour.report(form, tells=False)[1] for form in self.asked.forms}
        self.write_forms(forms)
        write_out(report if not self.asked.brief else for_terminal(brief) if os.isatty(OUTPUT) else brief)
        found = list(dict.fromkeys([*findings(report, self.settings.codes), *self.drawn_failures()]))
        ways = self.confirm(found)
        self.certify(self.confirmed[scenario] for scenario in found)
        self.write_forms(self.with_appendix(forms, found))
        self.keep_failing(found)
        self.tell_counts()
        plans, unresolved, fails = counts_of(report)
        if not (fails or unresolved):
            self.tell_untried()
        before = f", and {len(self.fails_again)} that failed once fail again" if self.fails_again else ""
        drawn = f"; {self.sample.told(self.answers)}" if self.sample else ""
        self.tell_end(came_to(fails, f"{plans} plans", unresolved, ways) + before + drawn, *[*found, *self.fails_again][:1],
            page=f"; page {from_here(self.folder / FORMS[ALWAYS])}")
        return self.status(1 if (found or self.fails_again) and status == 0 else status)

    def drawn_failures(self) -> list[str]:
        """The scenarios that fail among the plans that were drawn beside the report's."""
        return [scenario_in(line) for line in self.sample.tried(self.answers) if line.startswith("fail")] if self.sample else []

    def write_forms(self, forms: dict[str, bytes]) -> None:
        for form, text in forms.items():
            tree.write(self.folder / FORMS[form], text)

    def with_appendix(self, forms: dict[str, bytes], found: list[str]) -> dict[str, bytes]:
        """The forms that people read, with what the loop tells of these scenarios."""
        stories = [self.stories[scenario] for scenario in found if scenario in self.stories]
        program = program_of(self.harness)
        title = program.name if self.settings.is_made else text_of(self.settings.table["outside"]["label"])
        sample = self.sample.told(self.answers) if self.sample else ""
        appendix = Appendix(title, program, today(), self.asked.words, f"{sample[:1].upper()}{sample[1:]}." * bool(sample), self.clean, stories)
        return {form: ADDS[form](text, appendix) for form, text in forms.items() if form in ADDS}

    def certify(self, outcomes: Iterable[Outcome]) -> None:
        """Prints on which real file systems failures come true, as many as were asked for, each beneath its own line."""
        if not self.certifier:
            return
        failing = [outcome for outcome in outcomes if outcome.verdict.startswith("fail")]
        if len(failing) > self.certifier.wanted.most:
            show(f"loop: {self.certifier.wanted.most} of {len(failing)} findings and causes are tried on real file systems (--certificates)")
        for outcome in failing[:self.certifier.wanted.most]:
            if outcome.scenario != "none":  # whose line was the last one
                show(failure(outcome), RED)
            told = self.certifier.certify(outcome.scenario, outcome.verdict)
            for sentence in told:
                show(f"  {sentence}")
            if outcome.scenario in self.stories:
                self.stories[outcome.scenario].further[:0] = map(text_of, told)  # what is known comes before what is guessed

    def status(self, of_report: int) -> int:
        """The exit status: that of the report, unless a run of this call didn't do the same each time, and so nobody knows what it came to."""
        return DIFFERS if not self.is_same or of_report == 0 and self.answers.unresolved else of_report

    @property
    def runs(self) -> int:
        return self.decider.runner.runs

    def tell_counts(self) -> None:
        for kind, count in self.failing.items():
            if count > MOST_OF_A_KIND:
                show(f"loop: {count - MOST_OF_A_KIND} more failures like those above: {': '.join(kind)}")
        for why, count in self.unresolved.items():
            if count > 1:
                more = "1 more plan is" if count == 2 else f"{count - 1} more plans are"
                show(f"loop: {more} unresolved for this reason: {why}")
        decider = self.decider
        if self.flaky:
            show(f"loop: flaky {len(self.flaky)}: so many runs did otherwise than the run that they grew from, until they were made again: {self.flaky[0]}")
        if decider.unsteady:
            first = min(map(scenario_of, decider.unsteady), key=len)
            show(f"loop: runs that didn't come out the same again, and from which nothing more was derived: {len(decider.unsteady)}, the first of them {first}")
        for code in self.harness.known:
            count = decider.losses[code]
            show(f"loop: known: {code}: {f'{count} judgements came to it, and count as passed' if count else 'no judgement came to it'}")
        derived = "1 plan was" if decider.followed == 1 else f"{decider.followed} plans were"
        tried = "1 of them was" if decider.tried == 1 else f"{decider.tried} of them were"
        made = f"{so_many(self.runs, 'run')} and {so_many(decider.judge.count, 'judgement')}"
        show(f"loop: {made}; {derived} derived from other runs, {tried} run as a check")

    def tell_untried(self) -> None:
        """If all plans pass, a person takes the program for sound. A run that begins with nothing has no old data, which are what most programs lose, and a
        judge may not look at the data."""
        if "again" not in self.harness.steps and not self.harness.operations and not any(self.decider.runner.prepared.iterdir()):
            show("loop: each run began with an empty folder, so nothing that was there before could be lost: have a second harness whose `prepare` makes "
                "some, as paklour-new --begins again writes one")
        if "judge" in self.harness.steps and self.decider.sees_nothing(self.confirmed["none"].promised):
            show("loop: the judge also passes what lay there before the run, though everything was promised: if all that the run stored were lost, it "
                "wouldn't say so")

    def tell_end(self, came_to: str, scenario: str = "", page: str = "") -> None:
        """Prints what one looks for: what the campaign came to, and how that run is made again."""
        colour = RED if scenario else YELLOW if self.answers.unresolved else GREEN
        show(f"{came_to}; {time.monotonic() - self.begun:.1f} s{page}", colour)
        if scenario:
            show(f"again: {again(self.asked.words, scenario)}")

    def confirm(self, scenarios: list[str]) -> int:
        """Runs each finding and cause, and the run without faults, once more, and prints what the causes have in common. Returns in how many ways the
        program fails."""
        lines = {scenario_in(line): line for line in self.answers.lines()}
        groups: Counter[tuple[str, str]] = Counter()
        perhaps: dict[tuple[str, str], list[str]] = {}
        looks: dict[tuple[str, str], tuple[str, ...]] = {}
        told = set(scenarios[:MOST_STORIES])
        self.decider.judge.keeps_evidence = True
        for outcome in self.workers.run_again(["none", *scenarios]):
            line = lines[outcome.scenario]
            self.confirmed[outcome.scenario] = outcome
            if outcome.answer(self.settings.depth > 0) != line and not (outcome.is_late and line.startswith(f"{outcome.verdict}\t")):
                self.tell_difference(line.split("\t")[0], line.split("\t")[-1], outcome)
            elif outcome.parting and not outcome.is_late:
                self.is_same = False
                show(f"loop: the run did otherwise than before: {outcome.parting}: {outcome.scenario}")
            elif outcome.scenario == "none":
                self.clean = hits_of(outcome)
            else:
                groups[group_of(outcome)] += 1
                guessed = guesses(outcome, "again" in self.harness.steps)
                perhaps.setdefault(group_of(outcome), guessed)
                looks.setdefault(group_of(outcome), outcome.judgement.looks)
                if outcome.scenario in told:
                    self.stories[outcome.scenario] = story_of(outcome, self.asked.words, self.decider.only_state)
                    self.stories[outcome.scenario].further += map(text_of, guessed)
        for group in in_order(groups):
            show(f"{so_many(groups[group], 'failure')}: {': '.join(group)}")
            show("\n".join(f"  {line}" for line in looks[group]))
            for line in perhaps[group]:
                show_once(f"  {line}")
        return len(groups)

    def tell_difference(self, verdict: str, hits: str, tried: Outcome) -> None:
        self.is_same = False
        if verdict != tried.verdict:
            show(f"loop: {changed('verdict', verdict, tried.verdict, tried.scenario)}")
        else:
            show(f"loop: {changed('hits', hits, tried.hits, tried.scenario)}")
        show_once("loop: the program or its judge doesn't do the same each time; with --every-run nothing is derived from another run")


def refuse(why: str, outcome: Outcome) -> NoReturn:
    """Ends the campaign, with what the program wrote to standard error."""
    raise Stopped("\n".join([f"{why}. The last lines on standard error:", outcome.errors]) if outcome.errors else why)


def findings(report: bytes, codes: list[str]) -> list[str]:
    """The scenarios of a report's first failures, of what they are reduced to, and of the causes, each once."""
    found = []
    for line in report.decode("utf-8", "surrogateescape").splitlines():
        kind, _, rest = line.partition(" ")
        if kind in ("scenario", "reduced"):
            found.append(rest)
        elif kind == "cause":
            rest = rest.partition(" ")[2]
            code = max((code for code in codes if rest.startswith(code + " ")), key=len)
            found.append(rest[len(code) + 1:])
    return list(dict.fromkeys(found))


def for_terminal(brief: bytes) -> bytes:
    """The report as a person reads it, without the points that no run hits: in a first report they are a third of its lines. The file has them."""
    return b"".join(line for line in brief.splitlines(keepends=True) if not UNHIT.fullmatch(line))


def counts_of(report: bytes) -> tuple[int, int, int]:
    """How many plans a whole report has, how many of them are unresolved, and how many fail."""
    verdicts = Counter(re.findall(rb"^verdict [0-9]+ (pass|unresolved|fail)", report, re.MULTILINE))
    return verdicts.total(), verdicts[b"unresolved"], verdicts[b"fail"]


def came_to(count: int, plans: str, unresolved: int, ways: int) -> str:
    fails = f"{count} of {plans} fail{'s' * (count == 1)}, in {so_many(ways, 'way')}" if count else f"none of {plans} fails"
    return fails + (f", and {unresolved} {'is' if unresolved == 1 else 'are'} unresolved" if unresolved else "")


def decider_of(runner: Runner, settings: Settings, every_run: bool, answers: Answers) -> Decider:
    decider = Decider(runner, settings.asks(), settings.depth, every_run)
    if settings.depth:
        for line in answers.lines():
            decider.repeats.take_answer(line)
    return decider
