"""The story of a failing run, for somebody who has neither the harness nor a terminal: what happened, what was pending, what lay there, and what was
promised."""

import itertools
import shlex
from dataclasses import dataclass, field

from .compared import Comparison, Side
from .deciding import OF_BYTES
from .operations import WORK
from .outcome import Outcome
from .scenario import is_own
from .shown import escaped
from .telling import AND_BEFORE, KEEP, acts, failure

MOST_LINES = 8  # so many promises, the last ones, are told
MOST_HITS = 1000  # so many hits of a run have the names of their files
ALONE, BLOCK = ", alone", "block "  # parts of the words of the power cut, as AND_BEFORE


@dataclass
class Change:
    """A change that was pending when the power was cut."""

    what: str
    kept: str  # "kept" or "lost"


@dataclass
class Story:
    scenario: str
    verdict: str
    words: str  # as the loop prints them
    state: str  # the state of the power cut in which it fails, unless the disk keeps what the scenario says, and else loses all that is pending
    pending: list[Change]
    promised: list[str]
    promised_before: int  # how many promises are left out, before these
    files: Comparison | None  # None if the judge didn't find the failure, as with a crash
    judge: list[str]  # the last lines that the judge wrote
    program: list[str]  # the last lines of the program on standard error, if the judge didn't find the failure
    hits: list[str]  # what each hit is about: a file, or a pending change
    again: str  # the command that makes the run again
    further: list[str] = field(default_factory=list)  # sentences of others about it


def text_of(line: str) -> str:
    """A line of a program, which may have any bytes: what a text can't have is escaped, as the terminal has it."""
    return escaped(line).encode("utf-8", "surrogateescape").decode("utf-8", "backslashreplace")


def again(words: str, scenario: str) -> str:
    return f"{words} --try {shlex.quote(scenario)}"


def words_of_change(words: str) -> str:
    """A pending change by itself. Its words also say what a hit asks: for example, whether it is kept and all before it."""
    return text_of(words.removesuffix(AND_BEFORE))


def place_of(words: str) -> str:
    """Which length or which block of which file a pending change is of: its other versions have the same. Empty if it is one of the sequence of names."""
    if not words.startswith(OF_BYTES):
        return ""
    return words.rpartition(" as ")[0] if words.startswith(BLOCK) else words.removesuffix(ALONE).rpartition(" ")[0]


def says_kept(hit: list[str], change: list[str]) -> bool:
    """Whether the disk keeps a change as this hit of the last power cut returns: what is asked there is the change, it and all before it, or a later version."""
    asked, _, asked_words = hit[4].partition(" ")
    number, words = change
    if int(number) >= int(asked):
        return number == asked
    return place_of(words) == place_of(asked_words) and (words.startswith(OF_BYTES) or asked_words.endswith(AND_BEFORE))


def changes_of(outcome: Outcome, state: str) -> list[Change]:
    """The pending changes, and which of them the disk keeps. In a state of its own that goes by their kinds, and otherwise by what acted at the last cut."""
    last_cut = itertools.takewhile(lambda hit: hit[1] == KEEP, reversed(outcome.trace))
    returned = [hit for hit in last_cut if acts(hit)]
    by_state = {"names": lambda words: not words.startswith(OF_BYTES), "contents": lambda words: words.startswith(OF_BYTES), "live": lambda words: True}
    found = []
    for change in outcome.pending:
        is_kept = by_state[state](change[1]) if state in by_state else any(says_kept(hit, change) for hit in returned)
        found.append(Change(words_of_change(change[1]), "kept" if is_kept else "lost"))
    return found


def hits_of(outcome: Outcome) -> list[str]:
    """What each hit is about."""
    return [text_of(about(hit)) for hit in outcome.trace[:MOST_HITS]]


def about(hit: list[str]) -> str:
    """A file, or at a power cut what it asks, or the operation that was given. A point of the program's own is about no file."""
    if hit[1] == WORK:
        return hit[6] if hit[6] != "-" else "no more"
    if is_own(hit[1]):
        return "a step of the program"
    return hit[4].partition(" ")[2] if hit[1] == KEEP else hit[4]


def story_of(outcome: Outcome, words: str, only: str = "") -> Story:
    """The story of an outcome that fails. `words` are the command of the campaign, and `only` is the state if no other one is judged: then it isn't told."""
    state = outcome.judgement.state or only
    evidence = outcome.judgement.evidence
    said = (evidence.said if evidence else outcome.promised.said).decode("utf-8", "surrogateescape").splitlines()
    errors = [text_of(line) for line in outcome.errors.splitlines()]
    printed = [text_of(line) for line in [*outcome.judgement.looks, *evidence.printed.splitlines()]] if evidence else []
    return Story(outcome.scenario, text_of(outcome.verdict), text_of(failure(outcome)), state, changes_of(outcome, state),
        [text_of(line) for line in said[-MOST_LINES:]], max(0, len(said) - MOST_LINES), evidence.files if evidence else None,
        printed + errors if evidence else [], [] if evidence else errors, hits_of(outcome), again(words, outcome.scenario))


# ---- as lines, for a CI server

def words_of_side(side: Side | None) -> str:
    if side is None:
        return "not there"
    if side.kind != "file":
        return f"{side.kind} {side.text}".rstrip()
    begin = f"from byte {side.begin} on " * bool(side.begin)
    return f"{side.length} byte{'s' * (side.length != 1)}" + (f", {begin}`{side.text}`" if side.text else "") + " .." * bool(side.more)


def lines_of_files(files: Comparison) -> list[str]:
    return [
        *[f"{one.name}: before the run: {words_of_side(one.before)}; when the judge looked: {words_of_side(one.after)}" for one in files.differences],
        *[f"names that differ besides: {files.more}"] * bool(files.more),
        *[f"names that differ into which the judge doesn't look: {files.unjudged}"] * bool(files.unjudged),
    ]


def lines_of(story: Story) -> list[str]:
    """The story as lines."""
    return [
        story.words,
        *[f"pending: {change.what}: {change.kept}" for change in story.pending],
        *([f"promised: {line}" for line in story.promised] or ["promised: nothing"]),
        *(lines_of_files(story.files) if story.files else []),
        *[f"judge: {line}" for line in story.judge],
        *[f"program: {line}" for line in story.program],
        *story.further,
        f"again: {story.again}",
    ]
