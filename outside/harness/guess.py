"""What may be wrong with a program that fails, as a person would guess from its run: a sentence for each of the usual mistakes, and one on its mend."""

import re

from .definition import LIVE
from .flaws import Flaw
from .judging import CRASHED, HUNG
from .operations import given_in
from .outcome import Outcome
from .scenario import is_own
from .telling import KEEP, acts, call_of

RENAMED = re.compile(r"rename (.+) -> (.+?)(?:, .*)?")
OF_FILE = re.compile(r"(?:length of (.+) \d+|block \d+ of (.+) as after .*)(?:, .*)?")
LENGTHENED = re.compile(r"length of (.+) \d+")
CUT = re.compile(r"(?:truncate (.+) to \d+|unlink (.+?))(?:, .*)?")
MADE = re.compile(r"(?:create (.+?)|(?:link|rename) (?:.+ -> )?(.+?))(?:, .*)?")
READS = ("sys::read", "sys::recv")
NAMES = "names"  # the state of the power cut that has the changes of names alone


def unsynced_in(pending: list[str]) -> list[str]:
    """The files of which bytes aren't on the disk."""
    return sorted({found[1] or found[2] for words in pending if (found := OF_FILE.fullmatch(words))})


def kept_in(outcome: Outcome, pending: list[str]) -> list[str]:
    """The pending changes of names and lengths that the disk has."""
    if outcome.judgement.state in (NAMES, LIVE):
        return pending
    return [hit[4].partition(" ")[2] for hit in outcome.trace if hit[1] == KEEP and acts(hit)]


def found_in(pattern: re.Pattern, words: list[str]) -> list[str]:
    """The files of the changes that are of this pattern."""
    return [found[found.lastindex] for change in words if (found := pattern.fullmatch(change))]


def renamed_first(kept: list[str], pending: list[str]) -> list[str]:
    """A file that took another's place on the disk, though its bytes weren't there yet."""
    renames = [found for words in kept if (found := RENAMED.fullmatch(words)) and found[2] in unsynced_in(pending)]
    return [line for found in renames[:1] for line in Flaw.RENAMED_FIRST.said(
        f"perhaps {found[1]} isn't synced before it is renamed to {found[2]}: the disk has the name, and not yet the bytes")]


def gone_first(outcome: Outcome, kept: list[str], pending: list[str]) -> list[str]:
    """A file of before the run that was cut or removed, where what was to take its place isn't there."""
    is_struck = any(acts(hit) and hit[1] != KEEP for hit in outcome.trace)
    gone = [name for name in found_in(CUT, kept) if name not in found_in(MADE, pending) and (is_struck or name in unsynced_in(pending))]
    return [line for name in gone[:1] for line in Flaw.OLD_GONE_FIRST.said(f"perhaps {name} is cut or removed before what takes its place is on the disk")]


def tail_taken(outcome: Outcome, kept: list[str], pending: list[str]) -> list[str]:
    """A file of before the run that has got longer by a half of what was written, or by zeros."""
    halves = [hit[4] for hit in outcome.trace if acts(hit) and hit[1] == "sys::write" and hit[3] == "return(HALF)"] if outcome.status else []
    tails = [name for name in [*found_in(LENGTHENED, kept), *halves] if name not in [*found_in(MADE, pending), *found_in(CUT, pending)]]
    return [line for name in tails[:1] for line in Flaw.TAIL_TAKEN.said(f"perhaps the end of {name}, which isn't a whole record, is taken for one")]


def never_synced(pending: list[str]) -> list[str]:
    files = unsynced_in(pending)
    renamed = [words for words in pending if (found := RENAMED.fullmatch(words)) and found[2] not in files]
    said = [f"perhaps nobody syncs {', '.join(files)} before the promise"] if files else []
    if renamed or pending and not files:
        said += Flaw.FOLDER_NOT_SYNCED.said("perhaps a folder isn't synced after a name in it has changed")
    return said


def not_looked_at(outcome: Outcome) -> list[str]:
    """`run` or `session` has ended with 0, so somebody takes a call that failed for done."""
    failed = [hit for hit in outcome.trace if acts(hit) and hit[1] != KEEP and not is_own(hit[1]) and hit[3].startswith("return")]
    if outcome.status or not failed or outcome.verdict in (CRASHED, HUNG) or failed[0][3] == "return(TERM)":
        return []
    step = "session" if given_in(outcome.trace) else "run"
    if failed[0][3] == "return(HALF)":
        does = "reads" if failed[0][1].startswith(READS) else "writes"
        return Flaw.NOT_LOOKED_AT.said(f"perhaps nobody {does} the rest: the {call_of(failed[0])} did half, and `{step}` ended with 0")
    if failed[0][3] == "return(KILL)":
        return [f"perhaps nobody looks at how a process ended: one was killed at the {call_of(failed[0])}, and `{step}` ended with 0"]
    return Flaw.NOT_LOOKED_AT.said(f"perhaps nobody looks at what a call returns: the {call_of(failed[0])} failed, and `{step}` ended with 0")


def without_a_power_cut(outcome: Outcome) -> list[str]:
    if outcome.judgement.state != LIVE:
        return []
    is_killed = any(hit[3].startswith("panic") for hit in outcome.trace)
    return [f"no power cut is needed: {'a kill at that moment' if is_killed else 'the program by itself'} leaves the files so"]


def guesses(outcome: Outcome, has_recovery: bool) -> list[str]:
    """Of a run that fails. How `run` ended says nothing if recovery has followed."""
    pending = [words for _, words in outcome.pending]
    if not any(map(acts, outcome.trace)) and not outcome.judgement.state:
        return never_synced(pending)
    kept = kept_in(outcome, pending)
    shape = renamed_first(kept, pending) or gone_first(outcome, kept, pending) or tail_taken(outcome, kept, pending)
    return [*shape, *([] if has_recovery else not_looked_at(outcome)), *without_a_power_cut(outcome)]
