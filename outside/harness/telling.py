"""Describes faults for a person: which call on which file failed."""

import re
from collections import Counter

from .operations import WORK, given_in, is_given
from .outcome import Outcome
from .scenario import Scenario, Unreadable, is_own
from .shown import escaped

KEEP = "power::keep"
ENDS = ("return(KILL)", "return(TERM)")  # which the program's own points don't get as texts
MOST_GIVEN = 8  # operations of a run that are told
AND_BEFORE = ", and all before it"
UNDONE = re.compile(",? undone$")
STATES = {  # of the power cut, besides that in which it loses all that is pending
    "names": "the pending changes of names are kept",
    "contents": "the pending changes of contents are kept",
    "live": "all pending changes are kept",
}


def ordinal(number: int) -> str:
    ending = "th" if number % 100 in (11, 12, 13) else {1: "st", 2: "nd", 3: "rd"}.get(number % 10, "th")
    return f"{number}{ending}"


def what(hit: list[str]) -> str:
    """What the task that acted did to a call."""
    answer = hit[3]
    if is_own(hit[1]) and answer.startswith("return(") and answer not in ENDS:
        return answer.replace("return(", "returns ", 1).removesuffix(")")
    return {"return": "fails", "return(HALF)": "does half", "return(DROP)": "is lost", "return(KILL)": "kills its process",
        "return(TERM)": "comes with SIGTERM", "return(FULL)": "finds the disk full", "panic": "ends the run",
        }.get(answer, answer.replace("return(", "fails with ").rstrip(")"))


def call(hit: list[str]) -> str:
    """The call and its file. A point may have its file's name, which is then said once."""
    return hit[1] if is_own(hit[1]) else f"{hit[1].removesuffix('@' + hit[4])} ({hit[4]})"


def call_of(hit: list[str]) -> str:
    return f"{ordinal(int(hit[2]))} {call(hit)}"


def acts(hit: list[str]) -> bool:
    """Whether a fault acted at this hit. At a power cut only a return does anything, and an operation that is given is no fault."""
    return hit[3] != "go" and (hit[1] != KEEP or hit[3].startswith("return")) and not is_given(hit)


def endless(scenario: str) -> dict[str, int]:
    """For each point with a sticky fault, the hit from which on the fault acts."""
    found = {}
    try:
        for name, chain in Scenario(scenario).chains.items():
            if chain and chain[-1].is_endless:
                found[name] = sum(term.count or 0 for term in chain) + 1
    except Unreadable:
        return {}
    return found


def change_of(words: str) -> tuple[str, str]:
    """The change of a hit of the power cut that returns, and what becomes of it: the disk keeps it, or undoes one that a sync had made last."""
    return (UNDONE.sub("", words), "is undone") if UNDONE.search(words) else (words, "is kept")


def fault_in_words(outcome: Outcome, place: int, is_for_ever: bool) -> str:
    hit = outcome.trace[place]
    if hit[1] == KEEP:  # in place of a file it has the number of a pending change and its words
        number, _, words = hit[4].partition(" ")
        change, becomes = change_of(words)
        which = "the change" if becomes == "is undone" else f"pending change {number}"
        return f"{which} ({change}){' and each later one' if is_for_ever else ''} {becomes}"
    if hit[1] == WORK:
        return f"the run ends before {hit[6]}"
    later = f" and each later {hit[1]}" if is_for_ever else ""
    return f"the {call_of(hit)}{later} {what(hit)}"


def faults_in_words(outcome: Outcome) -> str:
    for_ever = endless(outcome.scenario)
    numbers = {place: (hit[1], int(hit[2])) for place, hit in enumerate(outcome.trace) if acts(hit)}
    told = [place for place, (point, number) in numbers.items() if number <= for_ever.get(point, number)]
    first_of_ever = {place for place, (point, number) in numbers.items() if for_ever.get(point) == number}
    parts = [fault_in_words(outcome, place, place in first_of_ever) for place in told]
    return operations_in_words(outcome) + ", ".join([*(parts or ["without any fault"]), *state_in_words(outcome)])


def operations_in_words(outcome: Outcome) -> str:
    """What a session was asked to do, before what happened to it. Of a long workload the middle is left out."""
    given = given_in(outcome.trace)
    if len(given) > MOST_GIVEN:
        given = [*given[:2], f".. {len(given) - MOST_GIVEN + 1} more", *given[3 - MOST_GIVEN:]]
    return f"{', '.join(given)}: " if given else ""


def state_in_words(outcome: Outcome) -> list[str]:
    return [STATES[outcome.judgement.state]] if outcome.judgement.state else []


def failure(outcome: Outcome) -> str:
    why = f" ({outcome.judgement.why})" * bool(outcome.judgement.why)
    return escaped(f"{outcome.verdict}: {faults_in_words(outcome)}{why}")


def kept_alike(words: str) -> str:
    change, becomes = change_of(words)
    first = change.removesuffix(AND_BEFORE)
    return f"{change} {becomes}" if first == change else f"{first} and all before it are kept"


def group_of(outcome: Outcome) -> tuple[str, str]:
    """What a failure came to, and the calls that it consists of, without their numbers."""
    hits = [hit for hit in outcome.trace if acts(hit)]
    parts = [kept_alike(hit[4].partition(" ")[2]) if hit[1] == KEEP else f"the run ends before {hit[6]}" if hit[1] == WORK else f"{call(hit)} {what(hit)}"
        for hit in hits]
    parts = [*(dict.fromkeys(parts) or ["without any fault"]), *state_in_words(outcome)]
    return escaped(outcome.verdict.removeprefix("fail ")), escaped(operations_in_words(outcome) + ", ".join(parts))


def in_order(groups: Counter[tuple[str, str]]) -> list[tuple[str, str]]:
    """Groups by what they came to, those with the fewest events first: these say most plainly what is wrong."""
    def events(group: tuple[str, str]) -> int:
        return group[1].count(", ")

    fewest: dict[str, int] = {}
    for group in groups:
        fewest[group[0]] = min(events(group), fewest.get(group[0], events(group)))
    return sorted(groups, key=lambda group: (fewest[group[0]], group[0], events(group), -groups[group], group[1]))
