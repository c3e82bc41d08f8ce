"""Campaigns on several machines: each machine has a share of the plans, and one of them joins the answers.

The fault that acts first in a plan decides to which share it belongs. Up to that fault its run is the one without faults, which each machine makes,
and all plans that grow from it have the same first fault. So a share grows without the others. If answers have no hits, nothing grows, and any share
will do."""

import zlib
from dataclasses import dataclass
from pathlib import Path

from .answers import DIFFERS, Answers, Stopped, changed, whole_lines
from .identity import Identity, refuse_others
from .repeats import Repeats
from .scenario import Scenario, Term, Unreadable, numbered, points_of
from .shown import show
from .words import Usage, whole_number

Places = dict[tuple[str, int], int]  # where each hit stands in the run without faults


@dataclass(frozen=True)
class Shard:
    number: int  # from 1
    count: int

    def has(self, text: str, places: Places) -> bool:
        place = first_place(text, places) if places else zlib.crc32(text.encode("utf-8", "surrogateescape"))
        return text == "none" or place % self.count == self.number - 1


def shard_of(text: str) -> Shard:
    """Reads a share such as 2/8."""
    number, _, count = text.partition("/")
    shard = Shard(whole_number(number, "--shard"), whole_number(count, "--shard"))
    if shard.number > shard.count:
        raise Usage(f"--shard {text}: there are only {shard.count} shares")
    return shard


def places_in(answers: Answers) -> Places:
    for line in answers.lines():
        if scenario_in(line) == "none":
            return {hit: place for place, hit in enumerate(numbered(points_of("".join(line.split("\t")[2:]))))}
    return {}


def first_hit(chain: list[Term]) -> int:
    """The first hit of its point at which a chain acts, counted from 1, or 0 if it never does."""
    hit = 1
    for term in chain:
        if term.task != "off":
            return hit
        hit += term.count or 0
    return 0


def first_place(text: str, places: Places) -> int:
    """The place of the fault that acts first, or 0 if none acts at a hit of the run without faults."""
    try:
        chains = Scenario(text).chains
    except Unreadable:
        return 0
    return min((places[hit] for name, chain in chains.items() if (hit := (name, first_hit(chain))) in places), default=0)


def join(folder: Path, own: Identity, answers: Answers) -> None:
    """Takes over the answers of the folders in that one, which are shards or other campaigns of the same harness."""
    known = {scenario_in(line): line for line in answers.lines()}
    repeats = Repeats()
    for line in known.values():
        repeats.take_answer(line)
    parts = sorted(folder.glob("*/answers"))
    if not parts:
        raise Stopped(f"no folder in {folder} has a file answers")
    for part in parts:
        refuse_others(part, own)
        for line in whole_lines(part.read_bytes()):
            scenario = scenario_in(line)
            if scenario not in known:
                if parting := repeats.take_answer(line):
                    show(f"loop: {part}: an answer isn't taken over, since its run did otherwise than those before: {parting}: {scenario}")
                    continue
                known[scenario] = line
                answers.keep(line)
            elif known[scenario] != line:
                raise Stopped(f"{part}: {difference(known[scenario], line, scenario)}", DIFFERS)


def difference(first: str, then: str, scenario: str) -> str:
    """What differs in two answers to the same scenario: the verdict, or if that is the same, the hits."""
    (one, *one_has), (two, *two_has) = first.split("\t"), then.split("\t")
    return changed("verdict", one, two, scenario) if one != two else changed("hits", "".join(one_has[1:]), "".join(two_has[1:]), scenario)


def scenario_in(line: str) -> str:
    """The scenario of an answer. The loop's answers have a verdict, a scenario, and with a depth hits."""
    fields = line.split("\t")
    if len(fields) < 2:
        raise Stopped(f"this line of the answers has no scenario: {line}")
    return fields[1]
