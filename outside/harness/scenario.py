"""Scenarios as `paklour asks` prints them, which say what happens at which hit of which point."""

import re
from collections import Counter
from collections.abc import Iterable
from dataclasses import dataclass

TERM = re.compile(r"(?:(\d+)\*)?([a-z]+)(?:\((.*)\))?", re.S)
POWER = "power::"
GIVEN = ("sys::", POWER, "order::", "work::")  # how the points begin that these tools name. All others are the program's own
ONCE = frozenset({"return(EINTR)", "return(FULL)"})  # of several in a row at a point the first acts alone, also of a sticky one


class Unreadable(Exception):
    """A scenario that this module can't read, such as one with percentages."""


def is_own(point: str) -> bool:
    """Whether a point is one of the program's own, which is about no file."""
    return not point.startswith(GIVEN)


@dataclass(frozen=True)
class Term:
    count: int | None  # how often it acts; None for always
    task: str
    argument: str | None

    @property
    def answer(self) -> str:
        """What it does, as the trace has it: `off` goes on."""
        if self.task == "off":
            return "go"
        return self.task if self.argument is None else f"{self.task}({self.argument})"

    @property
    def is_endless(self) -> bool:
        """Whether it acts at each later hit."""
        return self.count is None and self.answer not in ("go", *ONCE)


@dataclass(frozen=True)
class Fault:
    """What happens at one hit of a point. Hits count from 1."""

    point: str
    hit: int
    answer: str


def read_term(text: str) -> Term:
    found = TERM.fullmatch(text.strip())
    if not found:
        raise Unreadable(text)
    return Term(int(found[1]) if found[1] else None, found[2], found[3])


class Scenario:
    def __init__(self, text: str):
        self.text = text
        self.chains: dict[str, list[Term]] = {}
        for piece in text.split(";") if text != "none" else []:
            name, _, chain = piece.partition("=")
            self.chains[name.strip()] = [read_term(term) for term in chain.split("->")]

    def faults(self) -> list[Fault]:
        """All of its faults, if each acts a given number of times."""
        return [fault for name, chain in self.chains.items() for fault in faults_of(name, chain)]

    def is_endless(self) -> bool:
        """Whether it has a sticky fault, except at a power cut."""
        return any(term.is_endless for name, chain in self.chains.items() if not name.startswith(POWER) for term in chain)

    def answers(self, points: Iterable[str]) -> list[str]:
        """What it does at these hits, in order: `go`, or its task."""
        used = {name: [0] * len(chain) for name, chain in self.chains.items()}
        before: dict[str, str] = {}
        answers = []
        for point in points:
            answer = acting(self.chains[point], used[point]) if point in used else "go"
            answers.append(behind(before.get(point), answer))
            before[point] = answer
        return answers


def behind(before: str | None, answer: str) -> str:
    """What an answer does at the hit behind one of its point that had that answer before."""
    return "go" if answer == before and answer in ONCE else answer


def faults_of(name: str, chain: list[Term]) -> list[Fault]:
    faults, hit, before = [], 0, "go"
    for term in chain:
        if term.is_endless:
            raise Unreadable(name)
        count = 1 if term.count is None else term.count
        acts = count if term.answer not in ONCE else min(count, term.answer != before)
        if term.answer != "go":
            faults += [Fault(name, hit + each + 1, term.answer) for each in range(acts)]
        hit += count
        if term.count is None:
            break
        before = term.answer if count else before
    return faults


def acting(chain: list[Term], used: list[int]) -> str:
    """What the first term does that isn't used up."""
    for number, term in enumerate(chain):
        if term.count is None or used[number] < term.count:
            used[number] += 1
            return term.answer
    return "go"


def scenario_of(faults: Iterable[Fault]) -> str:
    """The text of a scenario with these faults, each at one hit."""
    by_point: dict[str, list[Fault]] = {}
    for fault in sorted(faults, key=lambda fault: (fault.point, fault.hit)):
        by_point.setdefault(fault.point, []).append(fault)
    pieces = []
    for point, acts in by_point.items():
        terms, at = [], 0
        for fault in acts:
            terms += [f"{fault.hit - at - 1}*off"] * (fault.hit > at + 1) + [f"1*{fault.answer}"]
            at = fault.hit
        pieces.append(f"{point}={'->'.join(terms)}")
    return ";".join(pieces) or "none"


def hits_text(points: list[str]) -> str:
    """Hits as an answer has them: in order, with n hits of one point in a row as `n*POINT`."""
    stretches: list[list] = []
    for point in points:
        if stretches and stretches[-1][0] == point:
            stretches[-1][1] += 1
        else:
            stretches.append([point, 1])
    return ";".join(f"{count}*{point}" if count > 1 else point for point, count in stretches)


def points_of(hits: str) -> list[str]:
    """The points of an answer's hits, in order. If nobody knows them, there are none."""
    points = []
    for stretch in hits.split(";") if hits not in ("", "-") else []:
        count, _, point = stretch.rpartition("*") if stretch[0].isdigit() else ("", "", stretch)
        points += [point] * int(count or 1)
    return points


def numbered(points: Iterable[str]) -> list[tuple[str, int]]:
    """Each hit with its number among those of its point."""
    counts: Counter[str] = Counter()
    pairs = []
    for point in points:
        counts[point] += 1
        pairs.append((point, counts[point]))
    return pairs
