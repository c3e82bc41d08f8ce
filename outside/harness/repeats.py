"""Whether a run does as the runs before it: after the same answers to its calls it has to make the same call next, on the same file.

For example, six threads that write six files in another order each time have the same hits, but not on the same files. A program may also make files
of names that no other run has, such as names with a time in them: such a name only has to stand for the same name each time.

The runs so far are a tree, as `paklour` makes one of their answers. Its first branch is the run without faults, and where a fault acts another branch
begins."""

import threading
from dataclasses import dataclass, field

from .judging import HUNG, UNRESOLVED
from .outcome import Outcome, Parting
from .scenario import Scenario, Unreadable, points_of

NO_FILE = "-"  # in place of the file of a point of the program's own
Hit = tuple[str, str | None]  # its point and its file, or None where only an answer tells of it
Trace = list[list[str]]


@dataclass
class Branch:
    """The hits from a fault on, up to the end of the run in which no further fault acts, or as far as they are known."""

    hits: list[Hit] = field(default_factory=list)
    verdict: str = ""  # of the run that ends behind these hits, or an empty text if none is known to
    later: dict[tuple[int, str], "Branch"] = field(default_factory=dict)  # by the place and the task of the fault


class Names:
    """The names of files in a branch, which one run has made, and in another run. Each may have names that the other doesn't have at all."""

    def __init__(self, branch: Branch, now: set[str | None]):
        self.before = {file for _, file in branch.hits}
        self.now = now
        self.pairs: dict[str, str] = {}

    def are_alike(self, before: str | None, now: str | None) -> bool:
        if before == now or None in (before, now):
            return True
        if before in self.now or now in self.before:
            return False
        return self.pairs.setdefault(before, now) == now and self.pairs.setdefault(now, before) == before


def told(hit: Hit) -> str:
    return hit[0] if hit[1] in (None, NO_FILE) else f"{hit[0]} ({hit[1]})"


def parts_of(trace: Trace) -> list[Trace]:
    """A trace in parts, each up to the hit at which a fault acts, and the last one up to its end."""
    parts: list[Trace] = [[]]
    for hit in trace:
        parts[-1].append(hit)
        if hit[3] != "go":
            parts.append([])
    return parts


def parted(branch: Branch, part: Trace, files: set[str | None], begin: int) -> Parting | None:
    """The first of these hits that isn't that of the branch. They begin behind so many others of a run that has these files."""
    names = Names(branch, files)
    for place, (before, hit) in enumerate(zip(branch.hits, part)):
        if before[0] != hit[1] or not names.are_alike(before[1], hit[4]):
            return Parting(begin + place + 1, told(before), told((hit[1], hit[4])))
    if len(part) > len(branch.hits) and branch.verdict:
        hit = part[len(branch.hits)]
        return Parting(begin + len(branch.hits) + 1, "the end", told((hit[1], hit[4])))
    return None


def parted_at_end(branch: Branch, part: Trace, verdict: str, begin: int) -> Parting | None:
    """Whether a run that ends behind these hits does otherwise than the branch, which has them too."""
    if len(part) < len(branch.hits):
        return Parting(begin + len(part) + 1, told(branch.hits[len(part)]), "the end")
    if branch.verdict not in ("", verdict):
        return Parting(begin + len(part) + 1, f"the end with {branch.verdict}", f"the end with {verdict}")
    return None


class Repeats:
    """The runs that count. Several threads may add theirs."""

    def __init__(self) -> None:
        self.first = Branch()
        self.hits: dict[Hit, Hit] = {}  # each once
        self.lock = threading.Lock()

    def take(self, outcome: Outcome) -> Parting | None:
        """Adds the run of an outcome, unless it does otherwise than those before."""
        if outcome.hits == "-":
            return None
        with self.lock:
            parting = self.parting(outcome.trace, outcome.verdict)
            if not parting:
                self.add(outcome.trace, outcome.verdict)
        return parting

    def take_answer(self, line: str) -> Parting | None:
        """Adds the run of an answer, of whose files nothing is known, unless it does otherwise than those before."""
        verdict, scenario, *hits = line.split("\t")
        if hits in ([], ["-"]):
            return None
        points = points_of(hits[0])
        try:
            tasks = Scenario(scenario).answers(points)
        except Unreadable:
            return None
        trace = [["", point, "", task, None] for point, task in zip(points, tasks)]
        parting = self.parting(trace, verdict)
        if not parting:
            self.add(trace, verdict)
        return parting

    def parting(self, trace: Trace, verdict: str = "") -> Parting | None:
        """Where a run does otherwise than those before. Without a verdict its hits may go on."""
        parts = parts_of(trace)
        files = {hit[4] for hit in trace}
        begin = 0
        for branch, part in zip(self.path(parts), parts):
            parting = parted(branch, part, files, begin)
            if not parting and verdict and part is parts[-1]:
                parting = parted_at_end(branch, part, verdict, begin)
            if parting:
                return parting
            begin += len(part)
        return None

    def grows_from_whole(self, trace: Trace) -> bool:
        """Whether the run that this one grew from ended by itself, with a verdict. It is the last known one that has all of its faults but some of
        the last: a sticky fault grows from the run with the fault once."""
        parts = parts_of(trace)
        before = [branch.verdict for branch in self.path(parts)[:len(parts) - 1] if branch.verdict]
        return bool(before) and before[-1] not in (UNRESOLVED, HUNG)

    def path(self, parts: list[Trace]) -> list[Branch]:
        """The branches that a run follows, as far as there are any."""
        path = [self.first]
        for part in parts[:-1]:
            branch = path[-1].later.get((len(part), part[-1][3]))
            if not branch:
                break
            path.append(branch)
        return path

    def add(self, trace: Trace, verdict: str) -> None:
        branch = self.first
        parts = parts_of(trace)
        for part in parts:
            for place, hit in enumerate((hit[1], hit[4]) for hit in part):
                if place == len(branch.hits):
                    branch.hits.append(self.hits.setdefault(hit, hit))
                elif branch.hits[place][1] is None:
                    branch.hits[place] = self.hits.setdefault(hit, hit)
            if part is not parts[-1]:
                branch = branch.later.setdefault((len(part), part[-1][3]), Branch())
        branch.verdict = verdict
