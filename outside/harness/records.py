"""The runs that were made, from which others can be derived. Their files stay as long as there is room (room.py)."""

import threading
from collections import OrderedDict

from . import tree
from .record import Record
from .scenario import POWER, Fault, Scenario

Key = frozenset[Fault]


def key_of(record_trace: list[list[str]]) -> Key:
    """The faults that acted in a run."""
    return frozenset(Fault(hit[1], int(hit[2]), hit[3]) for hit in record_trace if hit[3] != "go")


class Records:
    def __init__(self) -> None:
        self.taken = 0  # bytes on the disk
        self.lock = threading.Lock()
        self.points: dict[Key, list[str]] = {}  # what a run with these faults hits
        self.kept: OrderedDict[Key, list[tuple[Record, int]]] = OrderedDict()

    def take(self, key: Key) -> Record | None:
        """A run with these faults, which no other thread gets until it is given back."""
        with self.lock:
            if not self.kept.get(key):
                return None
            record, size = self.kept[key].pop()
            self.taken -= size
            return record

    def give(self, key: Key, record: Record, size: int) -> None:
        with self.lock:
            self.points.setdefault(key, record.points)
            self.kept.setdefault(key, []).append((record, size))
            self.kept.move_to_end(key)
            self.taken += size

    def shrink(self, most: int) -> None:
        """Deletes runs until at most so many bytes are taken. Those that weren't used for longest go first."""
        gone = []
        with self.lock:
            while self.taken > most and self.kept:
                _, oldest = self.kept.popitem(last=False)
                gone += oldest
                self.taken -= sum(taken for _, taken in oldest)
        for record, _ in gone:
            tree.remove(record.folder)

    def base_of(self, scenario: Scenario) -> tuple[Key, int] | None:
        """The known run from which the scenario's can be derived, and the hit at which the scenario ends it: one behind the last if it doesn't."""
        with self.lock:
            known = sorted((key for key in subsets(lasting_faults(scenario)) if key in self.points), key=len, reverse=True)
        for key in known:
            hit = place_in(self.points[key], key, scenario)
            if hit is not None:
                return key, hit
        return None


def lasting_faults(scenario: Scenario) -> Key:
    """The faults that neither end the run nor belong to a power cut."""
    return frozenset(fault for fault in scenario.faults() if not fault.point.startswith(POWER) and not fault.answer.startswith("panic"))


def subsets(faults: Key) -> list[Key]:
    found = [frozenset()]
    for fault in faults:
        found += [one | {fault} for one in found]
    return found


def place_in(points: list[str], key: Key, scenario: Scenario) -> int | None:
    """The hit at which the scenario ends a run with these hits and faults, or None if it acts otherwise before."""
    acted = {(fault.point, fault.hit): fault.answer for fault in key}
    counts: dict[str, int] = {}
    for number, (point, answer) in enumerate(zip(points, scenario.answers(points)), 1):
        counts[point] = counts.get(point, 0) + 1
        was = acted.get((point, counts[point]), "go")
        if answer == was:
            continue
        return number if answer.startswith("panic") and was == "go" else None
    return len(points) + 1
