"""The operations of a session: what it was asked to do in a run, and what of that it acknowledged.

For example, a session that was given `put a 1` and `compact`, and ended after one line, has acknowledged the first. After a power cut there has to be
what it leaves of `put a 1`, or of both."""

import itertools
import math
from collections.abc import Iterable, Iterator
from dataclasses import dataclass, replace

from .answers import Stopped
from .scenario import Fault, scenario_of
from .trace import Marks

WORK = "work::next"  # the point at which a session asks for its next operation
MOST, LONGEST = 64, 200  # lines of `operations`, and bytes of each
USUAL_LENGTH = 3  # so many operations a run is given at most
MOST_OPEN, MOST_CHOICES = 8, 256  # which of the operations were done that weren't acknowledged is tried out, and of 8 there are so many choices
Places = tuple[int, ...]  # of operations among those that a run was given


@dataclass(frozen=True)
class Promises:
    """What a run has promised."""

    said: bytes  # the lines that it printed
    given: tuple[int, ...] | None = None  # the operations of a session, by their numbers; none if the run isn't judged by looking
    acknowledged: frozenset[int] = frozenset()  # their places
    least: int = 0  # if nobody knows which were acknowledged, since the session reads ahead: so many of them

    @property
    def lack(self) -> bool:
        """Whether nothing was promised, though something was asked for."""
        return not self.said and self.given != ()

    def with_more(self, said: bytes) -> "Promises":
        """The same with more lines, of recovery."""
        return replace(self, said=self.said + said)

    def allows(self, done: Places) -> bool:
        """Whether just these operations may be done, in this order."""
        return self.acknowledged <= set(done) and len(done) >= self.least

    @property
    def open(self) -> list[int]:
        """The places of those that may be done or not."""
        return [place for place in range(len(self.given)) if place not in self.acknowledged]

    @property
    def are_too_many(self) -> bool:
        """Whether not all choices can be tried."""
        return sum(math.comb(len(self.open), size) for size in range(len(self.open) - self.least + 1)) > MOST_CHOICES

    def choices(self) -> Iterator[Places]:
        """Which operations may be done, and then which may not be: of a long workload those in which it has only begun, or lacks one operation."""
        places = tuple(range(len(self.given)))
        for size in range(len(self.open) - self.least + 1):
            yield from (without(places, missing) for missing in itertools.combinations(self.open, size))
        if len(places) <= MOST_OPEN:
            lacking = [done for size in reversed(places) for done in itertools.combinations(places, size)]
        else:
            lacking = [*(places[:size] for size in reversed(places)), *(without(places, (place,)) for place in places)]
        yield from itertools.filterfalse(self.allows, lacking)

    def numbers(self, done: Places) -> tuple[int, ...]:
        return tuple(self.given[place] for place in done)


def without(places: Places, missing: Places) -> Places:
    return tuple(place for place in places if place not in missing)


def text_of(operations: Iterable[str]) -> bytes:
    """The operations as a file has them, a line each."""
    return "".join(f"{line}\n" for line in operations).encode("utf-8", "surrogateescape")


def lines_of(text: str, name: str) -> tuple[str, ...]:
    """The operations in a text, a line each."""
    return checked(text.removesuffix("\n").split("\n") if text else [], name)


def checked(operations: Iterable[str], name: str) -> tuple[str, ...]:
    """The operations, a line each, as they stand in a harness of this name."""
    if not isinstance(operations, list):
        raise Stopped(f"{name}: operations are a list of lines")
    found = tuple(operations)
    if not 1 <= len(found) <= MOST:
        raise Stopped(f"{name}: there are {len(found)} operations, and there may be 1 to {MOST}")
    for number, line in enumerate(found, 1):
        if not isinstance(line, str) or not line.strip() or "\n" in line or "\0" in line or len(line.encode("utf-8", "surrogateescape")) > LONGEST:
            raise Stopped(f"{name}: operation {number} must be a line of up to {LONGEST} bytes that isn't empty")
    return found


def is_given(hit: list[str]) -> bool:
    """Whether a hit has given an operation: a workload's without a fault, or another one by a return."""
    return hit[1] == WORK and hit[6] != "-" and (hit[3] == "go" or hit[3].startswith("return("))


def given_in(trace: list[list[str]]) -> list[str]:
    """The operations that a run was given, as its trace has them."""
    return [hit[6] for hit in trace if is_given(hit)]


def scenario_for(operations: Iterable[int]) -> str:
    """The scenario of a run without faults that is given these operations."""
    return scenario_of(Fault(WORK, hit, f"return({number})") for hit, number in enumerate(operations, 1))


def promises_of(trace: list[list[str]], marks: Marks, said: bytes, reads_ahead: bool) -> Promises:
    """The promises of a session. A line that it prints before it asks for more acknowledges the operation that it was given last, and further lines
    those before it which weren't acknowledged."""
    hits = [hit for hit in trace if hit[1] == WORK]
    printed = dict(marks)
    ends = [printed[int(hit[0])] for hit in hits[1:]] + [len(said)]
    given, open_ones, acknowledged = [], [], set()
    for hit, end in zip(hits, ends):
        if is_given(hit):
            open_ones.append(len(given))
            given.append(int(hit[3][len("return("):-1]) if hit[3] != "go" else len(given) + 1)
        for _ in range(said[printed[int(hit[0])]:end].count(b"\n")):
            if open_ones:
                acknowledged.add(open_ones.pop())
    if reads_ahead:
        return Promises(said, tuple(given), least=len(acknowledged))
    return Promises(said, tuple(given), frozenset(acknowledged))


def asks_ahead(trace: list[list[str]], marks: Marks) -> bool:
    """Whether a session asks again with nothing done since it was given the first operation: no call, and no line."""
    printed = dict(marks)
    first = next((place for place, hit in enumerate(trace) if is_given(hit)), len(trace))
    hits = trace[first:first + 2]
    return [hit[1] for hit in hits] == [WORK, WORK] and len({printed[int(hit[0])] for hit in hits}) == 1
