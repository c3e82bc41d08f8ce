"""What `look` prints after runs without faults. By these a run is judged: what a power cut leaves has to look as after a run without faults of all that
was acknowledged, and of the rest each or not."""

import difflib
import threading
import time
from dataclasses import dataclass
from pathlib import Path
from typing import TYPE_CHECKING

from . import tree
from .answers import Stopped
from .operations import MOST, Promises, asks_ahead, scenario_for
from .shown import escaped, last_lines, show
from .trace import marks_of, trace_of

if TYPE_CHECKING:
    from .run import Runner

LATER = 1.1  # seconds between two runs, so that times in whole seconds differ
THE_COMMAND = 0  # the number of the one operation of a program that is one command
MOST_LINES, MOST_BYTES = 8, 400  # so much of a look is told
MOST_TOLD = 4  # so many looks that were expected are told
Operations = tuple[int, ...]  # by their numbers


@dataclass(frozen=True)
class Clean:
    """A run without faults."""

    seen: bytes  # what `look` printed after it
    lines: int = 0  # that the run printed
    reads_ahead: bool = False


class Looks:
    """Runs without faults, each made once."""

    def __init__(self, runner: "Runner"):
        self.runner = runner.with_harness(is_workload=False, length=MOST)  # of a workload any part may be asked for
        self.harness = self.runner.harness
        self.known: dict[Operations, Clean] = {}
        self.reads_ahead = False  # whether a session asks for more before it has done what it was given
        self.lock = threading.Lock()

    def alike(self, operations: Operations) -> Operations:
        """The same operations, each by the first number that it has: a workload may have one several times."""
        lines = self.harness.operations
        return tuple(lines.index(lines[number - 1]) + 1 for number in operations) if lines else operations

    def after(self, operations: Operations) -> Clean:
        operations = self.alike(operations)
        if operations not in self.known:
            clean = self.made(operations)
            with self.lock:
                self.known[operations] = clean
        return self.known[operations]

    def named(self, operations: Operations) -> str:
        return ", ".join(self.harness.operations[number - 1] for number in operations if number != THE_COMMAND) or "nothing"

    def made(self, operations: Operations) -> Clean:
        if not operations and not self.harness.operations:
            return Clean(self.looked_at(self.runner.new_data(), "`prepare`"))
        record = self.runner.make(scenario_for(operations) if self.harness.operations else "none")
        what = f"a run without faults of {self.named(operations)}" if self.harness.operations else "the run without faults"
        if record.why or record.status:
            raise Stopped("\n".join([f"{what}: {record.why or f'it ended with {record.status}'}", last_lines(record.folder / "errors")]))
        trace, lines = trace_of(record.run), record.said().count(b"\n")
        if self.harness.operations and lines > len(operations):
            raise Stopped(f"{what} printed {lines} lines: let `session` print one for each operation that it has acknowledged, and no other")
        reads_ahead = asks_ahead(trace, marks_of(record.run))
        return Clean(self.looked_at(record.folder, what), lines, reads_ahead)

    def looked_at(self, folder: Path, what: str) -> bytes:
        """What `look` prints in the folder of a run, which isn't needed any more."""
        status, why, seen = self.runner.looked(folder)
        if why or status:
            raise Stopped("\n".join([f"`look` {why or f'ended with {status}'} after {what}, and has to end with 0", last_lines(folder / "errors")]))
        tree.remove(folder)
        self.runner.room.end(folder, 0)
        return seen

    # ---- before a campaign begins

    def learn(self) -> None:
        """Makes the runs without faults of one operation, and refuses a harness by whose looks nothing could be found."""
        numbers = range(1, len(self.harness.operations) + 1) if self.harness.operations else [THE_COMMAND]
        before, *alone = [self.after(operations) for operations in [(), *[(number,) for number in numbers]]]
        if not any(clean.lines for clean in alone):
            raise Stopped(f"`{self.harness.begins}` acknowledges nothing: let it print a line for what it has done, as soon as that is done")
        if all(clean.seen == before.seen for clean in alone):
            raise Stopped("`look` prints the same before and after the run without faults: let it print what the store holds")
        self.reads_ahead = bool(self.harness.operations) and all(clean.reads_ahead for clean in alone)
        if self.reads_ahead:
            show("loop: the session asks for its next operation before it does the one that it has, so of those that it acknowledges only the number is known")

    def check(self) -> None:
        """Makes the same runs again. If `look` sees something else, nothing that it sees after a power cut can be held to them."""
        time.sleep(LATER)
        for operations, clean in list(self.known.items()):
            if (other := self.made(operations).seen) != clean.seen:
                raise Stopped("\n".join([f"`look` prints other lines in a second run without faults of {self.named(operations)}. Let it leave out what no "
                    "run repeats, such as times:", *differing(clean.seen, other)]))

    # ---- of a run

    def promises(self, said: bytes) -> Promises:
        """What a program that is one command has promised: that it was done, once it has printed all of its lines."""
        is_done = said.count(b"\n") >= self.after((THE_COMMAND,)).lines
        return Promises(said, (THE_COMMAND,), frozenset([0]) if is_done else frozenset())

    def expected(self, promised: Promises) -> list[str]:
        """What may be seen, as it is told."""
        allowed = dict.fromkeys(self.after(promised.numbers(done)).seen for done in promised.choices() if promised.allows(done))
        return [shown(seen) for seen in allowed]


def differing(one: bytes, other: bytes) -> list[str]:
    """The lines of two looks that differ, the first of them."""
    lines = [text.decode("utf-8", "surrogateescape").splitlines() for text in (one, other)]
    found = [line for line in difflib.unified_diff(*lines, lineterm="", n=0) if not line.startswith(("---", "+++", "@@"))]
    return [escaped(line) for line in found[:MOST_LINES]]


def shown(seen: bytes) -> str:
    """What `look` printed, in one line."""
    lines = seen[:MOST_BYTES].decode("utf-8", "surrogateescape").splitlines()
    more = " .." * (len(lines) > MOST_LINES or len(seen) > MOST_BYTES)
    return escaped("; ".join(lines[:MOST_LINES]) or "nothing") + more


def looks_in_words(expected: list[str], found: bytes) -> tuple[str, ...]:
    more = f" (or one of {len(expected) - MOST_TOLD} more)" * (len(expected) > MOST_TOLD)
    return f"expected one of: {' | '.join(expected[:MOST_TOLD])}{more}", f"found: {shown(found)}"
