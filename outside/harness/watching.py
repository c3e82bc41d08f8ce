"""Shows one scenario hit by hit, with files, and with what had been promised by then."""

from collections import defaultdict
from pathlib import Path

from .certify import Certifier
from .deciding import Decider
from .judging import LooksUp
from .operations import is_given
from .outcome import Outcome
from .programs import REFUSED, Tools
from .record import Record
from .run import tell_errors
from .scenario import is_own
from .shown import escaped, write_out
from .telling import KEEP, acts, faults_in_words, what
from .trace import Marks, marks_of

Lines = defaultdict[int, list[str]]  # what is written before the hit of that number


def add_said(lines: Lines, said: bytes, marks: Marks, behind: int) -> None:
    """Adds each printed line before the first hit that came after it. Lines after all hits are added before the number `behind`."""
    at = 0
    for number, length in [*marks, (behind, len(said))]:
        lines[number] += [f"      said: {line}" for line in said[at:length].decode("utf-8", "surrogateescape").splitlines()]
        at = length


def pending_lines(tools: Tools, run: Path) -> list[str]:
    return [f"pending: {' '.join(change)}" for change in tools.pending(run)]


def lines_of(record: Record, outcome: Outcome, tools: Tools) -> Lines:
    """The lines that `run` printed, and those that `again` printed after the power cut."""
    lines: Lines = defaultdict(list)
    add_said(lines, record.said(), marks_of(record.run), len(record.points) + 1)
    if not record.said_again.exists():
        return lines
    marks = marks_of(record.rewound)
    begins, behind = (marks[0][0], marks[-1][0] + 1) if marks else (len(outcome.trace) + 1, len(outcome.trace) + 1)
    lines[begins] += [*pending_lines(tools, record.run), "      again begins"]
    add_said(lines, record.said_again.read_bytes(), marks, behind)
    return lines


def hit_line(hit: list[str]) -> str:
    did = "is kept" if hit[1] == KEEP else what(hit)
    came = did if acts(hit) else hit[7].strip()
    came += f" [{hit[3]}]" * (hit[3] != "go")
    about = "" if is_own(hit[1]) else f" ({hit[6] if is_given(hit) else hit[4]})"
    return f"{hit[0]:>5} {hit[1]} {hit[2]}{about} {came}"


def write(lines: list[str]) -> None:
    for line in lines:
        write_out((escaped(line) + "\n").encode("utf-8", "surrogateescape"))


def watched(decider: Decider, scenario: str, certifier: Certifier | None) -> int:
    """Runs a scenario and shows it. The status is 1 if it fails, and 2 if the supervisor refused it."""
    with decider.room.seat(alone=True):
        record = decider.runner.make(scenario)
        outcome = decider.finish(record, len(record.points) + 1, scenario, LooksUp.NONE)
    lines = lines_of(record, outcome, decider.tools)
    for hit in outcome.trace:
        write(lines.pop(int(hit[0]), []))
        write([hit_line(hit)])
    for number in sorted(lines):
        write(lines[number])
    tell_end(record, outcome, decider.tools, sorted(decider.losses))
    if certifier and outcome.verdict.startswith("fail"):
        write([f"  {sentence}" for sentence in certifier.certify(scenario, outcome.verdict)])
    return 2 if record.status == REFUSED else 1 if outcome.verdict.startswith("fail") else 0


def tell_end(record: Record, outcome: Outcome, tools: Tools, losses: list[str]) -> None:
    """Shows what was pending at the last cut, the losses that are known, the verdict, and what the programs wrote to standard error."""
    why = f": {outcome.judgement.why}" if outcome.judgement.why else ""
    last = record.rewound if record.said_again.exists() else record.run
    write([*pending_lines(tools, last), *[f"known: {code}" for code in losses], f"{outcome.verdict}{why}: {faults_in_words(outcome)}",
        *outcome.judgement.looks])
    tell_errors(record.folder / "errors")
