"""Calls the program `paklour`, which lists the scenarios to try and writes the reports. It runs nothing itself: it only reads settings and answers."""

import functools
import re
import subprocess
import time
from pathlib import Path

from .answers import Answers, Stopped
from .settings import text_of
from .shown import show, show_once

# What the program says of a run that isn't that of a program which does the same each time.
DIFFERS = re.compile(r"^answers: line (\d+): (hits differ from line \d+ at hit \d+|verdict differs from line \d+|contradicts line \d+, .*)$",
                     re.MULTILINE)

TOO_MANY = "too many plans"  # what the program says then
UNREACHED = "strict: no run reaches "
DOUBTED = 5  # how it ends if no plan fails, and --strict warns
MOST_PLANS = 65536


class TooManyPlans(Stopped):
    """The settings have more plans than a campaign may have."""

    def __init__(self) -> None:
        super().__init__(f"the settings have more than {MOST_PLANS} plans: take a smaller depth, or fewer points or kinds. The answers stay good")


class Paklour:
    def __init__(self, settings: str, answers: Answers, look_share: int = 20):
        self.settings = settings
        self.answers = answers
        self.look_share = look_share
        self.ask_again = 0.0  # the time from which on another look at the answers stays within its share

    def has_depth(self) -> bool:
        return re.search(r"^[ \t]*[\"']?depth[\"']?[ \t]*=", text_of(Path(self.settings)), re.M) is not None

    def call(self, *words: str) -> subprocess.CompletedProcess:
        try:
            return subprocess.run(["paklour", *words, self.settings], input=self.answers.text(), capture_output=True, check=False)
        except FileNotFoundError as error:
            raise Stopped("paklour is not on the PATH") from error

    def tell_notes(self, done: subprocess.CompletedProcess) -> None:
        """Shows each line of its standard error once, though each call prints it again."""
        show_once(done.stderr.decode("utf-8", "surrogateescape"))

    def strict_report(self, is_made: bool) -> tuple[int, bytes]:
        """The report with warnings about gaps. Settings that the loop made list all points, so a point that no run reaches is none there."""
        done = self.call("report", "--strict")
        notes = [line for line in done.stderr.decode("utf-8", "surrogateescape").splitlines() if not (is_made and line.startswith(UNREACHED))]
        show_once("\n".join(notes))
        return 0 if done.returncode == DOUBTED and not notes else done.returncode, done.stdout

    @functools.cached_property
    def can_follow(self) -> bool:
        """Whether this program follows answers, which an older one doesn't."""
        return b"--follow" in subprocess.run(["paklour", "help", "asks"], stdin=subprocess.DEVNULL, capture_output=True, check=False).stdout

    def asks(self) -> list[str]:
        """The scenarios that are still to be tried. If settings or answers can't be read, the campaign ends."""
        begun = time.monotonic()
        done = self.call("asks")
        if done.returncode and done.stderr.decode("utf-8", "surrogateescape").strip() == TOO_MANY:
            raise TooManyPlans
        self.tell_notes(done)
        if done.returncode:
            told = done.stderr.decode("utf-8", "surrogateescape")
            self.name_unknown_points(told)
            self.name_differing_run(told)
            raise Stopped("", done.returncode)
        ended = time.monotonic()
        self.ask_again = ended + (self.look_share - 1) * (ended - begun)
        return done.stdout.decode("utf-8", "surrogateescape").splitlines()

    def look(self) -> None:
        """Checks that the recorded answers can be read, unless that would take too large a share of the time."""
        if time.monotonic() >= self.ask_again:
            self.asks()

    def fields(self, line: str) -> list[str]:
        """The fields of the answer in that line."""
        return self.answers.lines()[int(line) - 1].split("\t")

    def name_differing_run(self, told: str) -> None:
        """Names the scenario whose run didn't repeat the run that it grew from."""
        found = DIFFERS.search(told)
        if found and len(fields := self.fields(found[1])) > 1:
            why = "look for clocks, threads, random names, or a port that runs share (-j 1)"
            show(f"loop: line {found[1]} is the run of {fields[1]}, which doesn't repeat an earlier run: {why}")

    def name_unknown_points(self, told: str) -> None:
        """Names the points that a refused answer has and the settings don't."""
        found = re.search(r'^answers: line (\d+): no such point "', told, re.M)
        if not found:
            return
        fields = self.fields(found[1])
        settings = text_of(Path(self.settings))
        hits = fields[2].split(";") if len(fields) > 2 else []
        for point in sorted({re.sub(r"^\d+\*", "", hit) for hit in hits}):
            if f'"{point}"' not in settings:
                show(f"loop: line {found[1]} hits {point}: add it to the points of {self.settings}")

    def report(self, *options: str, tells: bool = True) -> tuple[int, bytes]:
        done = self.call("report", *options)
        if tells:
            self.tell_notes(done)
        return done.returncode, done.stdout


def failing_plans(report: bytes, brief: bytes) -> list[tuple[str, str]]:
    """The failing plans and reduced scenarios of a report, each once with its verdict. The brief report has the scenarios, and the whole
    one shows where the name of a code ends."""
    begins = {}
    for line in report.decode("utf-8", "surrogateescape").splitlines():
        found = re.match(r"verdict (\S+) fail ", line)
        if found:
            begins[found[1]] = line
    failing, first = [], ""
    for line in brief.decode("utf-8", "surrogateescape").splitlines():
        kind, _, rest = line.partition(" ")
        number = rest.partition(" ")[0]
        if kind == "verdict" and line.startswith(begins.get(number, "\n") + " "):
            verdict = begins[number]
            failing.append((verdict[len(f"verdict {number} "):], line[len(verdict) + 1:]))
        elif kind == "first":
            first = "fail " + rest[len(number) + 1:]
        elif kind == "reduced":
            failing.append((first, rest))
    return list(dict.fromkeys(failing))
