"""The settings of a harness: its own, or those that the loop makes if it has none."""

import json
import os
import re
import tomllib
from dataclasses import dataclass
from pathlib import Path

from . import tree
from .answers import Answers, Stopped
from .definition import FAILURES, Harness
from .operations import WORK
from .scenario import is_own, points_of
from .shown import escaped, from_here, plain, show, so_many

MADE_BY = "# Made by paklour-loop."
MADE = f"{MADE_BY} It writes this file again for each campaign. If you delete this line, the settings are your own and stay as they are."
FILES = ["open", "read", "write", "fsync", "truncate", "rename", "link", "unlink", "mkdir", "rmdir", "symlink"]
POINTS = [f"sys::{name}" for name in FILES]
CUT_POINTS = ["power::keep"]
NEXT = "order::next"  # if settings list this point, it is planned, as faults are, which thread goes first
KNOWN_POINTS = re.compile(rf"sys::({'|'.join([*FILES, 'connect', 'accept', 'send', 'recv'])})(@.*)?|power::keep|{NEXT}|{WORK}", re.S)
WRITES = ["return", "return(ENOSPC)", "return(HALF)", "panic"]
NO_POINT = "there is no such point; remove it from the points"
MOST_TEXT, MOST_CODES = 200, 64  # bytes of a label or a code, and how many codes settings may have
MOST_KINDS = 8  # of faults that settings may have at one point
MOST_POINTS = 64  # that settings may have
OPERATIONS_DEPTH = 2  # so that two operations are tried together, and each fault in one
LOWERED = "settings.lowered.toml"  # settings of one's own with a lower depth
SAYS_MADE = ", settings by paklour-loop"
SAYS_KILLED = ", killed without a power cut"


def toml(value: str | list[str]) -> str:
    """A TOML value for texts without control characters. Letters aren't escaped: JSON may escape one as two halves, which TOML doesn't have."""
    return json.dumps(value, ensure_ascii=False)


def label_of(harness: Harness) -> str:
    """The label, which stands in the report and on the page: what isn't judged, or isn't counted, belongs into it."""
    less = SAYS_MADE + SAYS_KILLED * harness.is_killed_only + f", known: {', '.join(harness.known)}" * bool(harness.known)
    less += f", quiet: {', '.join(harness.quiet)}" * bool(harness.quiet)
    less = plain(less.encode("utf-8", "surrogateescape"), MOST_TEXT // 2)
    name = harness.name + f", seed {harness.seed}" * bool(harness.seed)
    return plain(os.fsencode(name), MOST_TEXT - len(less.encode())) + less


def made_text(label: str, codes: list[str], points: list[str], depth: int, made: "Made") -> str:
    lines = [MADE, 'target = "outside"', f"depth = {depth}", "", "[outside]", f"label = {toml(label)}", f"codes = {toml(codes)}",
        f"points = {toml(points)}"]
    given = ["panic"] if made.is_workload else [f"return({number})" for number in range(1, made.operations + 1)]
    kinds = [f'"sys::write" = {toml(WRITES)}'] * made.has_kinds + [f'"{WORK}" = {toml(given)}'] * bool(made.operations)
    return "\n".join([*lines, *["", "[outside.kinds]", *kinds] * bool(kinds)]) + "\n"


@dataclass(frozen=True)
class Made:
    """What settings that the loop makes have beside a depth."""

    has_kinds: bool  # full disks and half writes
    has_cuts: bool
    operations: int = 0  # so many may be asked for
    length: int = 0  # and so many of them in one run
    is_workload: bool = False  # all of them, in their order

    @property
    def has_choice(self) -> bool:
        return self.operations > 0 and not self.is_workload

    def points(self, own: list[str]) -> list[str]:
        """All points, with these of the program's own."""
        return POINTS + own + [WORK] * bool(self.operations) + CUT_POINTS * self.has_cuts

    def told(self, depth: int) -> str:
        kinds = ", full disks and half writes" if self.has_kinds else ""
        cuts = ", what a power cut keeps" if self.has_cuts else ", without power cuts"
        given = f", {so_many(self.operations, 'operation')}" if self.operations else ""
        choice = f" to choose from, up to {self.length} in a run, each of which counts as a fault" if self.has_choice else ""
        return f"depth {depth}{given}{choice}, all points of files{cuts}{kinds}"


def text_of(settings: Path) -> str:
    try:
        return settings.read_text("utf-8", "surrogateescape")
    except OSError as error:
        raise Stopped(f"{settings}: {error.strerror}") from error


class Settings:
    """A harness's settings. If the loop makes them, `codes` and `own` are the codes and the program's own points that were found, in alphabetical order, so
    that a stop doesn't change the report. With `keeps`, as for one run by `--try`, those of an earlier campaign stay as they are."""

    def __init__(self, harness: Harness, folder: Path, answers: Answers, named: str | None, depth: int | None, has_kinds: bool, keeps: bool = False):
        self.path = Path(named) if named else harness.folder / "settings.toml"
        self.folder = folder
        self.is_made = not named and not self.path.exists() or text_of(self.path).startswith(MADE_BY)
        if self.is_made:
            self.path = folder / "settings.toml"
        elif depth or not has_kinds:
            raise Stopped(f"{self.path} has settings of your own: change the depth and the kinds there, in place of --depth and --no-kinds")
        makes = self.is_made and not (keeps and self.path.exists())
        if makes:
            self.made = Made(has_kinds, not harness.is_killed_only, len(harness.operations), harness.length, harness.is_workload)
            if self.made.has_choice and self.made.operations > MOST_KINDS:
                raise Stopped(f"a campaign chooses among up to {MOST_KINDS} operations, and this harness has {self.made.operations}: let another one have the rest")
            self.depth = depth or (OPERATIONS_DEPTH if self.made.has_choice else 1)
            self.label = label_of(harness)
            self.codes = sorted({code_of(line) for line in answers.lines() if line.startswith("fail ")})
            self.own: list[str] = []
            self.add_own({point for line in answers.lines() for point in own_points_in(hits_in(line))})
            self.write()
            self.show()
        try:
            self.table = tomllib.loads(text_of(self.path))
        except tomllib.TOMLDecodeError as error:
            raise Stopped(f"{self.path}: {error}") from error
        self.points = self.table.get("outside", {}).get("points", [])
        self.depth = self.table.get("depth", 0)
        if not makes:
            self.codes = self.table.get("outside", {}).get("codes", [])

    def show(self) -> None:
        show(f"loop: wrote the settings {from_here(self.path)}: {self.made.told(self.depth)}; codes are added as the judge prints them")

    def write(self) -> None:
        tree.write(self.path, made_text(self.label, self.codes or ["lost"], self.made.points(self.own), self.depth, self.made).encode())

    def take_depth(self, depth: int) -> None:
        """Takes another depth. Settings of one's own stay as they are: that depth stands in a copy, beside the answers."""
        self.depth = depth
        if self.is_made:
            self.write()
            return
        lowered = re.sub(r"^([ \t]*[\"']?depth[\"']?[ \t]*=[ \t]*)[0-9]+", rf"\g<1>{self.depth}", text_of(self.path), count=1, flags=re.MULTILINE)
        self.path = self.folder / LOWERED
        tree.write(self.path, lowered.encode("utf-8", "surrogateescape"))

    def take_code(self, answer: str) -> None:
        """Adds the code of an answer to the settings, before the answer is recorded."""
        if not answer.startswith("fail ") or (code := code_of(answer)) in self.codes:
            return
        if not self.is_made:
            if code in FAILURES:
                raise Stopped(f"a run {code}: add the code {code} to the codes of {self.path}, or name it in `allowed` of the harness")
            raise Stopped(f"the judge printed the code {code}: add it to the codes of {self.path}")
        if len(self.codes) == MOST_CODES:
            raise Stopped(f"the judge printed the code {code}, but settings have at most {MOST_CODES} codes: its first line should only name the promise that "
                "is broken")
        self.codes = sorted([*self.codes, code])
        self.write()

    def take_points(self, answer: str) -> None:
        """Adds the program's own points in the hits of an answer to the settings that the loop makes, before the answer is recorded."""
        found = own_points_in(hits_in(answer)) if self.is_made else set()
        if not found or found <= set(self.own):
            return
        show(f"loop: points of the program's own, which the settings list now: {', '.join(escaped(point) for point in sorted(found - set(self.own)))}")
        self.add_own(found)
        self.write()

    def add_own(self, found: set[str]) -> None:
        self.own = sorted({*self.own, *found})
        if (count := len(self.made.points(self.own))) > MOST_POINTS:
            raise Stopped(f"settings have at most {MOST_POINTS} points, and with those of the program's own there are {count}: let it name fewer")

    def asks(self) -> bool:
        """Whether a scenario says what a power cut keeps."""
        return "power::keep" in self.points

    def refused_points(self) -> list[str]:
        """The points that can't be in settings: names of these tools that no program hits."""
        return [point for point in self.points if not is_own(point) and not KNOWN_POINTS.fullmatch(point)]


def code_of(answer: str) -> str:
    return answer.split("\t")[0].removeprefix("fail ")


def hits_in(answer: str) -> str:
    """The hits of an answer, or an empty text if it has none."""
    return "".join(answer.split("\t")[2:])


def own_points_in(hits: str) -> set[str]:
    return {point for point in set(points_of(hits)) if is_own(point)}
