"""A harness, which says how a program is prepared, run, run again after a power cut, and judged. It is a folder with programs of these names, or a file of
Python that defines them as functions or commands. A file of Python in the folder may add to the programs beside it."""

import json
import os
import shlex
import subprocess
import sys
from dataclasses import dataclass, field
from pathlib import Path

from .answers import Stopped
from .identity import Identity, digest_of, digests, files_in
from .operations import MOST_OPEN, USUAL_LENGTH, checked, lines_of
from .step import STEPS

STEP = Path(__file__).resolve().with_name("step.py")
PROFILES = STEP.parent.parent / "cut" / "profiles"  # what the power cut keeps and leaves, on each disk
PYTHON_FILE = "harness.py"
LASTING, LIVE = "lasting", "live"
ALL_STATES = (LASTING, "names", "contents", LIVE)
ORDERS = ("settled", "arrival")
FAILURES = ("crashed", "hung")  # of any program, whatever its judge says
VARIABLES = ("FAULTS_SYNC", "FAULTS_BLOCK", "FAULTS_FSYNC", "FAULTS_POINTS", "FAULTS_SOCKETS")


@dataclass
class Harness:
    name: str
    folder: Path
    steps: dict[str, list[str]]
    file: Path | None = None  # the file of Python, if it has one
    others: list[Path] = field(default_factory=list)  # other files on which answers depend: programs named by their paths, and modules
    commands: dict[str, str | list[str] | None] = field(default_factory=dict)  # the steps as the file of Python defines them
    functions: frozenset[str] = frozenset()  # the steps that are functions of Python
    variables: dict[str, str] = field(default_factory=dict)  # for the environment of its programs
    states: tuple[str, ...] = ()  # those that are judged if the settings don't list power::keep
    order: str = "settled"
    pins: bool = True
    version: str = ""  # of the program, as its file of Python says it
    unjudged: tuple[str, ...] = ()  # patterns of names of files into which the judge doesn't look, such as logs with times
    quiet: tuple[str, ...] = ()  # patterns of names of files at whose calls no fault is planned
    allowed: tuple[str, ...] = ()  # those of FAILURES that are none of this program
    known: tuple[str, ...] = ()  # the codes of losses that are known: a run that breaks no other promise passes
    operations: tuple[str, ...] = ()  # what a session may be asked to do
    is_workload: bool = False  # it is asked to do all of them, in this order
    seed: int = 0  # from which they were drawn, or 0 if they are written down
    length: int = USUAL_LENGTH  # of so many of them at most in one run

    @property
    def is_folder(self) -> bool:
        return not self.file or self.file.name == PYTHON_FILE

    @property
    def begins(self) -> str:
        """The step that is run under faults."""
        return "session" if "session" in self.steps else "run"

    @property
    def has_choice(self) -> bool:
        """Whether a campaign chooses what the program is asked to do."""
        return bool(self.operations) and not self.is_workload

    @property
    def looks(self) -> bool:
        """Whether runs are judged by looking."""
        return "look" in self.steps

    @property
    def is_killed_only(self) -> bool:
        """Whether a run is judged as if its program were killed, and no power cut came. `again` begins behind a power cut."""
        return self.states == (LIVE,) and "again" not in self.steps

    def knows(self, verdict: str) -> bool:
        """Whether a verdict is that of a known loss."""
        return verdict.removeprefix("fail ") in self.known and verdict.startswith("fail ")

    def identity(self, into: Path) -> Identity:
        """What answers depend on, for a campaign that writes its own files into that folder."""
        files = [*files_in(self.folder, into)] if self.is_folder else [self.file]
        named = {name: os.environ[name] for name in VARIABLES if name in os.environ}
        more = {"version": self.version} if self.version else {}
        more |= {"quiet": list(self.quiet)} if self.quiet and self.file else {}
        if self.operations and self.file:
            more |= {"operations": list(self.operations), "workload": self.is_workload, "length": self.length}
        return {"power cut": digest_of(PROFILES), "files": digests(self.folder, [*files, *self.others]), "commands": self.commands,
            "variables": named | self.variables, "states": list(self.states or ALL_STATES), "order": self.order, "pin": self.pins,
            "unjudged": list(self.unjudged), "allowed": sorted(self.allowed), "known": sorted(self.known)} | more


def read(path: str, seed: int = 1) -> Harness:
    """The harness there. If it draws its operations, they are those of the seed."""
    place = Path(path).resolve()
    if not place.exists():
        raise Stopped(f"{path}: there is no such harness; paklour-new writes one")
    file = place / PYTHON_FILE if place.is_dir() else place
    harness = read_folder(file.parent) if file.name == PYTHON_FILE else Harness(file.stem, file.parent, {})
    if file.exists():
        read_file(file, harness, seed)
    refuse_unknown(path, "failure", harness.allowed, FAILURES)
    refuse_unfit(path, harness.quiet)
    refuse_lacking(path, harness)
    return harness


def refuse_lacking(path: str, harness: Harness) -> None:
    """Refuses a harness that doesn't say how its program is run and how it is judged."""
    begins, judges = ("session", "look") if harness.operations else ("run", "judge")
    lacking = [] if harness.begins in harness.steps else [begins]
    lacking += [] if {"judge", "look"} & harness.steps.keys() else [judges]
    if lacking:
        raise Stopped(f"{path}: `{lacking[0]}` is missing: a harness has a program of this name, or a file of Python that defines it")
    if {"run", "session"} <= harness.steps.keys():
        raise Stopped(f"{path}: a harness has `run` or `session`, and not both")
    if bool(harness.operations) != (harness.begins == "session"):
        raise Stopped(f"{path}: `session` needs `operations`, which lists what it may be asked to do, or `workload`, and each of these needs `session`")
    if not 1 <= harness.length <= MOST_OPEN:
        raise Stopped(f"{path}: `length` must be a number from 1 to {MOST_OPEN}")


def read_folder(place: Path) -> Harness:
    files = [place / name for name in STEPS if (place / name).exists()]
    for file in files:
        if not os.access(file, os.X_OK):
            raise Stopped(f"{file} isn't executable: call chmod +x {shlex.quote(str(file))}")
    harness = Harness(place.name, place, {file.name: [str(file)] for file in files})
    harness.unjudged, harness.allowed, harness.quiet = (words_in(place / name) for name in ("unjudged", "allowed", "quiet"))
    for file in (place / "operations", place / "workload"):
        if file.exists():
            take_operations(harness, lines_of(file.read_text("utf-8", "surrogateescape"), str(file)), file.name)
    if length := words_in(place / "length"):
        harness.length = int(length[0]) if length[0].isascii() and length[0].isdigit() else 0
    return harness


def take_operations(harness: Harness, operations: tuple[str, ...], name: str) -> None:
    if harness.operations:
        raise Stopped(f"{harness.name}: a harness has `operations` or `workload`, each once")
    harness.operations = operations
    harness.is_workload = name == "workload"


def listed(texts: object, name: str) -> tuple[str, ...]:
    if not isinstance(texts, list) or not all(isinstance(text, str) for text in texts):
        raise Stopped(f"{name} must be a list of texts")
    return tuple(texts)


def refuse_unfit(path: str | Path, patterns: tuple[str, ...]) -> None:
    """Refuses patterns that no name under the root can fit: a harness would seem to aim, and wouldn't."""
    for pattern in patterns:
        if not pattern or "\n" in pattern or pattern.startswith(("/", "./", "../")) or pattern.endswith("/"):
            raise Stopped(f"{path}: quiet: no name fits {pattern!r}: names are those under the data's folder, such as base/1/f, and base/** is all below base")


def words_in(file: Path) -> tuple[str, ...]:
    return tuple(file.read_text("utf-8").split()) if file.exists() else ()


def refuse_unknown(path: str | Path, what: str, words: tuple[str, ...], known: tuple[str, ...]) -> None:
    if unknown := set(words) - set(known):
        raise Stopped(f"{path}: no such {what}: {', '.join(sorted(unknown))}; the {what}s are {', '.join(known)}")


def read_file(file: Path, harness: Harness, seed: int) -> None:
    """Adds to the harness what its file of Python defines."""
    done = subprocess.run([sys.executable, str(STEP), str(file), "--seed", str(seed)], capture_output=True, check=False)
    if done.returncode:
        raise Stopped(f"{file}: {done.stderr.decode('utf-8', 'surrogateescape').strip() or 'Python ended with status ' + str(done.returncode)}")
    told = json.loads(done.stdout.splitlines()[-1])
    harness.file = file
    harness.commands = {step: told[step] for step in STEPS if step in told}
    steps = {step: words_of(file, step, command) for step, command in harness.commands.items()}
    harness.steps |= steps
    harness.functions = frozenset(step for step in steps if told[step] is None)
    programs = [Path(words[0]) for step, words in steps.items() if step not in harness.functions]
    harness.others = [program for program in programs if program.is_absolute() and program.exists()] + [Path(module) for module in told["modules"]]
    harness.variables = told.get("environment", {})
    harness.states, harness.order, harness.pins = tuple(told.get("states", ())), told.get("order", "settled"), told.get("pin", True)
    harness.version = str(told.get("version", ""))
    harness.unjudged += tuple(told.get("unjudged", ()))
    harness.allowed += tuple(told.get("allowed", ()))
    harness.quiet += listed(told.get("quiet", []), f"{file}: quiet")
    for name in {"operations", "workload"} & told.keys():
        take_operations(harness, checked(told[name], str(file)), name)
    if "drawn" in told:
        take_operations(harness, checked(told["drawn"], f"{file}, seed {seed}"), "workload")
        harness.seed = seed
    if "length" in told:
        harness.length = told["length"] if isinstance(told["length"], int) else 0
    refuse_unknown(file, "state", harness.states, ALL_STATES)
    refuse_unknown(file, "order", (harness.order,), ORDERS)


def words_of(file: Path, step: str, command: str | list[str] | None) -> list[str]:
    """The command of a step. A function runs in a Python of its own, and a text in the shell. A program's path begins at the harness's folder."""
    if command is None:
        return [sys.executable, str(STEP), str(file), step]
    if isinstance(command, str):
        return ["sh", "-c", command]
    words = [str(word) for word in command]
    if "/" in words[0]:
        words[0] = str(file.parent / words[0])
    return words
