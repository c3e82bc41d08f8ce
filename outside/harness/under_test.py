"""The program that a harness tests, as a reader of a report is told of it."""

import os
import shlex
import sys
import time
from dataclasses import dataclass
from pathlib import Path

from .definition import Harness
from .identity import digest_of
from .step import STEPS
from .story import text_of

MOST_LINES = 12  # of a `run` or a `session` that is a script
TOLD_OF_DIGEST = 12  # so many digits tell two versions of a program apart


@dataclass
class File:
    name: str
    digest: str
    changed: str  # the date of its last change


@dataclass
class Program:
    name: str
    run: list[str]  # how the harness runs it, as lines
    version: str  # as the harness says it
    files: list[File]


def date_of(seconds: float) -> str:
    return time.strftime("%Y-%m-%d", time.gmtime(seconds))


def today() -> str:
    """The date, or that of SOURCE_DATE_EPOCH, by which others make the same files again."""
    return date_of(float(os.environ.get("SOURCE_DATE_EPOCH") or time.time()))


def command_lines(script: Path) -> list[str]:
    """The lines of a script that run something. A program of another form has none."""
    try:
        lines = script.read_text("utf-8").splitlines()
    except UnicodeDecodeError:
        return []
    return [text_of(line) for line in lines if line.strip() and not line.lstrip().startswith("#")][:MOST_LINES]


def run_lines(harness: Harness) -> list[str]:
    if harness.begins in harness.functions:
        return [f"the function {harness.begins} of {text_of(harness.file.name)}"]
    command = harness.commands.get(harness.begins)
    if command is None:
        return command_lines(harness.folder / harness.begins)
    return [text_of(line) for line in (command if isinstance(command, str) else shlex.join(map(str, command))).splitlines()]


def files_of(harness: Harness) -> list[Path]:
    """The files of the program that are known: those to which links in the harness's folder lead, and the one that its file of Python names."""
    linked = [path for path in sorted(harness.folder.iterdir()) if path.is_symlink() and path.is_file()] if harness.is_folder else []
    named = Path(harness.steps[harness.begins][0])
    is_named = harness.begins in harness.commands and harness.begins not in harness.functions and named.is_absolute() and named.is_file() and str(named) != sys.executable
    return linked + [named] * is_named


def program_of(harness: Harness) -> Program:
    """A file that can't be run by itself has a part in it, and gives it its name only if `run` has the path to which its link leads: so it is with the script
    of `python3 ./save.py`, and not with one that `run` reads from the harness. A step of another harness has the name of a step."""
    paths, lines = files_of(harness), run_lines(harness)
    files = [File(text_of(path.name), digest_of(path)[:TOLD_OF_DIGEST], date_of(path.stat().st_mtime)) for path in paths]
    named = [path for path in paths if os.access(path, os.X_OK) or path.is_symlink() and any(text_of(os.readlink(path)) in line for line in lines)]
    return Program(", ".join(text_of(path.name) for path in named if path.name not in STEPS) or text_of(harness.name), lines, text_of(harness.version), files)
