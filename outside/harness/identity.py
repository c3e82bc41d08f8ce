"""The identity of a harness: all that its answers depend on, except programs that it finds by the PATH. Answers of another harness are refused."""

import hashlib
import json
import os
import re
import tomllib
from collections.abc import Iterator
from pathlib import Path
from typing import NoReturn

from .answers import Stopped

NOTE = "campaign.json"  # beside the answers: says to which harness they belong
CERTIFIED = "certified"  # the folder of images of real file systems that show findings
FAILING = "failing"  # the scenarios that failed once: answers don't depend on them
SET_ASIDE = re.compile(r"answers\.[0-9]+")  # answers that belong to a harness as it was before
WRITTEN = {"answers", NOTE, FAILING, CERTIFIED, "report", "page.html", "junit.xml", "report.json",  # files that the loop writes beside a harness
    *(f"{name}.new" for name in ("campaign", "settings", "settings.lowered", FAILING, "report", "page", "junit"))}  # and what it renames to these
TOLD = 3  # at most so many names of what differs are printed

Identity = dict[str, object]  # as JSON has it


def is_passed_over(name: str) -> bool:
    """Whether a name is hidden, or of a file that Python or an editor leaves."""
    return name.startswith(".") or name.endswith("~") or name == "__pycache__"


def is_written(name: str) -> bool:
    """Whether a file of this name beside a harness is one that the loop leaves there."""
    return name in WRITTEN or bool(SET_ASIDE.fullmatch(name))


def is_settings(path: Path) -> bool:
    """Whether a file has settings of a campaign. Answers don't belong to them, so that they stay good for a greater depth."""
    if path.suffix != ".toml":
        return False
    try:
        return tomllib.loads(path.read_text("utf-8")).get("target") == "outside"
    except (OSError, ValueError):
        return False


def refuse(error: OSError) -> NoReturn:
    raise Stopped(f"{error.filename}: {error.strerror}") from error


def files_in(folder: Path, into: Path) -> Iterator[Path]:
    """The files of a harness: all in its folder and below, except settings, what campaigns leave there, and what is passed over."""
    for place, folders, names in os.walk(folder, onerror=refuse):
        here = Path(place)
        folders[:] = [name for name in folders if not is_passed_over(name) and here / name != into and not (here / name / NOTE).exists()
            and not (here == folder and name == CERTIFIED)]
        links = [name for name in folders if (here / name).is_symlink()]  # into which os.walk doesn't go
        for name in names + links:
            if not is_passed_over(name) and not (here == folder and is_written(name)) and not is_settings(here / name):
                yield here / name


def digest_of(path: Path) -> str:
    """The digest of a file's bytes, also through a link. For a link to a folder, or to nothing, it is the link's text."""
    if not path.is_file():
        return str(path.readlink()) if path.is_symlink() else ""
    try:
        with open(path, "rb") as file:
            return hashlib.file_digest(file, "sha256").hexdigest()
    except OSError as error:
        refuse(error)


def digests(folder: Path, files: list[Path]) -> dict[str, str]:
    return {os.path.relpath(path, folder): digest_of(path) for path in files}


def differences(known: Identity, other: Identity) -> list[str]:
    """The names of what differs between two identities."""
    found = []
    for name in sorted(known.keys() | other.keys()):
        one, two = known.get(name), other.get(name)
        if isinstance(one, dict) and isinstance(two, dict):
            found += differences(one, two)
        elif one != two:
            found.append(name)
    return found


def noted(answers: Path) -> dict:
    """What the note beside answers has, or an empty table if there is no note."""
    note = answers.with_name(NOTE)
    try:
        said = json.loads(note.read_text("utf-8")) if note.exists() else {}
    except (OSError, ValueError):
        said = None
    if not isinstance(said, dict):
        raise Stopped(f"{note} can't be read as the note of a campaign: delete it and {answers.name}, and start again")
    return said


def other_in(answers: Path, own: Identity) -> str:
    """The harness to which answers belong by the note beside them, or an empty text if that is this one."""
    known = noted(answers).get("harness")
    if known == own:
        return ""
    names = differences(known, own) if isinstance(known, dict) else []
    return f"a harness with another {', '.join(names[:TOLD])}" + " and more" * (len(names) > TOLD) if names else "another harness"


def refuse_others(answers: Path, own: Identity) -> None:
    """Refuses answers if the note beside them has the identity of another harness."""
    if other := other_in(answers, own):
        raise Stopped(f"{answers} belongs to {other}: delete it, and start again")
