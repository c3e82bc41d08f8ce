"""The runs without faults that `paklour-new` makes of a harness. Threads go in the order of a campaign there, and random bytes are those of a
campaign, so that such a run leaves what the campaign's run without faults does."""

import contextlib
import hashlib
import os
import re
import stat
import subprocess
import tempfile
import time
from collections.abc import Callable, Iterator
from pathlib import Path
from typing import NoReturn

from . import tree
from .answers import Stopped
from .definition import Harness, read
from .processes import WITHIN
from .programs import FAULTS, POWERCUT, REFUSED
from .ready import at_first, ways_for
from .run import NO_CALL, TIME_IS_UP
from .shown import from_here, last_lines, show
from .work import places

CANNOT = 1  # the exit status if the folder can't be made, or the command can't be run
SECONDS = 60  # that a run without faults may take, as in a campaign without --seconds
LATER = 1.1  # seconds between two runs, so that times in whole seconds differ
UNLIKE = re.compile(r"[\s*?\[\]]")  # what a pattern can't have as it is; ? stands for any character
LEFT = "left"  # in a harness whose `prepare` copies it: what a run has left
Files = dict[str, tuple[os.stat_result, bytes]]  # the names below a folder, each with its status and a digest of its contents


@contextlib.contextmanager
def room() -> Iterator[Path]:
    """A folder for such runs, where those of a campaign lie."""
    place = Path(tempfile.mkdtemp(dir=places()[0]))
    try:
        yield place
    finally:
        tree.remove(place)


def followed(harness: Harness, place: Path) -> list[str]:
    """The words before `run`, by which it goes as in a campaign."""
    subprocess.run([POWERCUT, "begin", place / "notes", place / "data"], check=True)
    order = [] if harness.order == "arrival" else ["--order", harness.order]
    return [str(FAULTS), *order, *["--pin"] * harness.pins, "--"]


def run_in(place: Path, words: list[str], environment: dict[str, str]) -> int:
    with open(place / "errors", "wb") as errors:
        return subprocess.run([WITHIN, str(SECONDS), "-", *words], cwd=place / "data", env=environment, stdin=subprocess.DEVNULL, stdout=subprocess.DEVNULL,
            stderr=errors, check=False).returncode


def try_out(folder: Path, place: Path) -> Files:
    """Makes a run without faults there, from what `prepare` leaves. Returns what that was. Refuses a harness whose `prepare` or `run` fails."""
    harness = read(str(folder))
    (place / "data").mkdir(parents=True)
    (place / "tmp").mkdir()
    environment = os.environ | {"HARNESS": str(folder), "TMPDIR": str(place / "tmp")} | harness.variables
    if "prepare" in harness.steps and (status := run_in(place, harness.steps["prepare"], environment)):
        refuse_failed(folder, "prepare", status, last_lines(place / "errors"))
    before = files_of(place / "data")
    tree.remove(place / "tmp")  # each step has a new one
    (place / "tmp").mkdir()
    of_run = {"FAILPOINTS": "none", "FAULTS_ROOT": str(place / "data"), "FAULTS_RUN": str(place / "notes")}
    if status := run_in(place, [*followed(harness, place), *harness.steps[harness.begins]], environment | of_run):
        refuse_failed(folder, "run", status, last_lines(place / "errors"))
    return before


def refuse_failed(folder: Path, step: str, status: int, errors: str) -> NoReturn:
    """The folder stays, since a program that needs files can be tried only once `prepare` makes them."""
    makes_no_call = status == REFUSED and NO_CALL in errors
    show(errors.rpartition("\n")[0] if makes_no_call else errors)
    why = ("made no call on files in the folder in which it starts" if makes_no_call else "can't be followed" if status == REFUSED
        else f"was ended after {SECONDS} seconds" if status == TIME_IS_UP else f"ended with {status}")
    named = from_here(folder)
    if step == "run" and (folder / LEFT).exists():
        raise Stopped(f"{named}/run {why} on what a run before it has left. If the command can't be run twice, delete {named}", CANNOT)
    raise Stopped(f"{named}/{step} {why}. If it needs files, let {named}/prepare make them, and then call paklour-new --expect {named}. "
        f"If the command was wrong, delete {named}", CANNOT)


def try_alone(folder: Path) -> None:
    with room() as place:
        try_out(folder, place)


def leave(folder: Path) -> None:
    """Makes a run, and keeps what it leaves, as the threads of another run may leave something else."""
    with room() as place:
        try_out(folder, place)
        tree.copy(str(place / "data"), str(folder / LEFT))


def try_server(folder: Path, line: str, use: Callable[[str], None]) -> None:
    """Looks how the server says that it is ready, and has the harness look for that."""
    ways = ways_for(line)
    with room() as place:
        use(at_first(line))
        try:
            try_out(folder, place)
        finally:
            found = [(way, taken) for way in ways if (taken := way.line_in(place / "tmp" / "output"))]
            way, taken = found[0] if found else (ways[-1], "")
            use(way.command)
    if way is not ways[0]:
        show(f"new: no line is {line} as a whole, so the server is ready at the first line that {way.says}: {taken}")


def files_of(data: Path) -> Files:
    """What each file below a folder has, and each link; folders have nothing."""
    return {name: (told, tree.contents_of(f"{data}/{name}", told)) for name, told in tree.entries(str(data))}


def differing(one: Files, other: Files) -> list[str]:
    return sorted(name for name in one.keys() & other.keys() if one[name][1] != other[name][1])


def written_over(before: Files, data: Path) -> list[str]:
    """The files that were changed in place, and not only appended to. Large ones aren't looked into."""
    names = []
    for name, (told, contents) in before.items():
        path = data / name
        if stat.S_ISREG(told.st_mode) and told.st_size <= tree.BLOCK and path.is_file() and path.stat().st_ino == told.st_ino:
            with open(path, "rb") as file:
                if hashlib.sha256(file.read(told.st_size)).digest() != contents:
                    names.append(name)
    return names


def expect(folder: Path) -> None:
    """Makes two runs, and puts what both have left into `expected`. What differs between them counts by its name alone, or if that differs, not at all."""
    with room() as place:
        before = try_out(folder, place / "first")
        time.sleep(LATER)
        try_out(folder, place / "second")
        first, second = files_of(place / "first" / "data"), files_of(place / "second" / "data")
        (folder / "unjudged").unlink(missing_ok=True)
        if (folder / "expected").exists():
            tree.remove(folder / "expected")
        for name in sorted(first.keys() - second.keys(), reverse=True):
            path = place / "first" / "data" / name
            path.rmdir() if path.is_dir() and not path.is_symlink() else path.unlink()
        tree.copy(str(place / "first" / "data"), str(folder / "expected"))
        over = written_over(before, place / "first" / "data")
    tell_differing(folder, differing(first, second), sorted(first.keys() ^ second.keys()))
    if over:
        show(f"new: until `done` is printed, the judge accepts only the old contents or the new ones of what is written over in place: {', '.join(over)}. "
            f"If a journal has what is missing meanwhile, write the name into {from_here(folder)}/journaled")


def tell_differing(folder: Path, contents: list[str], names: list[str]) -> None:
    if contents:
        tree.write(folder / "unjudged", "".join(f"{UNLIKE.sub('?', name)}\n" for name in contents).encode("utf-8", "surrogateescape"))
        show(f"new: in a second run these had other contents, so the judge only looks whether they are there ({from_here(folder)}/unjudged): "
            f"{', '.join(contents)}")
    if names:
        show(f"new: in a second run these had other names, so the judge doesn't look for them: {', '.join(names)}")
