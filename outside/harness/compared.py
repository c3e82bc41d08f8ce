"""Compares two folders of files for a person: which names are there, and where the bytes of a file begin to differ."""

import os
import stat
from dataclasses import dataclass
from fnmatch import fnmatchcase
from pathlib import Path

from . import tree

MOST_FILES = 12  # so many files that differ are told one by one
MOST_BYTES, MOST_OF_BINARY = 160, 32  # so many bytes of a file are shown
BEFORE = 16  # and so many of these stand before the first that differs
SMALL = 1 << 16  # of a file that is longer no bytes are shown
KINDS = {stat.S_IFREG: "file", stat.S_IFDIR: "folder", stat.S_IFLNK: "link"}


@dataclass(frozen=True)
class Side:
    """A name as it is in one of the folders."""

    kind: str  # "file", "folder", "link", or "other"
    mode: str
    length: int
    begin: int = 0  # how many bytes stand before the text
    text: str = ""  # bytes of a file, or where a link leads, for a person to read
    more: int = 0  # how many bytes stand behind it


@dataclass(frozen=True)
class Difference:
    """A name that isn't the same in both folders. It is None where it isn't there."""

    name: str
    before: Side | None
    after: Side | None


@dataclass(frozen=True)
class Comparison:
    differences: list[Difference]
    more: int  # how many names differ besides
    same: int  # how many files are the same in both
    unjudged: int  # how many names differ into which the judge doesn't look


def readable(part: bytes) -> str:
    """Bytes as a person reads them: what can't be seen, and what is no UTF-8, is escaped."""
    text = part.replace(b"\\", rb"\\").decode("utf-8", "backslashreplace")
    return "".join(letter if letter.isprintable() else letter.encode("unicode_escape").decode() for letter in text)


def readable_name(name: str) -> str:
    """A name of a file, which may have any bytes, in the same way."""
    return readable(os.fsencode(name))


def is_text(part: bytes) -> bool:
    return len(readable(part)) < 2 * len(part)


def read(path: str, told: os.stat_result) -> bytes:
    """The bytes of a small file, or the text of a link."""
    if stat.S_ISLNK(told.st_mode):
        return os.fsencode(os.readlink(path))
    if not stat.S_ISREG(told.st_mode) or told.st_size > SMALL:
        return b""
    with open(path, "rb") as file:
        return file.read()


def first_difference(one: bytes, other: bytes) -> int:
    return next((place for place, (here, there) in enumerate(zip(one, other)) if here != there), min(len(one), len(other)))


def side(told: os.stat_result | None, contents: bytes, parts: int) -> Side | None:
    """One side of a name whose bytes differ from there on."""
    if told is None:
        return None
    kind = KINDS.get(stat.S_IFMT(told.st_mode), "other")
    mode = f"{stat.S_IMODE(told.st_mode):04o}"
    if kind in ("folder", "other"):
        return Side(kind, mode, 0)
    length = told.st_size
    is_shown_whole = length <= (MOST_BYTES if is_text(contents) else MOST_OF_BINARY)
    begin = 0 if is_shown_whole else max(0, parts - BEFORE)
    part = contents[begin:begin + MOST_BYTES]
    part = part if is_text(part) else part[:MOST_OF_BINARY]
    return Side(kind, mode, length, begin, readable(part), length - begin - len(part))


def is_same(before: str, after: str, then: os.stat_result, now: os.stat_result) -> bool:
    return then.st_mode == now.st_mode and tree.contents_of(before, then) == tree.contents_of(after, now)


def compared(before: Path, after: Path, leaves_out: tuple[str, ...] = ()) -> Comparison:
    """How the second folder differs from the first. Names that match one of these patterns are only counted."""
    then, now = dict(tree.entries(str(before))), dict(tree.entries(str(after)))
    found, same, unjudged = [], 0, 0
    for name in sorted({*then, *now}):
        old, new = f"{before}/{name}", f"{after}/{name}"
        if name in then and name in now and is_same(old, new, then[name], now[name]):
            same += not stat.S_ISDIR(now[name].st_mode)
            continue
        if any(fnmatchcase(name, pattern) for pattern in leaves_out):
            unjudged += 1
            continue
        contents = [read(path, told[name]) if name in told else b"" for path, told in ((old, then), (new, now))]
        parts = first_difference(*contents) if name in then and name in now else 0
        found.append(Difference(readable_name(name), side(then.get(name), contents[0], parts), side(now.get(name), contents[1], parts)))
    return Comparison(found[:MOST_FILES], max(0, len(found) - MOST_FILES), same, unjudged)
