"""Workloads: steps over a few files and folders, as a text of theirs, as they are made on a disk, and as changes that a model takes.

A workload is a text such as `create n; append n 5000; fsync n`. What the steps begin with is what BASE makes; it lasts.

    create F, mkdir D, link F N, symlink TARGET N, unlink N, rmdir D, rename N N, exchange N N, chmod N MODE
    write F AT LENGTH, append F LENGTH, truncate F LENGTH, rewrite F LENGTH (O_TRUNC, then a write), store F AT LENGTH (into a mapping)
    fsync N, fdatasync F, dsync F AT LENGTH (a write with O_DSYNC), sync_file_range F, msync F AT LENGTH, syncfs, sync
    commit, writeback: what the kernel may do at any time by itself, of names alone, or of contents too. Neither promises anything
    keep_open F (until the last step), fail NUMBER (the device fails to write what that step wrote), fail flush, fail (no more). With these no model is asked
"""

import contextlib
import ctypes
import errno
import functools
import inspect
import mmap
import os
import random
import re
from collections.abc import Callable, Iterator
from dataclasses import dataclass, field

from .disk import commit_names, libc, sync_all_of, write_out

Step = tuple[str, ...]
ROOT = 0
NEW_MODE = 0o644
RENAME_EXCHANGE = 2
AT_FDCWD = -100
HIDDEN = "../hidden"  # a folder beside that of the workload, by which the kernel is made to commit

BASE = """mkdir d; mkdir g; create a; write a 0 9000; create b; write b 0 8192; create c; write c 0 300; create d/k; write d/k 0 5000; create g/h;
write g/h 0 60; create log; write log 0 9000; symlink old s"""


class Invalid(Exception):
    """A step that can't be made: what it names isn't there, or is there."""


def steps_of(text: str) -> list[Step]:
    steps = [tuple(step.split()) for step in text.replace("\n", " ").split(";") if step.strip()]
    for word, *rest in steps:
        try:
            inspect.signature(getattr(Maker, word)).bind(None, 0, *rest)
        except (AttributeError, TypeError):
            raise Invalid(f"no step `{' '.join([word, *rest])}`") from None
    return steps


def text_of(steps: list[Step]) -> str:
    return "; ".join(" ".join(step) for step in steps)


def filling(number: int, at: int, length: int) -> bytes:
    """What a step writes at this place. It has the step's number, of which those before the first step are negative."""
    token = b"~%c%02d" % (b"b" if number < 0 else b"w", abs(number))
    return (token * (length // 4 + 2))[at % 4:at % 4 + length]


def writer_of(token: bytes) -> str:
    """What four bytes are: of a step, by its number, of a file that was there before, zeros, or anything else."""
    told = re.fullmatch(rb"~([bw])(\d\d)", token)
    if not told:
        return "other bytes" if token.strip(b"\0") else "zeros"
    return f"step {int(told[2]) + 1}" if told[1] == b"w" else f"old {steps_of(BASE)[-int(told[2])][1]}"


# ---- the changes of a step


@dataclass
class Names:
    """Entries of folders that change together: what stands at a name afterwards, or None. `subjects` are the files whose names they are."""

    parts: list[tuple[int, str, int | None]]
    subjects: list[int]
    moves: bool = False  # a rename or an exchange
    exchanges: bool = False
    replacing: int | None = None  # the file that took the place of another
    makes: int | None = None


@dataclass
class Mode:
    number: int
    mode: int


@dataclass
class Contents:
    """Bytes from `begin` to `end` change, and the file is `contents` afterwards. If it is shorter then, that is a shortening. If bytes weren't written, it is
    a new length alone."""

    number: int
    begin: int
    end: int
    contents: bytes
    shortens: bool = False
    is_written: bool = True


@dataclass
class Sync:
    """A sync that has returned: of a file or folder, or of all."""

    kind: str
    number: int | None = None
    begin: int = 0
    end: int = 0


@dataclass
class Live:
    """The files as a program sees them."""

    kinds: list[str] = field(default_factory=lambda: ["folder"])
    modes: list[int] = field(default_factory=lambda: [0o755])
    contents: list[object] = field(default_factory=lambda: [b""])
    entries: dict[tuple[int, str], int] = field(default_factory=dict)

    def place(self, path: str) -> tuple[int, str]:
        """The folder and the name of a path."""
        folder = ROOT
        *above, name = path.split("/")
        for part in above:
            folder = self.entries.get((folder, part), -1)
            if folder < 0 or self.kinds[folder] != "folder":
                raise Invalid(path)
        return folder, name

    def at(self, path: str, *kinds: str) -> int:
        number = ROOT if path == "." else self.entries.get(self.place(path), -1)
        if number < 0 or (kinds and self.kinds[number] not in kinds):
            raise Invalid(path)
        return number

    def places_of(self, number: int) -> set[tuple[int, str]]:
        return {place for place, there in self.entries.items() if there == number}

    def free(self, path: str) -> tuple[int, str]:
        if self.place(path) in self.entries:
            raise Invalid(path)
        return self.place(path)

    def paths(self, folder: int = ROOT, before: str = "") -> list[tuple[str, int]]:
        found = []
        for (above, name), number in sorted(self.entries.items()):
            if above == folder:
                found.append((before + name, number))
                if self.kinds[number] == "folder":
                    found += self.paths(number, f"{before}{name}/")
        return found

    def make(self, kind: str, mode: int, contents: object) -> int:
        self.kinds.append(kind)
        self.modes.append(mode)
        self.contents.append(contents)
        return len(self.kinds) - 1

    def take(self, change) -> None:
        if isinstance(change, Names):
            for folder, name, number in change.parts:
                if number is None:
                    del self.entries[folder, name]
                else:
                    self.entries[folder, name] = number
        elif isinstance(change, Mode):
            self.modes[change.number] = change.mode
        elif isinstance(change, Contents):
            self.contents[change.number] = change.contents

    def changes(self, step: Step, number: int) -> list:
        """What a step changes, in order; its files are as after it then."""
        done = []
        for change in getattr(self, f"changes_of_{step[0]}")(number, *step[1:]):
            self.take(change)
            done.append(change)
        return done

    # Names

    def changes_of_create(self, _, path):
        place = self.free(path)
        made = self.make("file", NEW_MODE, b"")
        yield Names([(*place, made)], [made], makes=made)

    def changes_of_mkdir(self, _, path):
        place = self.free(path)
        made = self.make("folder", 0o755, b"")
        yield Names([(*place, made)], [made], makes=made)

    def changes_of_symlink(self, _, target, path):
        place = self.free(path)
        made = self.make("link", 0, target)
        yield Names([(*place, made)], [made], makes=made)

    def changes_of_link(self, _, old, path):
        linked = self.at(old, "file")
        yield Names([(*self.free(path), linked)], [linked])

    def changes_of_unlink(self, _, path):
        gone = self.at(path, "file", "link")
        yield Names([(*self.place(path), None)], [gone])

    def changes_of_rmdir(self, _, path):
        gone = self.at(path, "folder")
        if gone == ROOT or any(folder == gone for folder, _ in self.entries):
            raise Invalid(path)
        yield Names([(*self.place(path), None)], [gone])

    def changes_of_rename(self, _, old, new):
        moved, there = self.at(old), self.entries.get(self.place(new))
        same_kind = there is None or (self.kinds[moved] != "folder" and self.kinds[there] != "folder")
        if moved in (ROOT, there) or not same_kind or new.startswith(old + "/"):
            raise Invalid(new)
        subjects = [moved] if there is None else [moved, there]
        yield Names([(*self.place(new), moved), (*self.place(old), None)], subjects, moves=True, replacing=None if there is None else moved)

    def changes_of_exchange(self, _, one, other):
        first, second = self.at(one), self.at(other)
        if ROOT in (first, second) or first == second or one.startswith(other + "/") or other.startswith(one + "/"):
            raise Invalid(other)
        yield Names([(*self.place(one), second), (*self.place(other), first)], [first, second], moves=True, exchanges=True)

    # Attributes and contents

    def changes_of_chmod(self, _, path, mode):
        yield Mode(self.at(path, "file", "folder"), int(mode, 8))

    def changes_of_write(self, number, path, at, length):
        file, begin, end = self.at(path, "file"), int(at), int(at) + int(length)
        old = self.contents[file].ljust(begin, b"\0")
        yield Contents(file, begin, end, old[:begin] + filling(number, begin, end - begin) + old[end:])

    def changes_of_append(self, number, path, length):
        yield from self.changes_of_write(number, path, len(self.contents[self.at(path, "file")]), length)

    def changes_of_truncate(self, _, path, length):
        file, wanted = self.at(path, "file"), int(length)
        old = self.contents[file]
        if wanted == len(old):
            raise Invalid(path)
        yield Contents(file, len(old), wanted, old[:wanted].ljust(wanted, b"\0"), shortens=wanted < len(old), is_written=False)

    def changes_of_rewrite(self, number, path, length):
        if self.contents[self.at(path, "file")]:
            yield from self.changes_of_truncate(number, path, 0)
        yield from self.changes_of_write(number, path, 0, length)

    def changes_of_store(self, number, path, at, length):
        if int(at) + int(length) > len(self.contents[self.at(path, "file")]):
            raise Invalid(path)
        yield from self.changes_of_write(number, path, at, length)

    # Syncs

    def changes_of_fsync(self, _, path):
        yield Sync("fsync", self.at(path, "file", "folder"))

    def changes_of_fdatasync(self, _, path):
        yield Sync("fdatasync", self.at(path, "file", "folder"))

    def changes_of_dsync(self, number, path, at, length):
        yield from self.changes_of_write(number, path, at, length)
        yield Sync("dsync", self.at(path), int(at), int(at) + int(length))

    def changes_of_msync(self, _, path, at, length):
        if int(at) + int(length) > len(self.contents[self.at(path, "file")]):
            raise Invalid(path)
        yield Sync("msync", self.at(path), int(at), int(at) + int(length))

    def changes_of_sync_file_range(self, _, path):
        yield Sync("sync_file_range", self.at(path, "file"))

    def changes_of_syncfs(self, _):
        yield Sync("syncfs")

    def changes_of_sync(self, _):
        yield Sync("sync")

    def changes_of_commit(self, _):
        return ()

    changes_of_writeback = changes_of_commit


# ---- the same on a disk


@contextlib.contextmanager
def opened(path: str, flags: int = os.O_RDWR) -> Iterator[int]:
    file = os.open(path, flags, NEW_MODE)
    try:
        yield file
    finally:
        os.close(file)


def write_at(path: str, data: bytes, at: int, flags: int = 0) -> None:
    with opened(path, os.O_WRONLY | flags) as file:
        os.pwrite(file, data, at)


def must(result: int, what: str) -> None:
    if result:
        raise OSError(ctypes.get_errno(), what)


@contextlib.contextmanager
def mapped(path: str, at: int, length: int) -> Iterator[tuple[mmap.mmap, int]]:
    """A mapping of whole pages that has these bytes, and where in it they begin."""
    begin = at - at % mmap.PAGESIZE
    with opened(path) as file, mmap.mmap(file, at + length - begin, offset=begin) as mapping:
        yield mapping, at - begin


class Maker:
    """Makes steps in a folder, and keeps what each call said. Only where the device fails may a call fail."""

    def __init__(self, root: str, tell: Callable[[str], None]) -> None:
        self.root, self.tell = root, tell
        self.open: list[int] = []
        self.said: dict[int, str] = {}

    def make_all(self, steps: list[Step], first: int = 0, before=lambda number: None, after=lambda number: None) -> None:
        fails = any(step[0] == "fail" for step in steps)
        try:
            for number, step in enumerate(steps, first):
                before(number)
                try:
                    getattr(self, step[0])(number, *step[1:])
                    self.said[number] = "0"
                except OSError as error:
                    if not fails:
                        raise
                    self.said[number] = errno.errorcode[error.errno]
                after(number)
        finally:
            for file in self.open:
                os.close(file)

    def at(self, path: str) -> str:
        return f"{self.root}/{path}"

    def create(self, _, path):
        with opened(self.at(path), os.O_RDWR | os.O_CREAT | os.O_EXCL):
            pass

    def mkdir(self, _, path):
        os.mkdir(self.at(path), 0o755)

    def link(self, _, old, new):
        os.link(self.at(old), self.at(new))

    def symlink(self, _, target, path):
        os.symlink(target, self.at(path))

    def unlink(self, _, path):
        os.unlink(self.at(path))

    def rmdir(self, _, path):
        os.rmdir(self.at(path))

    def rename(self, _, old, new):
        os.rename(self.at(old), self.at(new))

    def exchange(self, _, one, other):
        must(libc.renameat2(AT_FDCWD, self.at(one).encode(), AT_FDCWD, self.at(other).encode(), RENAME_EXCHANGE), one)

    def chmod(self, _, path, mode):
        os.chmod(self.at(path), int(mode, 8))

    def write(self, number, path, at, length):
        write_at(self.at(path), filling(number, int(at), int(length)), int(at))

    def append(self, number, path, length):
        self.write(number, path, os.stat(self.at(path)).st_size, length)

    def truncate(self, _, path, length):
        os.truncate(self.at(path), int(length))

    def rewrite(self, number, path, length):
        write_at(self.at(path), filling(number, 0, int(length)), 0, os.O_TRUNC)

    def store(self, number, path, at, length):
        with mapped(self.at(path), int(at), int(length)) as (mapping, begin):
            mapping[begin:begin + int(length)] = filling(number, int(at), int(length))

    def fsync(self, _, path):
        with opened(self.at(path), os.O_RDONLY) as file:
            os.fsync(file)

    def fdatasync(self, _, path):
        with opened(self.at(path), os.O_RDONLY) as file:
            os.fdatasync(file)

    def dsync(self, number, path, at, length):
        write_at(self.at(path), filling(number, int(at), int(length)), int(at), os.O_DSYNC)

    def sync_file_range(self, _, path):
        write_out(self.at(path))

    def msync(self, _, path, at, length):
        with mapped(self.at(path), int(at), int(length)) as (mapping, _):
            mapping.flush()

    def syncfs(self, _):
        sync_all_of(self.root)

    def sync(self, _):
        os.sync()

    def writeback(self, number):
        self.syncfs(number)

    def commit(self, _):
        commit_names(self.at(HIDDEN))

    def keep_open(self, _, path):
        self.open.append(os.open(self.at(path), os.O_RDWR))

    def fail(self, _, *what):
        self.tell("fail " + ("flush" if what == ("flush",) else filling(int(what[0]) - 1, 0, 4).decode()) if what else "fail")


# ---- workloads from a seed

NAMES = ["a", "b", "c", "log", "n", "m", "s", "x", "d", "g", "e", "d/k", "d/a", "d/x", "g/h", "g/k", "g/x", "e/a", "e/x"]
# Multiples of four, by which bytes are told.
LENGTHS = [4, 60, 200, 300, 3000, 4096, 5000, 8192, 9000, 12000]
PLACES = [0, 100, 152, 4000, 4096, 5000, 8100, 8192, 8992, 9500, 14000]
SIZES = [0, 52, 4096, 5000, 8500, 9500, 20000]


class Generator:
    """Draws steps that can be made, of files that are there and names that are free, and more often of those that the last step was about."""

    def __init__(self, seed: int) -> None:
        self.chance = random.Random(seed)
        self.live = based()
        self.recent: list[str] = []

    def name(self, *kinds: str) -> str:
        there = [path for path, number in self.live.paths() if self.live.kinds[number] in kinds]
        recent = [path for path in self.recent if path in there]
        return self.chance.choice(recent if recent and self.chance.random() < 0.6 else there or ["a"])

    def free(self) -> str:
        return self.chance.choice(NAMES)

    def length(self) -> str:
        return str(self.chance.choice(LENGTHS))

    def span(self, path: str) -> tuple[str, str]:
        """Bytes that a file has."""
        try:
            size = len(self.live.contents[self.live.at(path, "file")])
        except Invalid:
            size = 0
        begin = self.chance.choice([place for place in PLACES if place < size] or [0])
        return str(begin), str(max(1, min(int(self.length()), size - begin)))

    def folder_of(self, path: str) -> str:
        return path.rpartition("/")[0] or "."

    def change(self) -> Step:
        file, kind = self.name("file"), self.chance.random()
        if kind < 0.42:
            return self.change_of_names(file)
        if kind < 0.5:
            return ("chmod", self.name("file", "folder"), self.chance.choice(["600", "640", "700", "711"]))
        return self.chance.choice([
            ("write", file, *self.span(file)),
            ("write", file, str(self.chance.choice(PLACES)), self.length()),
            ("append", file, self.length()),
            ("append", file, self.length()),
            ("truncate", file, str(self.chance.choice(SIZES))),
            ("rewrite", file, self.length()),
            ("store", file, *self.span(file)),
        ])

    def change_of_names(self, file: str) -> Step:
        free = self.free()
        anything = self.name("file", "file", "folder", "link")
        return self.chance.choice([
            ("create", free), ("create", free), ("mkdir", free), ("link", file, free), ("symlink", "t" + free.replace("/", ""), free),
            ("unlink", self.name("file", "link")), ("rmdir", self.name("folder")), ("rename", file, free), ("rename", file, free),
            ("rename", file, self.name("file")), ("rename", anything, free), ("exchange", anything, self.name("file", "folder")),
        ])

    def sync(self) -> Step:
        file, kind = self.name("file"), self.chance.random()
        folder = self.chance.choice([self.folder_of(path) for path in self.recent or [file]])
        if kind < 0.3:
            return ("fsync", file)
        if kind < 0.5:
            return ("fsync", self.chance.choice([folder, folder, self.name("folder")]))
        if kind < 0.65:
            return ("fdatasync", file)
        return self.chance.choice([
            ("dsync", file, *self.span(file)), ("dsync", file, str(self.chance.choice(PLACES)), self.length()), ("msync", file, *self.span(file)),
            ("sync_file_range", file), ("sync_file_range", file), ("commit",), ("commit",), ("writeback",), self.chance.choice([("syncfs",), ("sync",)]),
        ])

    def one(self, last: Step) -> Step:
        if last[0] == "rename" and self.chance.random() < 0.4:
            return self.chance.choice([("fdatasync", last[2]), ("fsync", self.folder_of(last[2])), ("fsync", self.folder_of(last[1])), ("fsync", last[2])])
        return self.sync() if self.chance.random() < 0.3 else self.change()

    def changes_alone(self, count: int) -> list[Step]:
        """Steps of which none is a sync."""
        return self.steps(count, lambda last: self.change())

    def steps(self, count: int, one: Callable[[Step], Step] | None = None) -> list[Step]:
        made: list[Step] = []
        while len(made) < count:
            step = (one or self.one)(made[-1] if made else ("",))
            try:
                after = copied(self.live)
                after.changes(step, len(made))
            except Invalid:
                continue
            self.live = after
            made.append(step)
            self.recent = ([word for word in step[1:] if word in NAMES] + self.recent)[:4]
        return made


def copied(live: Live) -> Live:
    return Live(list(live.kinds), list(live.modes), list(live.contents), dict(live.entries))


def based() -> Live:
    """What is there before the first step."""
    return copied(made_base())


@functools.cache
def made_base() -> Live:
    live = Live()
    for number, step in enumerate(steps_of(BASE), -len(steps_of(BASE))):
        live.changes(step, number)
    return live


def make_base(root: str) -> None:
    Maker(root, lambda line: None).make_all(steps_of(BASE), -len(steps_of(BASE)))


def workload(seed: int) -> list[Step]:
    generator = Generator(seed)
    steps = generator.steps(generator.chance.choice([1, 2, 2, 3, 3, 4, 4, 5, 6, 8]))
    if generator.chance.random() < 0.8:
        steps.append(generator.chance.choice([("commit",), ("commit",), ("writeback",)]))
    return steps
