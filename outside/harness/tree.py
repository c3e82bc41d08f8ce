"""Digests, copies and sizes of folders of files, and their deletion."""

import errno
import hashlib
import os
import shlex
import shutil
import stat
from collections.abc import Iterator
from fnmatch import fnmatchcase
from pathlib import Path
from typing import BinaryIO, NoReturn

from .answers import Stopped

BLOCK = 1 << 20
Entry = tuple[str, os.stat_result]  # a name below the folder, and its status


def entries(folder: str, below: str = "") -> Iterator[Entry]:
    """All entries below a folder, in the order of names, each folder before what is in it."""
    for entry in sorted(os.scandir(os.path.join(folder, below)), key=lambda entry: entry.name):
        name = f"{below}/{entry.name}" if below else entry.name
        yield name, entry.stat(follow_symlinks=False)
        if entry.is_dir(follow_symlinks=False):
            yield from entries(folder, name)


def contents_of(path: str, told: os.stat_result) -> bytes:
    if stat.S_ISLNK(told.st_mode):
        return os.fsencode(os.readlink(path))
    if stat.S_ISREG(told.st_mode):
        with open(path, "rb", buffering=0) as file:
            return digest_of_parts(file, told.st_size) if told.st_size > BLOCK else hashlib.sha256(file.read()).digest()
    return b""


def parts(file: int, length: int) -> Iterator[tuple[int, int]]:
    """The beginnings and lengths of those parts of a file that aren't holes."""
    at = 0
    while at < length:
        try:
            at = os.lseek(file, at, os.SEEK_DATA)
        except OSError:
            return  # a hole up to the end
        end = min(os.lseek(file, at, os.SEEK_HOLE), length)
        yield at, end - at
        at = end


def digest_of_parts(file: BinaryIO, length: int) -> bytes:
    """The digest of a file's blocks that aren't all zeros, so holes don't change it. A hole of terabytes isn't read."""
    state = hashlib.sha256(b"%d" % length)
    end = 0
    for at, size in parts(file.fileno(), length):
        for begin in range(max(end, at - at % BLOCK), at + size, BLOCK):
            block = os.pread(file.fileno(), BLOCK, begin)
            if block.count(0) < len(block):
                state.update(b" %d " % begin + block)
            end = begin + BLOCK
    return state.digest()


def digest(folder: str, leaves_out: tuple[str, ...] = ()) -> bytes:
    """The digest of names, contents, links, owners and modes. Contents of files all of whose names match one of these patterns are left out."""
    state = hashlib.sha256()
    first_name: dict[int, str] = {}
    counted: set[int] = set()
    for name, told in entries(folder):
        same = first_name.setdefault(told.st_ino, name)
        state.update(repr((name, told.st_mode, told.st_uid, told.st_gid, same)).encode())
        if told.st_ino not in counted and not any(fnmatchcase(name, pattern) for pattern in leaves_out):
            counted.add(told.st_ino)
            state.update(contents_of(f"{folder}/{name}", told))
    return state.digest()


def copy_file(source: str, target: str, told: os.stat_result) -> None:
    """Copies a file. Its holes stay holes, and room ahead in a log, such as the 64 megabytes of etcd's, isn't copied."""
    if told.st_size <= BLOCK:
        shutil.copyfile(source, target)
        return
    with open(source, "rb", buffering=0) as file, open(target, "xb", buffering=0) as copied:
        for at, size in parts(file.fileno(), told.st_size):
            copied.seek(at)
            while size > 0:
                size -= os.sendfile(copied.fileno(), file.fileno(), at, size)
                at = copied.tell()
        copied.truncate(told.st_size)


def keep(path: str, told: os.stat_result) -> None:
    """Gives a copy its owner and mode. Only root can give files to others, and only for root do programs make files of others."""
    if os.geteuid() == 0:
        os.chown(path, told.st_uid, told.st_gid, follow_symlinks=False)
    if not stat.S_ISLNK(told.st_mode):
        os.chmod(path, stat.S_IMODE(told.st_mode))


def copy(source: str, target: str) -> None:
    """Copies a folder with links, owners and modes, as a new folder."""
    os.mkdir(target)
    names = list(entries(source))
    first_name: dict[int, str] = {}
    for name, told in names:
        same = first_name.setdefault(told.st_ino, name)
        if stat.S_ISDIR(told.st_mode):
            os.mkdir(f"{target}/{name}")
        elif stat.S_ISLNK(told.st_mode):
            os.symlink(os.readlink(f"{source}/{name}"), f"{target}/{name}")
            keep(f"{target}/{name}", told)
        elif same != name:
            os.link(f"{target}/{same}", f"{target}/{name}")
        elif stat.S_ISREG(told.st_mode):
            copy_file(f"{source}/{name}", f"{target}/{name}", told)
            keep(f"{target}/{name}", told)
    for name, told in reversed(names):
        if stat.S_ISDIR(told.st_mode):
            keep(f"{target}/{name}", told)
    keep(target, os.stat(source))


def write(path: Path, contents: bytes) -> None:
    """Writes a file, whole or not at all. If that fails, the error has the file's name, which Python itself gives only if it can't be opened."""
    new = path.with_suffix(".new")
    try:
        new.unlink(missing_ok=True)  # what a loop that was killed has left, or a link, through which nothing is to be written
        with open(new, "xb") as file:
            file.write(contents)
        new.rename(path)
    except OSError as error:
        new.unlink(missing_ok=True)
        error.filename = str(path)
        raise


def size(folder: str) -> int:
    """The bytes that a folder takes on the disk, though a program may change it meanwhile."""
    total = 0
    try:
        with os.scandir(folder) as names:
            for entry in names:
                total += size(entry.path) if entry.is_dir(follow_symlinks=False) else entry.stat(follow_symlinks=False).st_blocks * 512
    except (FileNotFoundError, PermissionError):
        pass  # it was deleted meanwhile, or can't be entered: then it counts as empty
    return total


# ---- deleting

def mount_of(folder: int) -> str:
    """The number of the mount in which an open folder lies. A mount of the same file system, such as a bind mount, shows only by it."""
    with open(f"/proc/self/fdinfo/{folder}", encoding="ascii") as lines:
        return next(line.split()[1] for line in lines if line.startswith("mnt_id:"))


def refuse_mounted(path: str) -> NoReturn:
    raise Stopped(f"{path}: something is mounted here, so it isn't deleted: call umount {shlex.quote(path)}")


def open_below(above: int, name: str, path: str, mount: str) -> int:
    """Opens a folder to empty it, also if it may not be entered, unless something is mounted there."""
    folder = os.open(name, os.O_PATH | os.O_DIRECTORY | os.O_NOFOLLOW, dir_fd=above)
    try:
        if mount_of(folder) != mount:
            refuse_mounted(path)
        if (mode := os.fstat(folder).st_mode) & stat.S_IRWXU != stat.S_IRWXU:
            os.chmod(f"/proc/self/fd/{folder}", stat.S_IMODE(mode) | stat.S_IRWXU)
        return os.open(".", os.O_RDONLY | os.O_DIRECTORY, dir_fd=folder)
    finally:
        os.close(folder)


def remove_below(above: int, name: str, path: str, mount: str) -> None:
    """Deletes a name in an open folder. Nothing is found by its path, so that no link or folder that a program puts there meanwhile leads elsewhere."""
    try:
        return os.unlink(name, dir_fd=above)
    except IsADirectoryError:
        folder = open_below(above, name, path, mount)
    except OSError as error:
        if error.errno == errno.EBUSY:
            refuse_mounted(path)
        raise
    try:
        for below in os.listdir(folder):
            remove_below(folder, below, f"{path}/{below}", mount)
    finally:
        os.close(folder)
    os.rmdir(name, dir_fd=above)


def remove(path: str | Path) -> None:
    """Deletes a folder with all that is in it, also folders that may not be entered, or a file. What is mounted there stays, and ends the campaign."""
    place, name = os.path.split(path)
    above = os.open(place, os.O_PATH | os.O_DIRECTORY)
    try:
        remove_below(above, name, str(path), mount_of(above))
    finally:
        os.close(above)
