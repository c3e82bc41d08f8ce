"""A file system on a disk whose power can be cut: an image, of which the recorder notes each write and flush, and a copy as a cut leaves it."""

import contextlib
import ctypes
import errno
import fcntl
import os
import random
import shutil
import stat
import struct
import subprocess
import tempfile
import time
from collections.abc import Iterator
from dataclasses import dataclass
from pathlib import Path

BLOCK = 4096
BLKFLSBUF = 0x1261  # an ioctl: nothing of a device stays in memory
CLONE_NEWNS = 0x20000
MS_BIND = 0x1000
MS_PRIVATE_ALL = 0x44000
ALL_USERS = ["0", "0", "4294967295"]  # as /proc/self/uid_map has them where root is the root of the system
MNT_DETACH = 2
WHOLE_FILE = 7  # sync_file_range: wait before, write, wait after
START_SYNC, WAIT_SYNC = 0x80089418, 0x40089416  # ioctls of Btrfs: its names are written, and its data as far as they were
WRITE, FLUSH, MARK = range(3)
RECORD = struct.Struct("=QQQ")
RECORDER = Path(__file__).resolve().parent.parent / "out" / "recorder"
FIRST, LAST = "begun", "ended"

libc = ctypes.CDLL(None, use_errno=True)


@dataclass
class Format:
    """How a file system is made and mounted, and how large an image it needs."""

    make: list[str]
    megabytes: int
    type: str = ""


FORMATS = {
    "ext4": Format(["mkfs.ext4", "-q", "-F", "-b", "4096", "-E", "nodiscard,lazy_itable_init=0,lazy_journal_init=0"], 48),
    "xfs": Format(["mkfs.xfs", "-q", "-f", "-K"], 320),
    "btrfs": Format(["mkfs.btrfs", "-q", "-f", "-K"], 128),
    "ext4-fast-commit": Format(["mkfs.ext4", "-q", "-F", "-b", "4096", "-O", "fast_commit", "-E", "nodiscard"], 48, "ext4"),
}


class Unmountable(Exception):
    """What a cut left can't be mounted."""


def called(*words: str) -> str:
    ended = subprocess.run(words, capture_output=True, text=True, check=False)
    if ended.returncode:
        raise OSError(f"{' '.join(words)}: {ended.stderr.strip() or ended.returncode}")
    return ended.stdout.strip()


def lacking(file_system: str) -> str:
    """Why no disk of this file system can be recorded here, or nothing if it can."""
    if os.geteuid() != 0 or Path("/proc/self/uid_map").read_text(encoding="ascii").split() != ALL_USERS:
        return "no root"
    for name in ("/dev/fuse", "/dev/loop-control"):
        if not os.access(name, os.R_OK | os.W_OK):
            return f"no {name}"
    if not RECORDER.exists():
        return "no recorder, which needs libfuse3-dev"
    for program in (FORMATS[file_system].make[0], "losetup"):
        if not shutil.which(program):
            return f"no {program}"
    if subprocess.run(["unshare", "--mount", "losetup", "--find"], capture_output=True, check=False).returncode:
        return "no right to mount, or no free loop device"
    kind = FORMATS[file_system].type or file_system
    if shutil.which("modprobe"):
        subprocess.run(["modprobe", "-q", kind], check=False)
    return "" if kind in Path("/proc/filesystems").read_text(encoding="ascii").split() else f"the kernel has no {kind}"


def keep_mounts_private() -> None:
    """From now on no other process sees the mounts of this one, and they end with it, however it ends."""
    if libc.unshare(CLONE_NEWNS) or libc.mount(b"none", b"/", None, MS_PRIVATE_ALL, None):
        raise OSError(ctypes.get_errno(), "a mount namespace")


def mount(device: str, folder: str, file_system: str) -> None:
    if libc.mount(device.encode(), folder.encode(), file_system.encode(), 0, b""):
        raise Unmountable(os.strerror(ctypes.get_errno()))


def unmount(folder: str) -> None:
    for _ in range(100):
        if libc.umount2(folder.encode(), 0) == 0:
            return
        if ctypes.get_errno() != errno.EBUSY:
            break
        time.sleep(0.05)
    raise OSError(ctypes.get_errno(), f"{folder} can't be unmounted")


def sync_all_of(folder: str) -> None:
    """Syncs the file system that a folder is in."""
    file = os.open(folder, os.O_RDONLY)
    failed = libc.syncfs(file)
    os.close(file)
    if failed:
        raise OSError(ctypes.get_errno(), "syncfs")


def commit_names(hidden: str) -> None:
    """Makes the file system write what is pending of names, by the sync of a folder of this name at which nobody looks."""
    os.makedirs(hidden, exist_ok=True)
    os.chmod(hidden, os.stat(hidden).st_mode ^ 0o010)
    folder = os.open(hidden, os.O_RDONLY)
    try:
        os.fsync(folder)
        transaction = bytearray(8)
        with contextlib.suppress(OSError):  # another file system than Btrfs has written them by now, and has no such call
            fcntl.ioctl(folder, START_SYNC, transaction)
            fcntl.ioctl(folder, WAIT_SYNC, bytes(transaction))
    finally:
        os.close(folder)


def write_out(path: str) -> None:
    """Writes the blocks of a file, and nothing of its names or its length."""
    file = os.open(path, os.O_RDONLY)
    failed = libc.sync_file_range(file, ctypes.c_int64(0), ctypes.c_int64(0), WHOLE_FILE)
    os.close(file)
    if failed:
        raise OSError(ctypes.get_errno(), path)


@contextlib.contextmanager
def mounted(device: str, folder: str, file_system: str) -> Iterator[str]:
    with open(device, "rb") as file:
        fcntl.ioctl(file, BLKFLSBUF)
    mount(device, folder, file_system)
    try:
        yield folder
    finally:
        unmount(folder)


@contextlib.contextmanager
def bound(source: str, folder: str) -> Iterator[None]:
    """While this lasts, what is in `source` is in `folder` too."""
    if libc.mount(source.encode(), folder.encode(), None, MS_BIND, None):
        raise OSError(ctypes.get_errno(), f"{source} can't be mounted at {folder}")
    try:
        yield
    finally:
        unmount(folder)


@contextlib.contextmanager
def looped(path: str, *options: str) -> Iterator[str]:
    """A loop device over a file. It is detached at once, which the kernel does when nobody has it open any more, however this process ends."""
    for tries in range(50, -1, -1):
        try:
            device = called("losetup", "--show", "-f", *options, path)
            break
        except OSError:  # another program took the free one first
            if not tries:
                raise
            time.sleep(0.1)
    file = os.open(device, os.O_RDONLY)
    try:
        called("losetup", "-d", device)
        yield device
    finally:
        os.close(file)


@contextlib.contextmanager
def recorded(image: str, log: str, folder: str) -> Iterator[str]:
    """The folder of a recorder that runs. What is mounted over its device afterwards isn't among its mounts: a file system can only be unmounted while
    the recorder answers, so it mustn't be the recorder's end that does it."""
    with open(f"{log}.said", "w+", encoding="utf-8") as said, subprocess.Popen([RECORDER, image, log, folder], stderr=said) as recorder:
        try:
            while not os.path.exists(f"{folder}/device"):
                if recorder.poll() is not None:
                    raise OSError(f"the recorder ended: {Path(said.name).read_text(encoding='utf-8')}")
                time.sleep(0.01)
            keep_mounts_private()
            yield folder
        finally:
            libc.umount2(folder.encode(), MNT_DETACH)
            recorder.terminate()


def parts_of(path: str) -> dict[int, bytes]:
    """The blocks of a file that aren't all zeros."""
    parts, at = {}, 0
    with open(path, "rb", buffering=0) as file:
        while True:
            try:
                at = os.lseek(file.fileno(), at, os.SEEK_DATA)
            except OSError:
                return parts
            end = os.lseek(file.fileno(), at, os.SEEK_HOLE)
            for begin in range(at - at % BLOCK, end, BLOCK):
                block = os.pread(file.fileno(), BLOCK, begin)
                if block.count(0) < len(block):
                    parts[begin] = block
            at = end


@dataclass
class Entry:
    """What stands at a name: its kind, its mode, its contents (of a folder its entries, of a link its target), and which file it is."""

    kind: str
    mode: int
    contents: object
    number: int


def read_tree(folder: str) -> Entry:
    told = os.lstat(folder)
    mode = stat.S_IMODE(told.st_mode)
    if stat.S_ISLNK(told.st_mode):
        return Entry("link", 0, os.readlink(folder), told.st_ino)
    if stat.S_ISDIR(told.st_mode):
        return Entry("folder", mode, {name: read_tree(f"{folder}/{name}") for name in sorted(os.listdir(folder))}, told.st_ino)
    return Entry("file", mode, Path(folder).read_bytes(), told.st_ino)


def pieces(offset: int, data: bytes, size: int) -> Iterator[tuple[int, bytes]]:
    """The parts of a write by blocks of the device: the records of a log begin at any sector."""
    for block in range(offset - offset % size, offset + len(data), size):
        begin, end = max(offset, block), min(offset + len(data), block + size)
        yield begin, data[begin - offset:end - offset]


class Disk:
    """A recorded disk with a file system on it. `run` does something on it, and then `cut` gives a tree as a power cut leaves it."""

    def __init__(self, file_system: str, base, megabytes: int = 0, place: str | None = None) -> None:
        self.file_system = file_system
        self.type = FORMATS[file_system].type or file_system
        self.megabytes = max(megabytes, FORMATS[file_system].megabytes)
        self.base = base
        self.place = place  # the folder in which its own is, or None for that of other temporary files
        self.resources = contextlib.ExitStack()
        self.records: list[tuple[int, int, bytes]] = []
        self.before: dict[int, bytes] = {}

    def __enter__(self) -> "Disk":
        keep_mounts_private()
        with contextlib.ExitStack() as made:
            self.room = made.enter_context(tempfile.TemporaryDirectory(prefix="disks.", dir=self.place))
            for name in ("recorder", "live", "copy"):
                os.mkdir(f"{self.room}/{name}")
            image = self.empty("image")
            called(*FORMATS[self.file_system].make, image)
            with looped(image) as device, mounted(device, f"{self.room}/live", self.type) as live:
                os.mkdir(f"{live}/root")
                self.base(f"{live}/root")
                sync_all_of(live)
            self.image = parts_of(image)
            folder = made.enter_context(recorded(image, f"{self.room}/log", f"{self.room}/recorder"))
            self.control = f"{folder}/control"
            self.device = made.enter_context(looped(f"{folder}/device", "--direct-io=on"))
            self.laid = os.open(self.empty("laid"), os.O_RDWR)
            made.callback(os.close, self.laid)
            self.laid_device = made.enter_context(looped(f"{self.room}/laid"))
            self.resources = made.pop_all()
        return self

    def __exit__(self, *ending) -> None:
        self.resources.close()

    def empty(self, name: str) -> str:
        path = f"{self.room}/{name}"
        with open(path, "wb") as file:
            file.truncate(self.megabytes << 20)
        return path

    def tell(self, line: str) -> None:
        with open(self.control, "wb", buffering=0) as control:
            control.write(line.encode())

    def run(self, action, touched: bool, slow: str = "") -> None:
        """Calls action with the folder, on the disk as it was made. Its files were read before, and if they are `touched`, also changed and synced: some
        file systems then keep less of them. Marks that action makes by `mark` stand among the records."""
        self.tell("reset")
        with mounted(self.device, f"{self.room}/live", self.type) as live:
            read_tree(f"{live}/root")
            if touched:
                for folder, _, files in os.walk(f"{live}/root"):
                    for path in [folder, *(f"{folder}/{name}" for name in files)]:
                        os.utime(path, follow_symlinks=False)
                sync_all_of(live)
            if slow:
                self.tell(f"slow {slow}")
            self.mark(FIRST)
            action(f"{live}/root")
            self.mark(LAST)
        self.read_records()

    def mark(self, text: str) -> None:
        self.tell(f"mark {text}")

    def read_records(self) -> None:
        """The records from the first mark to the last. What was written before is part of what each cut has."""
        log, at, self.records, self.before, begun = Path(f"{self.room}/log").read_bytes(), 0, [], dict(self.image), False
        while at < len(log):
            kind, length, offset = RECORD.unpack_from(log, at)
            at += RECORD.size + length
            data = log[at - length:at]
            if kind == MARK and data in (FIRST.encode(), LAST.encode()):
                if begun:
                    return
                begun = True
            elif begun:
                self.records.append((kind, offset, data))
            elif kind == WRITE:
                self.write_before(offset, data)

    def write_before(self, offset: int, data: bytes) -> None:
        for begin, part in pieces(offset, data, BLOCK):
            block = begin - begin % BLOCK
            old = self.before.get(block, bytes(BLOCK))
            self.before[block] = old[:begin - block] + part + old[begin - block + len(part):]

    def written(self, moment: int, share: float, chance: random.Random, sector: int = BLOCK) -> Iterator[tuple[int, bytes]]:
        """What is on the disk after that many records, in order: all that was flushed, and of the rest a share of the sectors."""
        flushed = max((number for number in range(moment) if self.records[number][0] == FLUSH), default=-1)
        for number in range(moment):
            kind, offset, data = self.records[number]
            if kind != WRITE:
                continue
            for begin, part in pieces(offset, data, sector):
                if number < flushed or chance.random() < share:
                    yield begin, part

    def lay(self, moment: int, share: float, chance: random.Random, sector: int) -> None:
        """Lays the disk as it is after that many records."""
        os.ftruncate(self.laid, 0)
        os.ftruncate(self.laid, self.megabytes << 20)
        for offset, data in self.before.items():
            os.pwrite(self.laid, data, offset)
        for offset, data in self.written(moment, share, chance, sector):
            os.pwrite(self.laid, data, offset)

    @contextlib.contextmanager
    def left(self, moment: int, share: float, chance: random.Random, sector: int = BLOCK) -> Iterator[str]:
        """The folder as a power cut at that moment leaves it, mounted elsewhere."""
        self.lay(moment, share, chance, sector)
        with mounted(self.laid_device, f"{self.room}/copy", self.type) as copy:
            yield f"{copy}/root"

    def keep(self, path: str, moment: int, share: float, chance: random.Random, sector: int = BLOCK) -> None:
        """Writes the image that a power cut at that moment leaves, without its zeros: whole or not at all, and through no link."""
        self.lay(moment, share, chance, sector)
        new = f"{path}.new"
        try:
            called("cp", "--sparse=always", "--remove-destination", f"{self.room}/laid", new)
            os.rename(new, path)
        finally:
            Path(new).unlink(missing_ok=True)

    def cut(self, moment: int, share: float, chance: random.Random, sector: int = BLOCK) -> Entry:
        """The tree that a power cut at that moment leaves."""
        with self.left(moment, share, chance, sector) as root:
            return read_tree(root)
