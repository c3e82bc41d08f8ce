"""The bytes that are free where a folder lies, on a disk or in memory."""

import os
from collections.abc import Iterator
from dataclasses import dataclass
from pathlib import Path

IN_MEMORY = {"tmpfs", "ramfs"}
GROUPS = Path("/sys/fs/cgroup")
UNIFIED = ("", "memory.max", "memory.current", "inactive_file")
OLDER = ("memory", "memory.limit_in_bytes", "memory.usage_in_bytes", "total_inactive_file")


def kind_of(folder: str) -> str:
    """The kind of file system in which a folder lies."""
    device = os.stat(folder).st_dev
    number = f"{os.major(device)}:{os.minor(device)}"
    for mount in Path("/proc/self/mountinfo").read_text("utf-8", "surrogateescape").splitlines():
        place, _, kind = mount.partition(" - ")
        if place.split(" ")[2] == number:
            return kind.split(" ")[0]
    return ""


def left_by(group: Path, most: str, taken: str, given_back: str) -> int:
    """The memory that a control group leaves its processes. Cached contents of files count as free."""
    kept = [line.split(" ")[1] for line in (group / "memory.stat").read_text().splitlines() if line.startswith(f"{given_back} ")]
    return int((group / most).read_text()) - int((group / taken).read_text()) + int(kept[0])


def left_by_groups() -> Iterator[int]:
    """For each control group that limits this process, the memory that it leaves."""
    for line in Path("/proc/self/cgroup").read_text().splitlines():
        number, names, path = line.split(":", 2)
        if number != "0" and "memory" not in names.split(","):
            continue
        below, *files = UNIFIED if number == "0" else OLDER
        group = GROUPS / below / path.lstrip("/")
        for each in (group, *group.parents):
            try:
                yield left_by(each, *files)
            except (OSError, ValueError, IndexError):
                continue  # this group has no limit, or can't be seen from here


def free_memory() -> int:
    lines = Path("/proc/meminfo").read_text().splitlines()
    available = next(int(line.split()[1]) << 10 for line in lines if line.startswith("MemAvailable:"))
    return min([available, *left_by_groups()])


@dataclass
class Disk:
    """The file system in which a folder lies."""

    folder: str
    is_in_memory: bool

    def free(self) -> int:
        told = os.statvfs(self.folder)
        free = told.f_bavail * told.f_frsize
        return min(free, free_memory()) if self.is_in_memory else free


def disk_of(folder: str) -> Disk:
    return Disk(folder, kind_of(folder) in IN_MEMORY)
