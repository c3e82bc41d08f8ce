#!/usr/bin/env python3
"""refused.py ext4|xfs|btrfs: says what is left of a database in WAL mode on a disk that refuses some blocks once. It needs root, as --certify does, for which only
the supervisor lets a sync fail: there the disk has the blocks.

The first writer commits a row by which the database grows. The disk refuses the row's blocks as the log is copied into the database. The second writer commits
another row, and copies all of the log once more, which succeeds. Then the power is cut."""

import contextlib
import random
import sqlite3
import sys
from pathlib import Path

sys.path.insert(0, str(Path(__file__).resolve().parents[2]))

from disks.disk import Disk, lacking, sync_all_of  # noqa: E402

REFUSED = "refused"


def prepare(folder: str) -> None:
    with contextlib.closing(sqlite3.connect(f"{folder}/db", isolation_level=None)) as database:
        database.execute("PRAGMA journal_mode=WAL")
        database.execute("CREATE TABLE t(row)")


def committed(folder: str, row: str) -> sqlite3.Connection:
    database = sqlite3.connect(f"{folder}/db", isolation_level=None)
    database.execute("PRAGMA synchronous=FULL")
    database.execute("INSERT INTO t VALUES(?)", [row])
    return database


def write(disk: Disk, folder: str) -> None:
    first = committed(folder, REFUSED * 2000)
    disk.tell(f"fail {REFUSED}")
    first.close()
    disk.tell("fail")
    committed(folder, "second").close()
    with contextlib.suppress(OSError):  # it tells of the blocks that were refused, and writes the names all the same
        sync_all_of(folder)


def judged(folder: str) -> str:
    with contextlib.closing(sqlite3.connect(f"{folder}/db")) as database:
        return "passes" if database.execute("PRAGMA integrity_check").fetchall() == [("ok",)] else "corrupt"


if __name__ == "__main__":
    if why := lacking(sys.argv[1]):
        sys.exit(f"skipped {sys.argv[1]}: {why}")
    with Disk(sys.argv[1], prepare) as disk:
        disk.run(lambda folder: write(disk, folder), touched=True)
        with disk.left(len(disk.records), 1, random.Random(0)) as folder:
            print(f"{sys.argv[1]}: {judged(folder)}")
