"""What the small programs in Python share. Their first word names the flaw that they have; with `sound` it is none."""

import os
import sys

FLAW = sys.argv[1]


def write_all(file: int, data: bytes) -> None:
    """Where a write does less, it goes on; `short_write` takes that for all."""
    while data:
        written = os.write(file, data)
        if not written:
            raise OSError("nothing was written")
        if FLAW == "short_write":
            return
        data = data[written:]


def sync_file(file: int) -> None:
    """After a sync that failed a file's bytes are gone: a later one says nothing of them. `retry_sync` believes it, `unchecked_sync` doesn't
    look."""
    try:
        os.fsync(file)
    except OSError:
        if FLAW == "retry_sync":
            os.fsync(file)
        elif FLAW != "unchecked_sync":
            raise


def sync_folder() -> None:
    if FLAW != "no_folder_sync":
        folder = os.open(".", os.O_RDONLY | os.O_DIRECTORY)
        os.fsync(folder)
        os.close(folder)


def read_all(file: int) -> bytes:
    data = b""
    while more := os.read(file, 10000):
        data += more
    return data
