"""log.py FLAW COMMAND..: log.c in Python."""

import os
import sys

from flaw import FLAW, read_all, sync_folder

records: list[str] = []
acknowledged = 0


def sum_of(text):
    value = 5381
    for byte in text.encode():
        value = (value * 33 + byte) % 2**32
    return value


def line_of(text):
    return f"{sum_of(text):08x} {text}\n".encode()


def is_record(line):
    """`torn_taken` doesn't look at its sum."""
    head, _, text = line.partition(" ")
    return bool(text) and (FLAW == "torn_taken" or head == f"{sum_of(text):08x}")


def read_file(file):
    """Reads the records of a file up to the first line that is none; answers how many bytes are read."""
    data = read_all(file)
    at = 0
    for line in data.splitlines(keepends=True):
        text = line.decode().removesuffix("\n")
        if not is_record(text) or not (line.endswith(b"\n") or FLAW == "torn_taken"):
            break
        records.append(text.partition(" ")[2])
        at += len(line)
    return at


def append(file, text):
    line = line_of(text)
    if os.write(file, line) != len(line):
        raise OSError("a short write")


def read_snapshot():
    try:
        snap = os.open("snap", os.O_RDONLY)
    except FileNotFoundError:
        return
    read_file(snap)
    os.close(snap)


def open_log():
    """What can't be read is not to be written over; `recovery_deletes` begins anew. What a torn record has left is cut off; `torn_appended`
    leaves it there."""
    log = os.open("log", os.O_RDWR | os.O_CREAT, 0o644)
    try:
        end = read_file(log)
    except OSError:
        if FLAW != "recovery_deletes":
            raise
        end = 0
    if FLAW != "torn_appended":
        os.ftruncate(log, end)
        os.fsync(log)
    os.lseek(log, 0, os.SEEK_END)
    sync_folder()
    return log


def sync_log(log):
    global acknowledged
    os.fsync(log)
    for text in records[acknowledged:]:
        print("added", text, flush=True)
    acknowledged = len(records)


def write_snapshot(new):
    """`full_disk` doesn't look whether it could be written."""
    try:
        for text in records:
            append(new, text)
    except OSError:
        if FLAW != "full_disk":
            raise


def snapshot(log):
    new = os.open("new", os.O_WRONLY | os.O_CREAT | os.O_TRUNC, 0o644)
    write_snapshot(new)
    os.fsync(new)
    os.close(new)
    os.rename("new", "snap")
    sync_folder()
    os.ftruncate(log, 0)
    os.lseek(log, 0, os.SEEK_SET)
    os.fsync(log)


def perform(words):
    global acknowledged
    read_snapshot()
    log = open_log()
    acknowledged = len(records)
    while words:
        command = words.pop(0)
        if command == "add":
            records.append(words.pop(0))
            append(log, records[-1])
        elif command == "sync":
            sync_log(log)
        elif command == "snapshot":
            snapshot(log)
        elif command == "list":
            print("\n".join(records))


try:
    perform(sys.argv[2:])
except OSError as error:
    sys.exit(str(error))
