"""note.py FLAW WORD..: note.c in Python."""

import os
import sys

from flaw import FLAW, sync_file, write_all


def replace(file, folder):
    if FLAW == "rename_first":
        os.rename("new", "note")
        sync_file(file)
    else:
        sync_file(file)
        os.rename("new", "note")
    if FLAW != "no_folder_sync":
        os.fsync(folder)


def put_back(folder):
    """`clean_up` doesn't look whether the old file could be put back."""
    for step in (lambda: os.unlink("note"), lambda: os.link("old", "note"), lambda: os.unlink("old"), lambda: os.fsync(folder)):
        try:
            step()
        except OSError:
            pass


def save(word, folder):
    if FLAW == "clean_up":
        os.link("note", "old")
    file = os.open("new", os.O_WRONLY | os.O_CREAT | os.O_TRUNC, 0o644)
    try:
        write_all(file, word.encode())
        replace(file, folder)
    except OSError:
        if FLAW == "clean_up":
            put_back(folder)
        raise
    finally:
        os.close(file)
    if FLAW == "clean_up":
        os.unlink("old")


folder = os.open(".", os.O_RDONLY | os.O_DIRECTORY)
for word in sys.argv[2:]:
    try:
        save(word, folder)
    except OSError as error:
        sys.exit(str(error))
    print("saved", word, flush=True)
