#!/usr/bin/python3
"""store.py session: does operations on the LevelDB `db`, a line each, and prints each line once it is done. store.py list: prints what it holds."""

import sys
from contextlib import closing

import plyvel


def opened() -> closing:
    return closing(plyvel.DB("db", create_if_missing=True))


def perform(word: bytes, *rest: bytes) -> None:
    with opened() as store:
        if word == b"compact":
            store.compact_range()
        else:
            (store.put if word == b"put" else store.delete)(*rest, sync=True)


if sys.argv[1] == "list":
    with opened() as kept:
        for key, value in kept:
            print(key.decode(), value.decode())
else:
    for line in sys.stdin:
        perform(*line.encode().split())
        print(line, end="", flush=True)
