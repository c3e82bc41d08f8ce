#!/usr/bin/python3
"""store.py put KEY..: stores each key in a transaction of its own, which Tokyo Cabinet syncs, and prints `stored KEY` once it is committed.
store.py list: prints each of four keys that is there with its value."""

import ctypes
import sys

HDBOWRITER, HDBOCREAT, HDBOTSYNC = 1 << 1, 1 << 2, 1 << 6  # of tchdb.h

cabinet = ctypes.CDLL("libtokyocabinet.so.9")
cabinet.tchdbnew.restype = ctypes.c_void_p
cabinet.tchdbget2.restype = ctypes.c_char_p
database = ctypes.c_void_p(cabinet.tchdbnew())


def is_stored(key: bytes) -> bool:
    return cabinet.tchdbtranbegin(database) and cabinet.tchdbput2(database, key, key * 500) and cabinet.tchdbtrancommit(database)


if not cabinet.tchdbopen(database, b"db", HDBOWRITER | HDBOCREAT | HDBOTSYNC):
    sys.exit("it can't be opened")
if sys.argv[1] == "put":
    for key in sys.argv[2:]:
        if not is_stored(key.encode()):
            sys.exit(f"{key} can't be stored")
        print("stored", key, flush=True)
else:
    for key in (b"key0", b"key1", b"key2", b"key3"):
        if cabinet.tchdbget2(database, key) == key * 500:
            print(key.decode())
cabinet.tchdbclose(database)
