#!/usr/bin/python3
"""store.py put KEY..: stores each key in a skip database of TKRZW, synchronizes it, and prints `stored KEY` if that has succeeded.
store.py list: prints each of four keys that is there with its value."""

import ctypes
import sys

tkrzw = ctypes.CDLL("libtkrzw.so.1")
tkrzw.tkrzw_dbm_open.restype = ctypes.c_void_p
tkrzw.tkrzw_dbm_get.restype = ctypes.c_char_p
for call in (tkrzw.tkrzw_dbm_set, tkrzw.tkrzw_dbm_synchronize, tkrzw.tkrzw_dbm_close):
    call.restype = ctypes.c_bool
database = ctypes.c_void_p(tkrzw.tkrzw_dbm_open(b"db.tks", True, b""))


def is_stored(key: bytes) -> bool:
    return tkrzw.tkrzw_dbm_set(database, key, -1, key * 100, -1, True) and tkrzw.tkrzw_dbm_synchronize(database, True, None, None, b"")


if not database:
    sys.exit("it can't be opened")
if sys.argv[1] == "put":
    for key in sys.argv[2:]:
        if is_stored(key.encode()):
            print("stored", key, flush=True)
else:
    for key in (b"key0", b"key1", b"key2", b"key3"):
        if tkrzw.tkrzw_dbm_get(database, key, -1, None) == key * 100:
            print(key.decode())
tkrzw.tkrzw_dbm_close(database)
