"""LevelDB by its binding of Python, in a process that opens it for each operation.

Promised by LevelDB's doc/index.md, Synchronous Writes: "The sync flag can be turned on for a particular write to make the write operation not return until the
data being written has been pushed all the way to persistent storage".

Found in LevelDB 1.23, plans of up to two operations and faults, as in the example leveldb, and here without a judge:
- lost and torn, each operation, one failed open or read of the log of before: it is deleted, though it wasn't read. `compact` alone loses all that is there.
- torn and unopenable, where a disk keeps an unlink of a log or a MANIFEST and not the rename of CURRENT before it, as Btrfs may."""

operations = ["put a 1", "put b 2", "delete z", "compact"]
length = 2
prepare = "echo put z 26 | /usr/bin/python3 $HARNESS/store.py session && sync db/* db ."
session = ["./store.py", "session"]
look = ["./store.py", "list"]
