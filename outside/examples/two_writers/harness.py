"""Two processes commit to one SQLite database in WAL mode. SQLite promises that each acknowledged transaction is there after a power cut, whole. The order of
their calls is fixed; with order.toml `order::next` is a point, and faults decide which process goes first. Variables of the environment change the run:
    SYNC            PRAGMA synchronous of both processes: FULL (the default), NORMAL or OFF
    TRANSACTIONS    how many transactions of two rows each process commits. Default: 1

The judge says corrupt if the integrity check finds an error, half if a transaction has only one of its rows, lost if a transaction that was acknowledged is
missing, and crashed if a signal ended a process. A process that finds the database locked sleeps and tries again, until its sleeps come to ten seconds.

Promised by SQLite's page of write-ahead logging: "Writers sync the WAL on every transaction commit if PRAGMA synchronous is set to FULL".

Found in SQLite 3.40.1, plans of one fault:
- corrupt, `sys::fsync=4*off->1*return`: the database has grown, and its sync fails as the first writer copies its log into it. The second writer copies all of it
  once more, with a sync that succeeds, and deletes the log. On ext4 a new block whose sync failed isn't there though it was written again and synced
  (docs/DISKS.md), so nothing has these pages once the log's removal is on the disk. Under FAULTS_SYNC=xfs and btrfs it passes. With order.toml it is the same one,
  of 468 plans. refused.py does it without Paklour's faults, on a disk that refuses these blocks once.
- lost under FAULTS_SYNC=posix, `sys::open=7*off->1*return` and `sys::fsync=6*off->1*return`. The second writer makes its log anew, opens the folder and syncs it,
  but doesn't check whether either of these fails. Its transaction is acknowledged, and copied into the database as it ends. But no sync has put the first writer's
  removal of its own log on the disk: after a power cut that log may be there again, and is laid over the pages of the second's transaction, which is gone. With
  strace alone, in an empty folder, you see that no error is reported:
    sqlite3 db 'PRAGMA journal_mode=WAL; CREATE TABLE t(n)'
    strace -o calls -P "$PWD" -e trace=openat,fsync,fdatasync -e inject=fsync,fdatasync:error=EIO:when=1 \\
        sqlite3 db "INSERT INTO t VALUES(1); SELECT 'done'"
    cat calls                     # the sync of the folder failed; `done` all the same"""

import os
import sqlite3
from contextlib import closing

SYNC = os.environ.get("SYNC", "FULL")
TRANSACTIONS = int(os.environ.get("TRANSACTIONS", "1"))
environment = {"SYNC": SYNC, "TRANSACTIONS": str(TRANSACTIONS)}

prepare = ["sqlite3", "db", "PRAGMA journal_mode=WAL; CREATE TABLE t(word, part, filling); INSERT INTO t VALUES('0', 1, ''), ('0', 2, '');"]


def transactions(writer):
    rows = [f"INSERT INTO t VALUES('{writer}{number}', 1, zeroblob(3000)), ('{writer}{number}', 2, zeroblob(3000));\n.print done {writer}{number}\n"
        for number in range(1, TRANSACTIONS + 1)]
    return f".timeout 10000\nPRAGMA synchronous={SYNC};\n{''.join(rows)}"


# Line by line, so that no promise is lost in a buffer where the program ends. A URI, since the shell looks into a file that is named by its path before
# SQLite does, by a stream.
run = ["sh", "-c", """
    for workload do printf %s "$workload" | stdbuf -oL sqlite3 -batch -bail file:./db & all="$all $!"; done
    for each in $all; do wait "$each" || [ $? -lt 128 ] || echo crashed; done""", "run", transactions("a"), transactions("b")]


def judge(said):
    if "crashed" in said:
        return "crashed"
    with closing(sqlite3.connect("db")) as database:
        try:
            if database.execute("PRAGMA integrity_check").fetchall() != [("ok",)]:
                return "corrupt"
            counts = dict(database.execute("SELECT word, count(*) FROM t GROUP BY word"))
        except sqlite3.DatabaseError:
            return "corrupt"
    if set(counts.values()) - {2}:
        return "half"
    return None if all(word in counts for word in ["0", *[line.removeprefix("done ") for line in said]]) else "lost"
