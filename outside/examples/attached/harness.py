"""SQLite commits one transaction over two files, one of which is attached to the other. It promises that after a power cut both files have the transaction
or neither has it, and that both have it once it was acknowledged. Variables of the environment change the run:
    SYNC    PRAGMA synchronous of both files: EXTRA (the default), FULL, NORMAL or OFF
    ORDER   the order in which the judge opens the files after the power cut. Default: a b

The judge says corrupt if the integrity check finds an error, half if one file has the transaction and the other doesn't, and lost if a transaction that was
acknowledged, or what was there before, is missing.

Promised by SQLite's page of ATTACH: "Transactions involving multiple attached databases are atomic", but for a main database in memory or a WAL; and
by that of PRAGMA synchronous, of EXTRA: "the directory containing a rollback journal is synced after that journal is unlinked to commit a transaction".

Found in SQLite 3.40.1, plans of one fault: lost, `sys::open=5*off->return`. SQLite opens the folder and syncs it once the journal is deleted. If it can't
be opened no error is reported: the commit is acknowledged, and after a power cut the journal may be there again and roll it back. Over two files one such
failure passes, since the folder is synced again; it is lost only if all opens from one on fail. Under FAULTS_SYNC=posix the first of the four such plans passes,
as the names of the journals are lost too. ../sqlite shows the same with strace alone."""

import os
import sqlite3
from contextlib import closing

SYNC = os.environ.get("SYNC", "EXTRA")
ORDER = os.environ.get("ORDER", "a b").split()
TABLE = "CREATE TABLE t(number, filling); INSERT INTO t VALUES(0, zeroblob(100));"

prepare = f"sqlite3 a '{TABLE}' && sqlite3 b '{TABLE}'"

# A URI, since the shell looks into a file that is named by its path before SQLite does, by a stream. Line by line, so that no promise is lost in a
# buffer where the program ends.
run = ["stdbuf", "-oL", "sqlite3", "-batch", "-bail", "file:./a", "ATTACH 'b' AS b", f"PRAGMA main.synchronous={SYNC}; PRAGMA b.synchronous={SYNC}",
    "BEGIN; INSERT INTO main.t VALUES(1, randomblob(3000)); INSERT INTO b.t VALUES(1, randomblob(3000)); COMMIT;", ".print done 1"]


def rows_of(file: str) -> list[int] | None:
    """None where the file is corrupt. It recovers from its own journal and from the one that names both."""
    with closing(sqlite3.connect(file)) as database:
        try:
            if database.execute("PRAGMA integrity_check").fetchall() != [("ok",)]:
                return None
            return [number for (number,) in database.execute("SELECT number FROM t ORDER BY number")]
        except sqlite3.DatabaseError:
            return None


def judge(said: list[str]) -> str | None:
    first, second = [rows_of(file) for file in ORDER]
    if first is None or second is None:
        return "corrupt"
    if first != second:
        return "half"
    return None if all(number in first for number in [0, *[1] * ("done 1" in said)]) else "lost"
