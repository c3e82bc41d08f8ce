"""SQLite commits transactions of two rows each. It promises that each acknowledged transaction is there after a power cut, whole. Variables of the environment
change the run:
    JOURNAL        the journal mode: DELETE (the default) or WAL
    SYNC           PRAGMA synchronous: EXTRA (the default), FULL, NORMAL or OFF
    TRANSACTIONS   how many transactions are committed. Default: 1
    RECOVER        yes: after the power cut SQLite commits one more, under the same scenario, and the power is cut again
    STATES         which states are judged if the settings don't list power::keep. Default: lasting names contents live

The judge says corrupt if the integrity check finds an error, half if a transaction has only one of its rows, and lost if a transaction that was acknowledged
is missing.

Promised by SQLite's page of PRAGMA synchronous: of FULL, that it "will use the xSync method of the VFS to ensure that all content is safely written to the disk
surface prior to continuing"; of EXTRA also "that the directory containing a rollback journal is synced after that journal is unlinked to commit a transaction".

Found in SQLite 3.40.1:
- lost, `sys::open=3*off->1*return`: the folder that is to be synced can't be opened, and no error is reported. The commit is acknowledged,
  and after a power cut the journal may be there again and roll it back. With strace alone, in an empty folder:
    sqlite3 db 'CREATE TABLE t(n)'
    strace -o calls -P "$PWD" -e trace=openat,fdatasync -e inject=openat:error=EIO:when=2 \\
        sqlite3 db "PRAGMA synchronous=EXTRA; INSERT INTO t VALUES(1); SELECT 'done'"
    cat calls                     # one sync of the folder, one open that failed; `done` all the same
- lost, `sys::open=2*off->return`: the folder is never opened. The journal's name lasts all the same, as the journal was synced, and its removal doesn't. Under
  FAULTS_SYNC=posix that name is lost too, and it passes; with `;power::keep=1*off->1*return`, which keeps it, it is lost.
- Three faults deep (extra.toml) 1,116 of 1,119 plans pass, and 3 are lost by that one open. No run has room for a fourth fault.
- corrupt under FAULTS_SYNC=posix, `sys::open=2*off->1*return;sys::write=9*off->1*panic`, and so with `sys::fsync=1*off->1*return` in place of the open: the folder
  can't be synced after the journal is made. SQLite goes on, and dies while it writes pages: the pages last, the journal's name doesn't. With either fault alone it
  passes. Three faults deep 206 plans are so.
- SYNC=FULL is lost without any fault, as the folder isn't synced after the journal is deleted. With STATES=live, a crash of the program alone, no single fault
  loses anything, and with JOURNAL=WAL none does after a power cut either.
- RECOVER=yes: of 238 plans with one fault 5 are lost, each by a folder that can't be opened for its sync, in the second transaction also
  (`sys::open=7*off->1*return`); of 13,031 with two 372, and each of the 86 causes has such an open. Where SQLite dies at its tenth write and a write of the
  roll-back fails it passes, as the next one rolls back again."""

import os
import sqlite3
from contextlib import closing

JOURNAL = os.environ.get("JOURNAL", "DELETE")
SYNC = os.environ.get("SYNC", "EXTRA")
TRANSACTIONS = int(os.environ.get("TRANSACTIONS", "1"))
TABLE = "CREATE TABLE t(number, part, filling)"
FIRST = "INSERT INTO t VALUES(0, 1, zeroblob(100)), (0, 2, zeroblob(100))"

states = os.environ.get("STATES", "lasting names contents live").split()

prepare = ["sqlite3", "db", f"PRAGMA journal_mode={JOURNAL}; {TABLE}; {FIRST};"]


def transaction(number):
    rows = "".join(f"INSERT INTO t VALUES({number}, {part}, randomblob(3000));" for part in (1, 2))
    return [f"BEGIN; {rows} COMMIT;", f".print done {number}"]


def commits(numbers):
    """A URI, since the shell looks into a file that is named by its path before SQLite does, and in no folder that is there. Line by line, so that no promise is
    lost in a buffer where the program ends."""
    return ["stdbuf", "-oL", "sqlite3", "-batch", "-bail", "file:./db", f"PRAGMA synchronous={SYNC};",
        *[word for number in numbers for word in transaction(number)]]


run = commits(range(1, TRANSACTIONS + 1))
if os.environ.get("RECOVER"):
    again = commits([TRANSACTIONS + 1])


def judge(said):
    done = [0, *[int(line.removeprefix("done ")) for line in said if line.startswith("done ")]]
    with closing(sqlite3.connect("db")) as database:
        try:
            if database.execute("PRAGMA integrity_check").fetchall() != [("ok",)]:
                return "corrupt"
            if database.execute("SELECT number FROM t GROUP BY number HAVING count(*) <> 2").fetchall():
                return "half"
            counts = dict(database.execute("SELECT number, count(*) FROM t GROUP BY number"))
        except sqlite3.DatabaseError:
            return "corrupt"
    return None if all(counts.get(number) == 2 for number in done) else "lost"
