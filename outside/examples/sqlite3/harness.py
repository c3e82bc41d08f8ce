"""The shell of SQLite, which does one statement after the other.

Promised by SQLite's page of PRAGMA synchronous, of EXTRA: "that the directory containing a rollback journal is synced after that journal is unlinked to commit a
transaction".

Found in SQLite 3.40.1, plans of up to two operations and faults: lost, `insert` and `delete`, `sys::open=4*off->1*return` and `3*off->return`: the folder that is
to be synced can't be opened, and nobody is told. It is what the example sqlite has, here without a judge."""

operations = ["insert into t values ('a', 1)", "delete from t where k = 'z'", "vacuum", "pragma journal_mode = wal"]
length = 2
prepare = """sqlite3 db "create table t (k, v); insert into t values ('z', 26)" && sync db ."""
session = """while read -r operation; do
    sqlite3 -bail -cmd 'pragma synchronous = extra' db "$operation" > $TMPDIR/said && echo "$operation"
done"""
look = "sqlite3 db 'select * from t order by k'"
