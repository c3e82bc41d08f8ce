"""mdb_load stores a key in an LMDB.

Promised by lmdb.h, which has MDB_NOSYNC for who doesn't want it: "Don't flush system buffers to disk when committing a transaction. This optimization means a
system crash can corrupt the database or lose the last transactions".

Found in LMDB 0.9.24, plans of up to two operations and faults: none."""

operations = ["a 1", "b 2", "z 27"]
length = 2
load = r"printf 'VERSION=3\nformat=print\nHEADER=END\n %s\n %s\nDATA=END\n' $line | mdb_load -n db"
prepare = f"line='z 26'; {load} && sync db ."
session = f'while read -r line; do {load} && echo "$line"; done'
look = "mdb_dump -p -n db"
