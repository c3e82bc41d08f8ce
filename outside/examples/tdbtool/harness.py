"""tdbtool does one operation after the other, each in a transaction.

Promised by tdb.h, at tdb_transaction_start: "transactions are by default disk synchronous".

Found in tdb 1.4.8, plans of up to two operations and faults: none. tdbdump, which opens the database for reading alone, can't show one whose last transaction was
cut off: "attempt to recover read only database". So `look` is tdbtool, which recovers it."""

operations = ["store a 1", "store b 2", "delete z", "repack"]
length = 2
prepare = "printf 'create db\\nstore z 26\\n' | tdbtool && sync db ."
session = r"""while read -r operation; do
    printf 'transaction_start\n%s\ntransaction_commit\n' "$operation" | tdbtool db > "$TMPDIR/said" 2>&1
    grep -qi -e fail -e error -e 'not open' "$TMPDIR/said" || echo "$operation"
done"""
look = "tdbtool db dump > $TMPDIR/dumped && sort $TMPDIR/dumped"
