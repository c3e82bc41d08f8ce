"""A small program of this folder, judged by looking alone. STORE names it, and FLAW its flaw. It is asked to do a fixed list of operations, or if DRAWN is set,
some that are drawn from a seed. What it prints is what it has acknowledged, as its own harness has it."""

import os
import random
from pathlib import Path

HERE = Path(__file__).resolve().parent
OUT = HERE.parent / "out"
STORE, FLAW = os.environ.get("STORE", "keys"), os.environ.get("FLAW", "sound")
environment = {"STORE": STORE, "FLAW": FLAW, "GOES_ON": "yes" if STORE in ("note", "server") else ""}

# A program for each operation. What a failed sync has left in memory, the next program takes for being on the disk, so a log is asked for nothing more then.
EACH = 'while read -r operation; do "$@" $operation < /dev/null || [ "$GOES_ON" ] || break; done; exit 0'
SERVES = f'rm -f "$TMPDIR/socket"; HARNESS={HERE}/server WORDS=$1 exec {HERE}/server/run'  # the server was killed, and has left its socket
OPERATIONS = {
    "note": ["young", "old-enough"],
    "log": ["add first-record sync", "snapshot", "add second-record sync", "add third-record"],
    "queue": ["push the-first-word", "push the-second-word", "push the-third-word"],
    "ledger": ["add the-first-of-the-words", "merge", "add the-second-of-the-words"],
    "server": ["one", "two"],
    "keys": ["put a 1", "put b 2", "compact", "del a", "put c 3"],
}
PREPARES = {"note": "printf old > note", "server": "echo old > data", "install": "mkdir 1 && printf one > 1/part && ln -s 1 current"}
LOOKS = {
    "note": "cat note",
    "log": f"{OUT}/log {FLAW} list > $TMPDIR/listed && sort -u $TMPDIR/listed",  # a record may be in the snapshot and in the log
    "server": 'while read -r line; do echo "$line"; done < data',  # the whole lines
    "install": "cat current/part",
    "commit": "! { grep -sqx one log && grep -sqx two log; } || echo both",  # the two words are one operation
}

program = {"ledger": ["python3", "-S", f"{HERE}/ledger.py", FLAW], "server": ["sh", "-c", SERVES, "server"], "install": [f"{HERE}/install.sh", FLAW]}.get(
    STORE, [f"{OUT}/{STORE}", FLAW])
prepare = PREPARES.get(STORE, ":")
look = LOOKS.get(STORE) or [*program, "list"]
if STORE not in OPERATIONS:
    run = program
else:
    session = [*program, "session"] if STORE == "keys" else ["sh", "-c", EACH, "session", *program]


def drawn(seed: int) -> list[str]:
    draws = random.Random(seed)
    first, *_ = OPERATIONS[STORE]
    return [first, *[draws.choice(OPERATIONS[STORE]) for _ in range(4)]]


if STORE in OPERATIONS and os.environ.get("DRAWN"):
    operations = drawn
elif STORE in OPERATIONS:
    workload = OPERATIONS[STORE]
