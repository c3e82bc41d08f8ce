"""Three processes run commit.py, a two-phase commit. It promises that both participants commit a transaction or neither does, and that its client gets that result. Its
settings list messages (`commit::send_..`, points of its own, by the module of ../../points/python) beside calls on the logs (`sys::..`). They have no depth.
Variables of the environment change the run:
    FLAW            sound (the default), lazy_prepare, early_end or abort_on_doubt
    TRANSACTIONS    how many transactions there are, one after the other. Default: 1
    TOGETHER        with order.toml: the participants are asked at once and have one log. order::next is a point, at which faults decide who goes first, and
                    messages are no points. FLAW is sound or looks_for_end then

The judge says split if one participant commits and the other doesn't, lost if the client got `done` and none commits, phantom if it got `aborted` and all
commit, and crashed after a signal or an exception.

Found, as FLAW.report shows (docs/FOUND.md): sound passes all 69 plans. lazy_prepare (the vote goes out before the record is synced) loses or splits at
most faults after the decision. early_end (the coordinator forgets before all acknowledge) splits if one outcome is lost. abort_on_doubt takes a commit
record whose sync failed for one that isn't there: no single fault shows it, and
`sys::fsync=2*off->1*return;commit::send_outcome=1*return` splits.
With TOGETHER and order.toml (FLAW.order.report) sound passes. looks_for_end (a participant looks for the end of the common log before it writes) splits
if another one overtakes it between the look and the write, and by no other fault alone."""

import os
import sys
from pathlib import Path

TRANSACTIONS = os.environ.get("TRANSACTIONS", "1")
TOGETHER = os.environ.get("TOGETHER", "")
CLIENT = str(Path(sys.path[0]).parents[1] / "points" / "python" / "src")
sys.path.append(CLIENT)

from commit import judged  # noqa: E402

environment = {"FLAW": os.environ.get("FLAW", "sound"), "TRANSACTIONS": TRANSACTIONS, "TOGETHER": TOGETHER, "PYTHONPATH": CLIENT}

# 3: a process was gone, or the outcome in doubt.
run = ["sh", "-c", """python3 -S -B "$HARNESS/commit.py" "$TRANSACTIONS"
    status=$?
    case $status in 1 | 134 | 139) echo crashed ;; esac
    exit $status"""]


def prepare():
    for name in ["participants", "coordinator"] if TOGETHER else ["a", "b", "coordinator"]:
        Path(f"{name}.log").touch()


def judge(said):
    return "crashed" if "crashed" in said else judged(".", said, int(TRANSACTIONS))
