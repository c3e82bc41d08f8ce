"""replace.c replaces a file as the bundled file replacement does, and prints which replacements it has begun and done. It promises that after a power cut
the file has the replacement that is done, or one that was begun later, whole. Variables of the environment change the run:
    FLAW            sound (the default), late_sync, ignore_sync, retry_write, rename_first or in_place
    OLD             what the file holds before. Default: old
    REPLACEMENTS    lists of chunks without blanks, with a comma between two lists. Default: ne w
    STATES          which states are judged if the settings don't list power::keep. Default: lasting

The judge says torn if the file holds neither what was there before nor a replacement that was begun, and stale if it holds an older one than the last that was
acknowledged.

With keep.toml the pending changes that a power cut keeps are planned as faults are. Two faults deep FLAW=rename_first has 2 causes, the first of them
`sys::fsync=1*return;power::keep=1*return` (the name is kept, and none of its bytes). FLAW=in_place has 16, the first of them
`sys::open=1*off->1*return;power::keep=1*return` (the old name is gone). In `lasting` both pass every plan."""

import os
from pathlib import Path

FLAW = os.environ.get("FLAW", "sound")
OLD = os.environ.get("OLD", "old")
WORDS = os.environ.get("REPLACEMENTS", "ne w").split()
CONTENTS = [OLD, *[words.replace(" ", "") for words in " ".join(WORDS).split(" , ")]]

environment = {"FLAW": FLAW, "OLD": OLD, "REPLACEMENTS": " ".join(WORDS)}
states = os.environ.get("STATES", "lasting").split()


def prepare():
    Path("target").write_text(OLD)


run = ["../../out/replace", FLAW, *WORDS]


def judge(said):
    begun, done = [max([0, *[int(line.split()[1]) for line in said if line.startswith(word)]]) for word in ("begun ", "done ")]
    held = Path("target").read_text() if os.path.exists("target") else None
    if held in CONTENTS[done:begun + 1]:
        return None
    return "stale" if held in CONTENTS[:begun + 1] else "torn"
