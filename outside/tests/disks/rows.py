"""Small workloads, and all states that each profile has after them, worked out by hand from docs/DISKS.md. The model and the power cut are held to them."""

NAMED = ("ext4", "xfs", "btrfs", "linux", "posix")
BEFORE = "all as before"
ZEROS = "log 644, 9060 bytes: 0-8999 old log, 9000-9059 zeros"
APPENDED = "log 644, 9060 bytes: 0-8999 old log, 9000-9059 step {}"
OVERWRITTEN = "a 644, 9000 bytes: 0-59 step {}, 60-8999 old a"
NEW, MOVED, MODE = "n 644, 60 bytes: 0-59 step 2", "m 644, 300 bytes: 0-299 old c", "a 600, 9000 bytes: 0-8999 old a"
SYNCED = "create n; write n 0 60; fsync n"
EMPTY_C, ZERO_C, NEW_C = "c 644, 0 bytes", "c 644, 100 bytes: 0-99 zeros", "c 644, 100 bytes: 0-99 step 2"
EMPTY_N, ZERO_N, NEW_N = "n 644, 0 bytes", "n 644, 100 bytes: 0-99 zeros", "n 644, 100 bytes: 0-99 step 2"
EMPTY_M, EMPTY_X = "m 644, 0 bytes", "x 644, 0 bytes"
MOVED_K = "g/k2 644, 5000 bytes: 0-4999 old d/k"


def of(*parts: str) -> str:
    return "; ".join(parts) or BEFORE


def moves(first: str, last: tuple[str, ...] = ()) -> set[str]:
    """A file `c` that was renamed to `m`, each end of which may be there alone."""
    return {of(first, *last), of(first, MOVED, *last), of(first, MOVED, *last, "no c"), of(first, *last, "no c")}


def three_blocks(name: str, new: tuple[bool, ...]) -> str:
    """A file of 9,000 bytes that was written over by the first step, in these of its blocks."""
    ends, parts = (0, 4096, 8192, 9000), []
    for block, is_new in enumerate(new):
        writer = "step 1" if is_new else f"old {name}"
        if parts and parts[-1][2] == writer:
            parts[-1][1] = ends[block + 1]
        else:
            parts.append([ends[block], ends[block + 1], writer])
    return f"{name} 644, 9000 bytes: " + ", ".join(f"{begin}-{end - 1} {writer}" for begin, end, writer in parts)


BLOCKS = {three_blocks("a", (one, two, three)) for one in (False, True) for two in (False, True) for three in (False, True)}
B_FIRST = "b 644, 8192 bytes: 0-3999 old b, 4000-4095 step 1, 4096-8191 old b"
B_SECOND = "b 644, 8192 bytes: 0-4095 old b, 4096-4199 step 1, 4200-8191 old b"
B_BOTH = "b 644, 8192 bytes: 0-3999 old b, 4000-4199 step 1, 4200-8191 old b"
WRITTEN_AT_END = "a 644, 9000 bytes: 0-8991 old a, 8992-8999 step 1"
GROWN = "a 644, 9500 bytes: 0-8999 old a, 9000-9499 zeros"
GROWN_AND_WRITTEN = "a 644, 9500 bytes: 0-8991 old a, 8992-8999 step 1, 9000-9499 zeros"
CLEARED = "a 644, 9000 bytes: 0-51 old a, 52-4095 zeros, 4096-8999 old a"

ROWS = [
    # A length may come without its bytes, or not.
    ("append log 60", "ext4 linux posix", {BEFORE, ZEROS, APPENDED.format(1)}),
    ("append log 60", "xfs btrfs", {BEFORE, APPENDED.format(1)}),
    # Blocks are there each for itself.
    ("write b 4000 200", " ".join(NAMED), {BEFORE, B_FIRST, B_SECOND, B_BOTH}),
    ("write a 0 9000", " ".join(NAMED), {BEFORE if state == three_blocks("a", (False,) * 3) else state for state in BLOCKS}),
    # A file that grew without a write may have its new length without what was written before, but on XFS.
    ("write a 8992 8; truncate a 9500", "ext4 btrfs linux posix", {BEFORE, WRITTEN_AT_END, GROWN, GROWN_AND_WRITTEN}),
    ("write a 8992 8; truncate a 9500", "xfs", {BEFORE, WRITTEN_AT_END, GROWN_AND_WRITTEN}),
    # A shortening clears the rest of its last block first.
    ("truncate a 52", " ".join(NAMED), {BEFORE, CLEARED, "a 644, 52 bytes: 0-51 old a"}),
    # The sync of another file, which was written over, or has grown.
    (SYNCED + "; rename c m; write a 0 60; fdatasync a", "ext4 xfs",
     {of(OVERWRITTEN.format(5), NEW), of(OVERWRITTEN.format(5), MOVED, NEW, "no c")}),
    (SYNCED + "; rename c m; write a 0 60; fdatasync a", "btrfs linux", moves(OVERWRITTEN.format(5), (NEW,))),
    (SYNCED + "; rename c m; append log 60; fsync log", "ext4 xfs", {of(APPENDED.format(5), MOVED, NEW, "no c")}),
    (SYNCED + "; rename c m; append log 60; fsync log", "btrfs linux", moves(APPENDED.format(5), (NEW,))),
    (SYNCED + "; rename c m; append log 60; fsync log", "posix", moves(APPENDED.format(5), (NEW,)) | moves(APPENDED.format(5))),
    # The name of a new file whose folder was never synced.
    (SYNCED, "ext4 xfs btrfs linux", {NEW}),
    (SYNCED, "posix", {BEFORE, NEW}),
    # A mode.
    ("chmod a 600", " ".join(NAMED), {BEFORE, MODE}),
    ("chmod a 600; fsync a", " ".join(NAMED), {MODE}),
    ("chmod a 600; fdatasync a", "ext4 linux posix", {BEFORE, MODE}),
    ("chmod a 600; fdatasync a", "xfs btrfs", {MODE}),
    # A new file that takes the name of another.
    ("create n; write n 0 100; rename n c", "ext4", {BEFORE, EMPTY_N, ZERO_N, NEW_N, ZERO_C, NEW_C}),
    ("create n; write n 0 100; rename n c", "xfs btrfs", {BEFORE, EMPTY_N, NEW_N, EMPTY_C, NEW_C}),
    ("create n; write n 0 100; rename n c", "linux", {BEFORE, EMPTY_N, ZERO_N, NEW_N, EMPTY_C, ZERO_C, NEW_C}),
    # Names are there in their order.
    ("create n; create m; create x", "ext4 xfs btrfs linux", {BEFORE, EMPTY_N, of(EMPTY_M, EMPTY_N), of(EMPTY_M, EMPTY_N, EMPTY_X)}),
    ("create n; create m; create x", "posix", {BEFORE, EMPTY_N, EMPTY_M, EMPTY_X, of(EMPTY_M, EMPTY_N), of(EMPTY_N, EMPTY_X), of(EMPTY_M, EMPTY_X),
                                               of(EMPTY_M, EMPTY_N, EMPTY_X)}),
    # A move, and the sync of its new folder.
    ("rename d/k g/k2; fsync g", "ext4 xfs", {of(MOVED_K, "no d/k")}),
    ("rename d/k g/k2; fsync g", "btrfs linux posix", {of(MOVED_K, "no d/k"), MOVED_K}),
    # The sync of everything: on XFS it keeps no bytes that were written over in place.
    ("write a 0 60; syncfs", "ext4 btrfs", {OVERWRITTEN.format(1)}),
    ("write a 0 60; syncfs", "xfs linux posix", {BEFORE, OVERWRITTEN.format(1)}),
    ("append log 60; syncfs", " ".join(NAMED), {APPENDED.format(1)}),
    # A file that was synced at a name, which is then taken from it.
    ("create m; rename m c; fsync c; unlink c", "ext4 xfs", {EMPTY_C, "no c"}),
    ("create m; rename m c; fsync c; unlink c", "btrfs linux",
     {EMPTY_C, "no c", BEFORE, of(EMPTY_C, EMPTY_M), of(EMPTY_M, "no c"), EMPTY_M}),
]
