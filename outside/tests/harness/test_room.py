"""What a campaign takes on the disk stays within its room, and it never takes a file system whole."""

import os
import subprocess
import sys
import threading
import time
import unittest
from pathlib import Path

from .base import OUTSIDE, Campaigns

sys.path.insert(0, str(OUTSIDE))

from harness import tree  # noqa: E402
from harness.bounds import Bounds  # noqa: E402
from harness.disk import disk_of  # noqa: E402
from harness.record import Record  # noqa: E402
from harness.records import Records  # noqa: E402
from harness.room import Crowded, Room  # noqa: E402

MEGABYTE = 1 << 20
# By one write, of one block. With its notes and copies a run takes some eight megabytes.
SAVES = "#!/bin/sh\ndd if=/dev/zero of=new bs=2000000 count=1 status=none && sync new && mv new note && sync . && echo saved\n"
# Where the sync fails, it takes a hundred.
SWELLS = SAVES.replace("sync new", '{ sync new || { head -c 100000000 /dev/zero > "$TMPDIR/more"; sleep 1; exit 1; }; }')
JUDGES = '#!/bin/sh\n[ ! -s "$SAID" ] || [ "$(wc -c < note)" = 2000000 ] || { echo lost; exit 1; }\n'
# The same, except that only the first judgement ends by itself, that of the run without faults. Each later one makes the file `held`, and waits until there
# is a file `freed`. So a campaign can't end before the test makes that file.
HOLDS = JUDGES + """
[ -e "$HARNESS/../begun" ] || { : > "$HARNESS/../begun"; exit 0; }
: > "$HARNESS/../held"
until [ -e "$HARNESS/../freed" ]; do sleep 0.05; done
"""
STOPS_WITHIN = 50  # seconds: less than the 60 after which a judge that waits is ended in any case


class Large(Campaigns):
    def setUp(self):
        super().setUp()
        self.environment["FAULTS_BLOCK"] = "2000000"


class Taken(Large):
    def most_taken(self, *words):
        """By all runs together at any moment; and what the loop said."""
        most, ended = 0, threading.Event()

        def look():
            nonlocal most
            while not ended.wait(0.01):
                most = max(most, sum(tree.size(str(folder)) for folder in self.here.glob("paklour-*")))

        looking = threading.Thread(target=look)
        looking.start()
        done = self.loop(*words)
        ended.set()
        looking.join()
        return most, done

    def test_runs_side_by_side(self):
        """There is room for two of them, and eight may be made at once. One that takes more than any before is seen at the next look."""
        most, done = self.most_taken("-j", 8, "--room", "20M", self.harness(run=SAVES, judge=JUDGES))
        self.assertEqual(done.status, 0, done.told)
        self.assertLess(most, 30 * MEGABYTE)
        self.assertGreater(most, 5 * MEGABYTE)

    def test_one_that_takes_too_much(self):
        """It alone is unresolved, and nothing else comes otherwise."""
        folder = self.harness(run=SWELLS, judge=JUDGES)
        done = self.loop("-j", 4, "--room", "40M", folder)
        self.assertEqual(done.status, 5, done.told)
        said = [line for line in done.told.splitlines() if line.startswith("unresolved: ")]
        self.assertEqual(len(said), 1, done.told)
        self.assertRegex(said[0], r"^unresolved: it took more than the \d+ bytes that all runs together may take \(--room\): sys::(fsync=1\*return|open=1\*off->return)$")
        unresolved = {answer.split("\t")[1] for answer in self.answers(folder) if not answer.startswith("pass")}
        # Where its first open fails, `sync` tries another.
        self.assertEqual(unresolved, {"sys::fsync=1*return", "sys::open=1*off->return"})


class Full(Large):
    """In memory of 64 megabytes."""

    def setUp(self):
        super().setUp()
        self.memory = self.here / "memory"
        self.memory.mkdir()
        if subprocess.run(["mount", "-t", "tmpfs", "-o", "size=64M", "tmpfs", self.memory], capture_output=True, check=False).returncode:
            self.skipTest("nothing may be mounted here")
        self.addCleanup(subprocess.run, ["umount", self.memory], check=True)
        self.environment["TMPDIR"] = str(self.memory)

    def await_hold(self, process):
        """Waits until a judge waits, and so the campaign."""
        while not (self.here / "held").exists():
            self.assertIsNone(process.poll(), "the campaign ended before its second judgement")
            time.sleep(0.01)

    def end_of(self, process):
        """What the loop printed on standard error until it stopped."""
        try:
            return process.communicate(timeout=STOPS_WITHIN)[1]
        except subprocess.TimeoutExpired:
            process.terminate()
            self.fail(f"the campaign goes on, though no room is left: {process.communicate()[1]}")

    def test_by_others(self):
        """It stops and says so, and goes on where it was once there is room again."""
        folder = self.harness(run=SAVES, judge=HOLDS)
        with self.start("-j", 2, folder) as process:
            self.await_hold(process)
            with open(self.memory / "others", "wb") as others:
                os.posix_fallocate(others.fileno(), 0, 50 * MEGABYTE)
            told = self.end_of(process)
        self.assertEqual(process.returncode, 2, told)
        self.assertRegex(told, rf"loop: all runs together may take 16777216 bytes in {self.memory}, where 67108864 are free\n")
        self.assertRegex(told, rf"loop: {self.memory}: \d+ bytes are free, which is too few: one run took \d+. Free some, or set TMPDIR to another folder\n")
        (self.memory / "others").unlink()
        (self.here / "freed").touch()
        answered = set(self.answers(folder))
        self.assertTrue(all(answer.startswith("pass") for answer in answered), "what met a full disk is no answer")
        self.assertEqual(self.loop("-j", 2, folder).status, 0)
        self.assertLess(answered, set(self.answers(folder)))


class Told:
    """A file system that tells so many free bytes."""

    folder = "told"

    def __init__(self, free):
        self.bytes = free

    def free(self):
        return self.bytes


class Rooms(Campaigns):
    def room(self, free, asked):
        return Room(Told(free), asked, Bounds(60, MEGABYTE), Records())

    def kept(self, records, name):
        """A run of one megabyte, kept."""
        folder = self.here / name
        folder.mkdir()
        (folder / "some").write_bytes(bytes(MEGABYTE))
        records.give(frozenset({name}), Record(folder, name, 0, "", []), tree.size(folder))
        return folder

    def test_a_fourth_of_what_is_free(self):
        room = self.room(free=400 * MEGABYTE, asked=1000 * MEGABYTE)
        self.assertEqual((room.most, room.stays_free), (100 * MEGABYTE, 100 * MEGABYTE))
        room = self.room(free=4000 * MEGABYTE, asked=100 * MEGABYTE)
        self.assertEqual((room.most, room.stays_free), (100 * MEGABYTE, 200 * MEGABYTE))

    def test_what_is_kept_goes_first(self):
        room = self.room(free=400 * MEGABYTE, asked=4 * MEGABYTE)
        kept = [self.kept(room.records, name) for name in ("one", "two", "three")]
        making = self.kept(Records(), "making")
        room.begin(making)
        room.settle({making: 2 * MEGABYTE})
        self.assertEqual([folder.exists() for folder in kept], [False, True, True])
        self.assertFalse(room.is_crowded(making))
        room.settle({making: 5 * MEGABYTE})
        self.assertEqual([folder.exists() for folder in kept], [False, False, False])
        self.assertTrue(room.is_crowded(making))
        self.assertRaises(Crowded, room.why_ended, making)

    def test_the_largest_one_goes(self):
        room = self.room(free=400 * MEGABYTE, asked=4 * MEGABYTE)
        sizes = {Path("small"): MEGABYTE, Path("large"): 3 * MEGABYTE, Path("middle"): 2 * MEGABYTE}
        for folder in sizes:
            room.begin(folder)
        room.settle(sizes)
        self.assertEqual([room.is_crowded(folder) for folder in sizes], [False, True, False])

    def test_all_go_where_the_disk_gets_full(self):
        room = self.room(free=400 * MEGABYTE, asked=4 * MEGABYTE)
        kept = self.kept(room.records, "kept")
        room.begin(Path("one"))
        room.disk.bytes = 7 * MEGABYTE
        room.settle({Path("one"): MEGABYTE})
        self.assertFalse(kept.exists())
        self.assertTrue(room.is_crowded(Path("one")))

    def test_one_alone_goes_on_with_less(self):
        """Of a hundred megabytes that stay free eighty are left, and a run took two."""
        room = self.room(free=400 * MEGABYTE, asked=400 * MEGABYTE)
        room.largest = 2 * MEGABYTE
        room.disk.bytes = 80 * MEGABYTE
        self.assertTrue(room.is_short())
        with room.seat(alone=True):
            self.assertFalse(room.is_short())
            room.disk.bytes = 15 * MEGABYTE
            self.assertTrue(room.is_short())

    def test_where_a_folder_is(self):
        self.assertEqual(disk_of("/proc").is_in_memory, False)
        if os.path.ismount("/dev/shm"):
            disk = disk_of("/dev/shm")
            self.assertTrue(disk.is_in_memory)
            available = int(Path("/proc/meminfo").read_text().split("MemTotal:")[1].split()[0]) << 10
            self.assertLess(disk.free(), available)


if __name__ == "__main__":
    unittest.main()
