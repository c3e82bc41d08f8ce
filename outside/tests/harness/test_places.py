"""Where runs lie if TMPDIR isn't set: in memory, or on a disk for a program that does something else in memory."""

import json
import os
import sys
import unittest
from unittest import mock

from .base import JUDGES, OUTSIDE, SAVES, Campaigns

sys.path.insert(0, str(OUTSIDE))

from harness.work import MEMORY, places  # noqa: E402

# Stores through a mapping, as MariaDB does: what is in memory is never synced.
MAPS = """#!/usr/bin/env python3
import mmap
import os

note = os.open("note", os.O_RDWR | os.O_CREAT)
os.write(note, b"old")
os.fsync(note)
os.fsync(os.open(".", os.O_RDONLY))
with mmap.mmap(note, 3) as memory:
    memory[:] = b"new"
    if os.fstat(note).st_dev != os.stat("/dev/shm").st_dev:
        memory.flush()
print("saved", flush=True)
"""
UNSYNCED_IN_MEMORY = """#!/bin/sh
printf new > note
[ "$(stat -c %d .)" = "$(stat -c %d /dev/shm)" ] || sync note .
echo saved
"""
# As one whose call the file system in memory doesn't have.
FAILS_IN_MEMORY = """#!/bin/sh
[ "$(stat -c %d .)" = "$(stat -c %d /dev/shm)" ] && : > note && exit 3
printf new > note && sync note . && echo saved
"""


class Places(Campaigns):
    def setUp(self):
        super().setUp()
        del self.environment["TMPDIR"]
        with mock.patch.dict(os.environ):
            os.environ.pop("TMPDIR", None)
            self.places = places()
        if len(self.places) != 2:
            self.skipTest("runs may not lie both in memory and on a disk here")

    def needs_disk(self, folder):
        return json.loads((folder / "campaign.json").read_text())["needs_disk"]

    def test_a_program_that_maps_its_files(self):
        """Its runs lie on a disk, also those of a campaign that goes on."""
        folder = self.harness(run=MAPS, judge=JUDGES)
        done = self.loop("-j", 2, "--no-kinds", folder)
        self.assertIn(f"loop: runs lie in {self.places[1]}, as the program maps its files, ", done.told)
        self.assertNotIn("without any fault", done.told)
        self.assertTrue(self.needs_disk(folder))
        again = self.loop("-j", 2, "--no-kinds", folder)
        self.assertEqual((again.status, again.out), (done.status, done.out), again.told)
        self.assertNotIn("loop: runs lie in", again.told)
        tried = self.loop("--try", "none", folder)
        self.assertEqual(tried.status, 0, tried.told)
        # A campaign that begins anew looks again.
        (folder / "answers").unlink()
        (folder / "run").write_text(SAVES)
        self.assertEqual(self.loop("-j", 2, "--no-kinds", folder).status, 0)
        self.assertFalse(self.needs_disk(folder))

    def test_the_same_with_a_folder_of_its_own(self):
        done = self.loop("-j", 2, "--no-kinds", self.harness(run=MAPS, judge=JUDGES), TMPDIR=MEMORY)
        self.assertEqual(done.status, 1)
        self.assertIn("fail lost: without any fault\n", done.told)
        self.assertNotIn("disk", done.told)

    def test_a_program_that_does_something_else_in_memory(self):
        done = self.loop("-j", 2, "--no-kinds", self.harness(run=UNSYNCED_IN_MEMORY, judge=JUDGES))
        self.assertEqual(done.status, 1)
        self.assertIn("pending: 1 create note\npending: 2 length of note 3\npending: 3 block 0 of note as after write 1\njudge: ", done.told)
        self.assertIn(f"\nloop: the run without faults passes on a disk: set TMPDIR={self.places[1]}\n", done.told)

    def test_a_program_that_fails_in_memory(self):
        """It is refused, with the hint."""
        done = self.loop("-j", 2, "--no-kinds", self.harness(run=FAILS_IN_MEMORY, judge=JUDGES))
        self.assertEqual(done.status, 2)
        self.assertIn(f"loop: the run without faults passes on a disk: set TMPDIR={self.places[1]}\nloop: the run without faults is refused: `run` ended with 3",
            done.told)

    def test_any_other_program(self):
        """The run that shows where runs have to lie is that of the campaign without faults."""
        counts = set()
        for variables in ({}, {"TMPDIR": MEMORY}):
            into = self.here / f"into{len(variables)}"
            harness = self.here / "harness"
            done = self.loop("-j", 1, "--no-kinds", "--into", into, harness if harness.exists() else self.harness(run=SAVES, judge=JUDGES), **variables)
            self.assertEqual(done.status, 0, done.told)
            counts.add(done.told.splitlines()[-2])
        self.assertEqual(len(counts), 1, counts)
        self.assertFalse(self.needs_disk(self.here / "into0"))


if __name__ == "__main__":
    unittest.main()
