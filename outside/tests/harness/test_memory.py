"""Shared memory that a step of a harness leaves ends with the step, as that of a machine does with its power."""

import shutil
import subprocess
import unittest
from pathlib import Path

from .base import SAVES, Campaigns

SEGMENTS = Path("/proc/sysvipc/shm")  # a line for each, behind a head
LEAVES = SAVES.replace("\n", '\nipcmk --shmem 4096 > "$TMPDIR/made" || exit\n', 1)
FINDS = """#!/bin/sh
[ "$(wc -l < /proc/sysvipc/shm)" = 1 ] || { echo found; exit 1; }
ipcmk --shmem 4096 > "$TMPDIR/made" || exit 3
"""
FINDS_IN_PYTHON = """import subprocess


def judge(said):
    if len(open("/proc/sysvipc/shm").readlines()) > 1:
        return "found"
    subprocess.run(["ipcmk", "--shmem", "4096"], check=True, stdout=subprocess.DEVNULL)
"""


def may_be_apart() -> bool:
    return not subprocess.run(["unshare", "--ipc", "true"], capture_output=True, check=False).returncode


@unittest.skipUnless(may_be_apart() and SEGMENTS.exists() and shutil.which("ipcmk"), "a step can't have shared memory of its own here")
class Segments(Campaigns):
    def assert_none_left(self, **steps):
        before = SEGMENTS.read_text().count("\n")
        done = self.loop("-j", 2, "--no-kinds", self.harness(run=LEAVES, **steps))
        self.assertEqual(done.status, 0, done.told)
        self.assertEqual(SEGMENTS.read_text().count("\n"), before)

    def test_of_run_again_and_judge(self):
        self.assert_none_left(again=FINDS + "ls > /dev/null\n", judge=FINDS)

    def test_of_a_function(self):
        self.assert_none_left(**{"harness.py": FINDS_IN_PYTHON})


if __name__ == "__main__":
    unittest.main()
