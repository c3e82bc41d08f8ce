"""What the tests of harnesses share: a folder of their own, the loop, and small harnesses."""

import os
import shutil
import subprocess
import sys
import tempfile
import unittest
from dataclasses import dataclass
from pathlib import Path

OUTSIDE = Path(__file__).resolve().parent.parent.parent
LOOP = OUTSIDE / "loop"
NOTE = OUTSIDE / "flaws" / "note"
LOG = OUTSIDE / "flaws" / "log"
PROGRAM = Path(os.environ.get("PAKLOUR", OUTSIDE.parent / "dist" / "paklour-x86_64-linux"))

SAVES = """#!/bin/sh
printf new > new && sync new && mv new note && sync . && echo saved
"""
JUDGES = """#!/bin/sh
[ ! -s "$SAID" ] || [ "$(cat note)" = new ] || { echo lost; exit 1; }
"""


@dataclass
class Done:
    status: int
    out: str
    told: str


class Campaigns(unittest.TestCase):
    maxDiff = None

    def setUp(self):
        self.here = Path(tempfile.mkdtemp(dir="/dev/shm" if os.access("/dev/shm", os.W_OK) else None))
        self.addCleanup(shutil.rmtree, self.here)
        (self.here / "bin").mkdir()
        os.symlink(PROGRAM, self.here / "bin" / "paklour")
        self.environment = {name: value for name, value in os.environ.items() if not name.startswith("FAULTS_")}
        self.environment |= {"PATH": f"{self.here}/bin:{os.environ['PATH']}", "TMPDIR": str(self.here)}

    def start(self, *words, **variables) -> subprocess.Popen:
        return subprocess.Popen([sys.executable, LOOP, *map(str, words)], env=self.environment | variables, stdout=subprocess.PIPE, stderr=subprocess.PIPE, text=True)

    def loop(self, *words, **variables) -> Done:
        with self.start(*words, **variables) as process:
            out, told = process.communicate(timeout=300)
        return Done(process.returncode, out, told)

    def harness(self, **steps: str) -> Path:
        """A folder with these programs."""
        folder = self.here / "harness"
        folder.mkdir()
        for name, text in steps.items():
            (folder / name).write_text(text)
            (folder / name).chmod(0o755)
        return folder

    def answers(self, folder: Path) -> list[str]:
        return (folder / "answers").read_text().splitlines()
