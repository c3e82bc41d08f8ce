"""The flaws of small programs that are found by what `paklour-new` writes, where nobody writes a line of a script."""

import shutil
import subprocess
import sys
import unittest
from dataclasses import dataclass

from .base import OUTSIDE, Campaigns

QUEUE = (OUTSIDE / "out" / "queue", "{flaw}", "push", "the-first-word", "the-second-word")
LEDGER = (sys.executable, "-S", OUTSIDE / "flaws" / "ledger.py", "{flaw}", "add", "the-first-of-the-words", "merge", "add", "the-second-of-the-words")
COMMIT = (OUTSIDE / "out" / "commit", "{flaw}")


@dataclass
class Flaw:
    command: tuple
    name: str
    says: str  # what stands behind `fail`
    options: tuple[str, ...] = ()
    journaled: str = ""  # a file that a journal completes


JOURNALED = {"options": ("--begins", "again"), "journaled": "log"}
FOUND = [
    Flaw(QUEUE, "short_write", r"torn: the \d.. sys::write \(queue\) does half"),
    Flaw(QUEUE, "retry_sync", r"torn: the \d.. sys::fsync \(queue\) fails"),
    Flaw(QUEUE, "no_folder_sync", "lost: without any fault", ("--file-system", "posix")),
    Flaw(LEDGER, "short_write", r"torn: the \d.. sys::write \(new\) does half"),
    Flaw(LEDGER, "rename_first", r"torn: the \d.. sys::fsync \(merged\) (fails|ends the run), the pending changes of names are kept", **JOURNALED),
    Flaw(COMMIT, "unchecked_sync", r"torn: the \d.. sys::fsync \(log\) fails"),
]
SOUND = [Flaw(command, "sound", "", options) for command in (QUEUE, COMMIT) for options in ((), ("--begins", "again"))] + [
    Flaw(LEDGER, "sound", ""), Flaw(LEDGER, "sound", "", **JOURNALED)]


class Unwritten(Campaigns):
    def first_of(self, flaw):
        """The first line of a failure, or an empty text where all plans pass. No plan is unresolved."""
        made = self.here / "made"
        words = [str(word).format(flaw=flaw.name) for word in flaw.command]
        subprocess.run([OUTSIDE / "new", *flaw.options, made, *words], env=self.environment, capture_output=True, check=True)
        if flaw.journaled:
            (made / "journaled").write_text(flaw.journaled)
        done = self.loop("-j", 2, "-x", made)
        shutil.rmtree(made)
        fails = [line for line in done.told.splitlines() if line.startswith("fail ")]
        self.assertEqual(done.status, 1 if fails else 0, done.told)
        return fails[0] if fails else ""

    def test_flaws_that_are_found(self):
        for flaw in FOUND:
            with self.subTest(f"{flaw.command[0]} {flaw.name}"):
                self.assertRegex(self.first_of(flaw), f"^fail {flaw.says}$")

    def test_sound_forms(self):
        for flaw in SOUND:
            with self.subTest(f"{flaw.command[0]} {flaw.options}"):
                self.assertEqual(self.first_of(flaw), "")


if __name__ == "__main__":
    unittest.main()
