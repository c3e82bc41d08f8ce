"""What the loop guesses of a program that fails: a sentence for each of the usual mistakes, with its mend, and none where it doesn't know."""

import re
import sys
import unittest
from pathlib import Path

from .base import JUDGES, Campaigns
from .test_appendix import appendix_in

OLD = "#!/bin/sh\nprintf old > note\n"
OLD_OR_NEW = """#!/bin/sh
case "$(cat "$SAID"):$(cat note)" in
saved:new | :old | :new) exit 0 ;;
*) echo torn; exit 1 ;;
esac
"""
WRITES = """#!{python} -S
import os
note = os.open("note", os.O_WRONLY | os.O_CREAT)
os.write(note, b"new")
os.fsync(note)
print("saved", flush=True)
"""


APPENDED = """#!/bin/sh
case "$(od -A n -c log | tr -d ' \\n')" in 'one\\n' | 'one\\ntwo\\n') exit 0 ;; *) echo torn; exit 1 ;; esac
"""
FLAWS = Path(__file__).resolve().parents[3] / "docs" / "FLAWS.md"


def section_of(mend: str) -> str:
    """The title of the section to which the line below a guess leads, as docs/FLAWS.md has it, or nothing."""
    name = re.fullmatch(r"mend: .* \(docs/FLAWS\.md#(.*)\)", mend)
    titles = re.findall(r"^## (.*)$", FLAWS.read_text(encoding="utf-8"), re.M)
    return {re.sub(r"[^a-z ]", "", title.lower()).replace(" ", "-"): title for title in titles}.get(name[1], "") if name else ""


class Guesses(Campaigns):
    def guessed(self, run, *options, prepare="#!/bin/sh\n", judge=JUDGES, **variables):
        """What stands behind a finding, and what behind a failure of the run without faults."""
        done = self.loop("-j", 2, *options, self.harness(prepare=prepare, run=run, judge=judge), **variables)
        self.assertEqual(done.status, 1, done.told)
        return [line.removeprefix("loop: ").strip() for line in done.told.splitlines() if line.startswith(("  ", "loop: perhaps ", "loop: mend: "))]

    def assert_guessed(self, guessed, guess, section):
        """The guess stands there, and below it the mend with a section of the page."""
        self.assertIn(guess, guessed)
        self.assertEqual(section_of(guessed[guessed.index(guess) + 1]), section)

    def test_a_rename_before_the_sync(self):
        """It stands on the page too."""
        guessed = self.guessed("#!/bin/sh\nprintf new > new && mv new note && sync note && sync . && echo saved\n", prepare=OLD, judge=OLD_OR_NEW)
        says = "perhaps new isn't synced before it is renamed to note: the disk has the name, and not yet the bytes"
        self.assert_guessed(guessed, says, "A rename before the sync")
        self.assertEqual(len(guessed), 2)
        self.assertEqual({tuple(story["further"]) for story in appendix_in(self.here / "harness" / "page.html")["stories"]}, {tuple(guessed)})

    def test_no_sync(self):
        self.assertEqual(self.guessed("#!/bin/sh\nprintf new > note && echo saved\n"), ["perhaps nobody syncs note before the promise"])

    def test_no_sync_of_the_folder(self):
        guessed = self.guessed("#!/bin/sh\nprintf new > note && sync note && echo saved\n", FAULTS_SYNC="posix")
        self.assert_guessed(guessed, "perhaps a folder isn't synced after a name in it has changed", "A folder that is never synced")
        self.assertEqual(len(guessed), 2)

    def test_no_sync_of_the_folder_beside_a_file_that_nobody_syncs(self):
        """The bytes of the renamed file are on the disk, so its name is what lacks."""
        run = "#!/bin/sh\nprintf new > new && sync new && mv new note && printf x > other && echo saved\n"
        guessed = self.guessed(run, prepare=OLD, judge=OLD_OR_NEW)
        self.assertIn("perhaps nobody syncs other before the promise", guessed)
        self.assert_guessed(guessed, "perhaps a folder isn't synced after a name in it has changed", "A folder that is never synced")

    def test_an_error_that_nobody_looks_at(self):
        guessed = self.guessed("#!/bin/sh\nprintf new > new; sync new; mv new note && sync . && echo saved\n", "--no-kinds")
        says = "perhaps nobody looks at what a call returns: the 1st sys::fsync (new) failed, and `run` ended with 0"
        self.assert_guessed(guessed, says, "A result that isn't looked at")

    def test_a_write_that_writes_less(self):
        guessed = self.guessed(WRITES.format(python=sys.executable))
        self.assert_guessed(guessed, "perhaps nobody writes the rest: the 1st sys::write (note) did half, and `run` ended with 0", "A result that isn't looked at")
        self.assertEqual(len(guessed), 2)

    def test_a_tail(self):
        """The disk has the length of the record, and zeros in its place."""
        guessed = self.guessed("#!/bin/sh\nprintf 'two\\n' >> log && echo written\n", "--no-kinds", prepare="#!/bin/sh\nprintf 'one\\n' > log\n", judge=APPENDED)
        self.assert_guessed(guessed, "perhaps the end of log, which isn't a whole record, is taken for one", "A tail that is taken")

    def test_a_file_that_is_cut_first(self):
        guessed = self.guessed("#!/bin/sh\nprintf new > note && sync note && echo saved\n", "--no-kinds", prepare=OLD, judge=OLD_OR_NEW)
        self.assert_guessed(guessed, "perhaps note is cut or removed before what takes its place is on the disk", "Old data go before the new ones last")

    def test_a_moment_without_the_file(self):
        """Killed there, or if the second call fails, the program leaves none, and then no power cut is needed."""
        guessed = self.guessed("#!/bin/sh\nprintf new > new && sync new && rm note && mv new note && sync . && echo saved\n", prepare=OLD, judge=OLD_OR_NEW)
        self.assert_guessed(guessed, "perhaps note is cut or removed before what takes its place is on the disk", "Old data go before the new ones last")
        self.assertEqual(guessed[2:], [f"no power cut is needed: {what} leaves the files so" for what in ("a kill at that moment", "the program by itself")])

    def test_a_program_that_crashes(self):
        """A driver that goes on after that ends with 0, and nobody took the call for done."""
        run = "#!/bin/sh\nprintf new > new && sync new && mv new note && sync . && echo saved || sh -c 'kill -ABRT $$'\nexit 0\n"
        self.assertEqual(self.guessed(run, "--no-kinds"), [])

    def test_a_program_that_says_so(self):
        """It ends with another status, and of what is wrong nothing is known."""
        guessed = self.guessed("#!/bin/sh\nprintf new > note && sync note && echo saved\n", "--no-kinds", prepare=OLD, judge=OLD_OR_NEW)
        self.assertFalse([line for line in guessed if "nobody looks" in line], guessed)


if __name__ == "__main__":
    unittest.main()
