"""Which flaw is found by the settings that the loop makes, and at which depth: that of table.tsv, and no lower one."""

import os
import shutil
import subprocess
import sys
import unittest

from .base import LOG, NOTE, OUTSIDE, Campaigns

NAMES = ("note", "log")
C = {name: f"{OUTSIDE}/out/{name}" for name in NAMES}
PYTHON = {name: f"{sys.executable} -S {OUTSIDE}/flaws/{name}.py" for name in NAMES}
GO = {name: f"{OUTSIDE}/out/{name}-go" for name in NAMES}
LANGUAGES = [C, PYTHON, *[GO] * bool(shutil.which("go"))]


def setUpModule():
    if GO in LANGUAGES:
        subprocess.run(["make", "-s", "-C", OUTSIDE, *[f"out/{name}-go" for name in NAMES]], check=True)


class Flaws(Campaigns):
    def found(self, harness, flaw, *options, programs=C):
        """What the first line of a failure says, or an empty text where all pass."""
        done = self.loop("-j", 2, "-x", *options, "--into", self.here / "into", harness, FLAW=flaw, PROGRAM=programs[harness.name])
        self.assertIn(done.status, (0, 1), done.told)
        fails = [line for line in done.told.splitlines() if line.startswith("fail ")]
        self.assertEqual(done.status == 1, bool(fails), done.told)
        for kept in (self.here / "into").iterdir():
            kept.unlink()
        return fails[0] if fails else ""

    def each(self, expected, *words):
        """In each language."""
        for programs in LANGUAGES:
            self.assertRegex(self.found(*words, programs=programs), f"^{expected}$")

    def each_loses(self, expected, harness, flaw, scenario):
        """In each language, by that one plan."""
        for programs in LANGUAGES:
            done = self.loop("--into", self.here / "into", harness, "--try", scenario, FLAW=flaw, PROGRAM=programs[harness.name])
            self.assertEqual((done.status, done.out.splitlines()[-1]), (1, expected))

    def test_a_sync_that_is_not_looked_at(self):
        self.each(r"fail lost: the 1st sys::fsync \(new\) fails", NOTE, "unchecked_sync")

    def test_rename_before_the_sync(self):
        self.each(r"fail lost: the 1st sys::fsync \(note\) (fails|ends the run), the pending changes of names are kept", NOTE, "rename_first")
        self.each_loses("fail lost: the 1st sys::fsync (note) fails, pending change 2 (rename new -> note, and all before it) is kept", NOTE,
            "rename_first", "sys::fsync=1*return;power::keep=1*return")

    def test_a_folder_that_is_never_synced(self):
        self.each("fail lost: without any fault", NOTE, "no_folder_sync")

    def test_a_torn_record(self):
        """The third record is never synced. Its length is there, and zeros in place of its bytes."""
        self.each(r"fail lost: pending change 1 \(length of log 45\) is kept", LOG, "torn_appended")

    def test_a_record_of_which_half_was_written(self):
        self.each(r"fail torn: the \d.. sys::write \(log\) .*does half.*, all pending changes are kept", LOG, "torn_taken")

    def test_a_sync_that_is_tried_again(self):
        self.each(r"fail lost: the 1st sys::fsync \(new\) fails", NOTE, "retry_sync")

    def test_a_full_disk_in_a_snapshot(self):
        self.each(r"fail lost: the 2nd sys::write \(new\) .*", LOG, "full_disk")

    def test_a_short_write(self):
        self.each(r"fail lost: the 1st sys::write \(new\) does half", NOTE, "short_write")
        self.assertEqual(self.found(NOTE, "short_write", "--no-kinds"), "")

    def test_a_greater_depth_finds_what_a_smaller_one_does(self):
        self.each(r"fail lost: the 1st sys::write \(new\) does half.*", NOTE, "short_write", "--depth", 2)

    def test_a_clean_up_that_loses_the_old_file(self):
        self.assertEqual(self.found(NOTE, "clean_up"), "")
        self.assertRegex(self.found(NOTE, "clean_up", "--depth", 2), r"^fail lost: .*the 2nd sys::link \(note\) (fails|ends the run)")
        both = "fail lost: the 1st sys::write (new) fails, the 2nd sys::link (note) fails"
        self.each_loses(both, NOTE, "clean_up", "sys::write=1*return;sys::link=1*off->1*return")

    def test_recovery_that_deletes(self):
        self.each(r"fail lost: the 4th sys::read \(log\) .*", LOG, "recovery_deletes")

    def test_sound_ones(self):
        self.each("", NOTE, "sound")
        self.each("", LOG, "sound")
        self.each("", NOTE, "sound", "--depth", 2)

    def test_a_sound_log_two_faults_deep(self):
        self.assertEqual(self.found(LOG, "sound", "--depth", 2), "")


SWITCHES = """#!/bin/sh
mkdir new && sync new . && {how} && sync . && echo switched
"""


class Killed(Campaigns):
    """A link that is replaced: `current` leads to a folder of one version or the next at each moment."""

    def switched(self, how, **more):
        prepare = "#!/bin/sh\nmkdir old && ln -s old current\n"
        judge = '#!/bin/sh\ncase $(cat "$SAID"):$(readlink current) in switched:new | :old | :new) exit 0 ;; esac\necho gone; exit 1\n'
        folder = self.harness(prepare=prepare, run=SWITCHES.format(how=how), judge=judge, **more)
        return folder, self.loop("-j", 2, folder)

    def test_a_link_that_is_removed_first(self):
        """A power cut brings the old link back, as its removal isn't synced. A kill alone doesn't."""
        folder, done = self.switched("rm current && ln -s new current")
        killed = "fail gone: the 1st sys::symlink (current) ends the run, all pending changes are kept"
        self.assertEqual(done.status, 1, done.told)
        self.assertIn(killed, done.told.splitlines())
        self.assertIn("fail gone\tsys::symlink=1*panic\tsys::mkdir;sys::open;sys::fsync;sys::open;sys::fsync;sys::unlink;sys::symlink;power::keep",
            self.answers(folder))
        again = self.loop(folder, "--try", "sys::symlink=1*panic")
        self.assertEqual((again.status, again.out.splitlines()[-2:]), (1, ["pending: 1 unlink current", killed]))

    def test_with_recovery(self):
        """It begins with what the kill left, and doesn't make the link anew; or it does."""
        killed = "fail gone: the 1st sys::symlink (current) ends the run, all pending changes are kept"
        for mends, is_gone in (("", True), ("[ -L current ] || ln -s old current; sync .", False)):
            folder, done = self.switched("rm current && ln -s new current", again=f"#!/bin/sh\n: > started; {mends}\n")
            self.assertEqual(killed in done.told.splitlines(), is_gone, done.told)
            again = self.loop(folder, "--try", "sys::symlink=1*panic")
            self.assertEqual((again.status, again.out.splitlines()[-1] == killed), (is_gone, is_gone), again.out)
            shutil.rmtree(folder)

    def test_one_that_is_renamed_into_place(self):
        for more in ({}, {"again": "#!/bin/sh\n: > started\n"}):
            folder, done = self.switched("ln -s new next && mv -T next current", **more)
            self.assertEqual((done.status, [line for line in self.answers(folder) if line.startswith("fail")]), (0, []), done.told)
            shutil.rmtree(folder)

    def test_a_scenario_that_keeps_a_change_names_its_state(self):
        """Behind the new link both changes are pending: all of them are asked for first, then the removal alone. A fault that isn't met keeps nothing."""
        folder, _ = self.switched("rm current && ln -s new current")
        synced, linked = "sys::fsync=2*off->1*panic", "sys::symlink=1*panic"
        for scenario, status in {synced: 0, f"{synced};power::keep=1*return": 0, f"{synced};power::keep=1*off->1*return": 1,
                f"{linked};power::keep=9*off->1*return": 1}.items():
            self.assertEqual(self.loop(folder, "--try", scenario).status, status, scenario)


class Languages(unittest.TestCase):
    @unittest.skipUnless(GO in LANGUAGES, "go is not installed: its programs aren't tried")
    def test_go(self):
        self.assertTrue(all(os.access(program, os.X_OK) for program in GO.values()))

    def test_all_do_the_same(self):
        """Each language writes the same lines and files."""
        for name, words in {"note": ["sound", "one", "two"], "log": ["sound", "add", "one", "sync", "snapshot", "add", "two", "list"]}.items():
            left = []
            for program in LANGUAGES:
                folder = OUTSIDE / "out" / f"trial-{name}"
                subprocess.run(["rm", "-rf", folder], check=True)
                folder.mkdir()
                said = subprocess.run([*program[name].split(), *words], cwd=folder, stdout=subprocess.PIPE, check=True).stdout
                left.append((said, {file: (folder / file).read_bytes() for file in sorted(os.listdir(folder))}))
                subprocess.run(["rm", "-rf", folder], check=True)
            self.assertEqual(left, left[:1] * len(LANGUAGES))


if __name__ == "__main__":
    unittest.main()
