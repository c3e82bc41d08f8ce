"""The loop deletes its own folders, and nothing that is mounted in them, and writes through no link."""

import contextlib
import os
import subprocess
import sys
import unittest
from collections.abc import Callable
from pathlib import Path

from .base import JUDGES, OUTSIDE, SAVES, Campaigns, Done

sys.path.insert(0, str(OUTSIDE))

from harness import tree  # noqa: E402

MOUNTS = 'mkdir {place}/m && mount --bind "$HARNESS/../kept" {place}/m || exit\n'
ISOLATED = ["unshare", "--mount"]  # so that mounts go with the test
NOBODY = 65534


def may_mount() -> bool:
    return not subprocess.run([*ISOLATED, "true"], capture_output=True, check=False).returncode


def in_child(does: Callable[[], None], user: int) -> int:
    """The status of a child that does something as that user."""
    child = os.fork()
    if child == 0:
        with contextlib.suppress(BaseException):
            if user != os.getuid():
                os.setgroups([])
                os.setgid(user)
                os.setuid(user)
            does()
            os._exit(0)
        os._exit(1)
    return os.waitstatus_to_exitcode(os.waitpid(child, 0)[1])


class Folders(Campaigns):
    def make_and_remove(self):
        below = self.here / "folder" / "closed" / "below"
        below.mkdir(parents=True)
        (below / "file").touch()
        (below / "link").symlink_to("../..")
        (below / "broken").symlink_to("none")
        os.mkfifo(below / "pipe")
        for folder in (below, below.parent, below.parent.parent):
            folder.chmod(0)
        tree.remove(self.here / "folder")

    def test_folders_that_may_not_be_entered(self):
        """Also as a user whom modes bind."""
        self.here.chmod(0o777)
        for user in {os.getuid(), NOBODY if os.getuid() == 0 else os.getuid()}:
            self.assertEqual(in_child(self.make_and_remove, user), 0, user)
            self.assertFalse((self.here / "folder").exists())

    def test_a_file_and_a_link(self):
        (self.here / "file").write_text("a file")
        (self.here / "link").symlink_to(".")
        for name in ("link", "file"):
            tree.remove(self.here / name)
        self.assertEqual(os.listdir(self.here), ["bin"])

    def test_nothing_is_written_through_a_link(self):
        (self.here / "other").write_text("another's")
        for name in ("report", "report.new"):
            (self.here / name).symlink_to("other")
        tree.write(self.here / "report", b"a report")
        self.assertEqual([(self.here / name).read_text() for name in ("other", "report")], ["another's", "a report"])
        self.assertFalse((self.here / "report").is_symlink() or os.path.lexists(self.here / "report.new"))


@unittest.skipUnless(may_mount(), "nothing may be mounted here")
class Mounted(Campaigns):
    def setUp(self):
        super().setUp()
        (self.here / "kept").mkdir()
        (self.here / "kept" / "file").write_text("kept")

    def isolated(self, *words) -> Done:
        """Runs words of the shell where mounts go with them."""
        done = subprocess.run([*ISOLATED, "sh", "-c", *map(str, words)], env=self.environment, capture_output=True, text=True, timeout=300, check=False)
        return Done(done.returncode, done.stdout, done.stderr)

    def left(self) -> list[Path]:
        return list(self.here.glob("paklour-*"))

    def campaign_that_mounts(self, place: str) -> Done:
        folder = self.harness(run=SAVES.replace("\n", "\n" + MOUNTS.format(place=place), 1), judge=JUDGES)
        return self.isolated(f'"$0" "$1" --no-kinds -j 2 "$2"; status=$?; ls {self.here}/kept; exit $status', sys.executable, OUTSIDE / "loop", folder)

    def assert_told(self, done: Done, name: str):
        """The last line names the mounted folder of a run."""
        self.assertEqual(done.status, 2, done.told)
        path = rf"{self.here}/paklour-\w{{8}}/\d{{8}}/{name}"
        self.assertRegex(done.told, rf"\nloop: ({path}): something is mounted here, so it isn't deleted: call umount \1\n\Z")

    def test_in_the_data(self):
        done = self.campaign_that_mounts(".")
        self.assertEqual(done.out, "file\n", done.told)
        self.assert_told(done, "data/m")
        # Where nothing is mounted any more, the next campaign deletes what this one left.
        (self.here / "harness" / "run").write_text(SAVES)
        self.assertEqual(self.loop("-j", 2, "--no-kinds", self.here / "harness").status, 0)
        self.assertEqual(self.left(), [])

    def test_in_its_folder_for_temporary_files(self):
        done = self.campaign_that_mounts('"$TMPDIR"')
        self.assertEqual(done.out, "file\n", done.told)
        self.assert_told(done, "tmp/m")

    def test_a_file(self):
        folder = self.harness(run=SAVES.replace("\n", '\n: > "$TMPDIR/m" && mount --bind "$HARNESS/../kept/file" "$TMPDIR/m" || exit\n', 1), judge=JUDGES)
        done = self.isolated('"$0" "$1" --no-kinds -j 2 "$2"', sys.executable, OUTSIDE / "loop", folder)
        self.assert_told(done, "tmp/m")
        self.assertEqual((self.here / "kept" / "file").read_text(), "kept")

    def test_after_a_kill(self):
        """The campaign after it is refused as long as there is the mount, and deletes nothing there."""
        folder = self.harness(run=SAVES, judge=JUDGES)
        mounts = SAVES.replace("\n", "\n" + MOUNTS.format(place=".") + ': > "$HARNESS/../held"; sleep 60\n', 1)
        (folder / "run").write_text(mounts)
        kills = """"$0" "$1" --no-kinds -j 2 "$2" & until [ -e "$3/held" ]; do sleep 0.05; done; kill -KILL $!; wait $!
            cp "$3/sound" "$2/run"
            "$0" "$1" --no-kinds -j 2 "$2"; echo $? $(ls "$3/kept"); umount "$3"/paklour-*/*/data/m
            "$0" "$1" --no-kinds -j 2 "$2" 2> "$3/told"; echo $?"""
        (self.here / "sound").write_text(SAVES)
        done = self.isolated(kills, sys.executable, OUTSIDE / "loop", folder, self.here)
        self.assertEqual(done.out.splitlines()[0], "2 file", done.told)
        self.assert_told(Done(2, "", done.told), "data/m")
        self.assertEqual(done.out.splitlines()[-1], "0", (self.here / "told").read_text())
        self.assertEqual(self.left(), [])


@unittest.skipUnless(may_mount(), "nothing may be mounted here")
class Full(Campaigns):
    def test_the_file_is_named(self):
        """The folder of --into lies in memory of 64 kilobytes, of which 52 are taken. No part of a file is left there."""
        into = self.here / "into"
        into.mkdir()
        fills = '''mount -t tmpfs -o size=64k tmpfs "$3" && head -c 53248 /dev/zero > "$3/taken" && "$0" "$1" --no-kinds -j 2 --into "$3" "$2"
            status=$?; ls "$3" | grep -v "^report$"; exit $status'''
        done = subprocess.run([*ISOLATED, "sh", "-c", fills, sys.executable, OUTSIDE / "loop", self.harness(run=SAVES, judge=JUDGES), into],
            env=self.environment, capture_output=True, text=True, check=False)
        self.assertEqual(done.returncode, 4, done.stderr)
        self.assertRegex(done.stderr, rf"\nloop: {into}/(report|page.html|campaign.json): No space left on device\n\Z")
        self.assertEqual(done.stdout.splitlines()[-4:], ["answers", "campaign.json", "settings.toml", "taken"])


if __name__ == "__main__":
    unittest.main()
