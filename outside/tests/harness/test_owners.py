"""As root the loop keeps the owners of what `prepare` made, and a service that drops its rights gets to its data."""

import os
import sys
import unittest

from .base import JUDGES, OUTSIDE, SAVES, Campaigns

sys.path.insert(0, str(OUTSIDE))

from harness import tree  # noqa: E402

NOBODY = 65534
PREPARES = f"#!/bin/sh\nchown {NOBODY}:{NOBODY} . && chmod 700 .\n"
DROPS = f'#!/bin/sh\nexec setpriv --reuid={NOBODY} --regid={NOBODY} --clear-groups sh -c \'cd / && cd "$1" && {SAVES.splitlines()[1]}\' drops "$PWD"\n'


@unittest.skipIf(os.geteuid(), "only root can give files to others")
class Owners(Campaigns):
    def test_a_service_that_drops_its_rights(self):
        """It finds its data by an absolute path."""
        self.here.chmod(0o711)
        done = self.loop("-j", 2, "--no-kinds", self.harness(prepare=PREPARES, run=DROPS, judge=JUDGES))
        self.assertEqual(done.status, 0, done.told)
        self.assertRegex(done.out, r"census sys::fsync 2\n")

    def test_its_files_after_a_power_cut(self):
        """They are its own again, for recovery and for the judge, which drop their rights too. One that was deleted again is its folder's owner's."""
        drops = f"#!/bin/sh\nexec setpriv --reuid={NOBODY} --regid={NOBODY} --clear-groups sh -c "
        saves = drops + "'umask 077; ln -s / link; mkdir sub && echo a > sub/a && rm sub/a && echo new > note && sync note . && echo saved'\n"
        reads = drops + "'for file in $(find . -type f); do cat $file > /dev/null || exit 3; done; [ -z \"$(find . ! -user 65534)\" ]'\n"
        done = self.loop("-j", 2, "--no-kinds", self.harness(prepare=PREPARES, run=saves, again=reads, judge=reads))
        self.assertEqual(done.status, 0, done.told)
        self.assertRegex(done.out, r"counts pass \d+ unresolved 0\n")

    def test_folders_of_other_runs(self):
        """Of all runs only that one is open whose program runs."""
        judge = '#!/bin/sh\nopen=$(stat -c "%a %n" ../../* | grep -v "^700 ")\n[ "$open" = "711 ../../$(basename "$(dirname "$PWD")")" ] || exit 3\n'
        done = self.loop("-j", 1, "--no-kinds", self.harness(run=SAVES, judge=judge))
        self.assertEqual(done.status, 0, done.told)
        self.assertRegex(done.out, r"counts pass \d+ unresolved 0\n")

    def test_a_copy(self):
        source, target = self.here / "source", self.here / "target"
        (source / "folder").mkdir(parents=True)
        (source / "file").touch()
        (source / "link").symlink_to("none")
        for user, path in enumerate((source, source / "folder", source / "file", source / "link"), NOBODY):
            os.chown(path, user, user + 1, follow_symlinks=False)
        (source / "file").chmod(0o4755)
        tree.copy(str(source), str(target))
        self.assertEqual(target.stat().st_uid, NOBODY)
        self.assertEqual((target / "file").stat().st_mode & 0o7777, 0o4755)
        self.assertEqual([(name, told.st_uid, told.st_gid) for name, told in tree.entries(str(target))],
            [("file", NOBODY + 2, NOBODY + 3), ("folder", NOBODY + 1, NOBODY + 2), ("link", NOBODY + 3, NOBODY + 4)])
        self.assertEqual(tree.digest(str(target)), tree.digest(str(source)))
        os.chown(target / "file", NOBODY, NOBODY + 3)
        (target / "file").chmod(0o4755)
        self.assertNotEqual(tree.digest(str(target)), tree.digest(str(source)))


if __name__ == "__main__":
    unittest.main()
