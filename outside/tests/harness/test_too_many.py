"""Settings with more plans than a campaign may have: the levels that are whole are reported."""

import shutil
import unittest

from .base import LOG, NOTE, PROGRAM, Campaigns

# Refuses settings of depth 2 once nine answers are there, as the program does once the runs so far have more than 65536 children.
REFUSES = """#!/bin/sh
for settings do :; done
[ "$1" = help ] && exec {program} "$@"
cat > "$0.in"
grep -q '^depth = 2' "$settings" && [ "$(wc -l < "$0.in")" -ge 9 ] && {{ echo 'too many plans' >&2; exit 2; }}
exec {program} "$@" < "$0.in"
"""


class TooMany(Campaigns):
    def setUp(self):
        super().setUp()
        self.assertEqual(self.loop("-j", 2, "--no-kinds", "--into", self.here / "one", NOTE, FLAW="unchecked_sync").status, 1)
        self.report = (self.here / "one" / "report").read_bytes()
        (self.here / "bin" / "paklour").unlink()
        (self.here / "bin" / "paklour").write_text(REFUSES.format(program=PROGRAM))
        (self.here / "bin" / "paklour").chmod(0o755)

    def lowered(self, *options):
        done = self.loop("-j", 2, *options, "--into", self.here / "two", NOTE, FLAW="unchecked_sync")
        self.assertEqual(done.status, 1, done.told)
        self.assertIn("\nloop: depth 2 has more than 65536 plans, so this campaign goes to depth 1: plans with up to 1 fault are tried whole, "
            "and the report is of these\n", done.told)
        self.assertEqual((self.here / "two" / "report").read_bytes(), self.report)
        self.assertTrue((self.here / "two" / "page.html").exists())

    def test_settings_that_the_loop_makes(self):
        self.lowered("--depth", 2, "--no-kinds")

    def test_settings_of_ones_own_stay_as_they_are(self):
        own = self.here / "own.toml"
        own.write_text((self.here / "one" / "settings.toml").read_text().split("\n", 1)[1].replace("depth = 1", "depth = 2"))
        text = own.read_text()
        self.lowered("--settings", own)
        self.assertEqual(own.read_text(), text)
        self.assertEqual((self.here / "two" / "settings.lowered.toml").read_text(), text.replace("depth = 2", "depth = 1"))

    def test_no_depth_is_low_enough(self):
        text = (self.here / "bin" / "paklour").read_text().replace("depth = 2", "depth = ")
        (self.here / "bin" / "paklour").write_text(text)
        done = self.loop("-j", 1, "--depth", 2, "--into", self.here / "two", NOTE, FLAW="unchecked_sync")
        self.assertEqual(done.status, 2, done.told)
        self.assertTrue(done.told.endswith("loop: the settings have more than 65536 plans: take a smaller depth, or fewer points or kinds. The answers stay good\n"))


class Size(Campaigns):
    def test_it_is_told_as_soon_as_it_is_known(self):
        """Of more than 16 hits, of which any may fail, there are more than 65536 sets."""
        for depth, warns in ((1, False), (64, True)):
            shutil.rmtree(self.here / "into", ignore_errors=True)
            done = self.loop("-j", 1, "-x", "--depth", depth, "--into", self.here / "into", LOG, FLAW="full_disk")
            line = "loop: a campaign may have 65536 plans. If there are more, the report is of a lower depth: so take one, or fewer points or kinds\n"
            self.assertEqual(line in done.told, warns, done.told)


if __name__ == "__main__":
    unittest.main()
