"""Points of the program's own stand among the calls: they are listed as they are found, fail, and lead to others."""

import shutil
import subprocess
import unittest

from .base import OUTSIDE, Campaigns

HITS = """#!/bin/sh
exec python3 -S -c '
import os

def fails(name):
    try:
        os.readlink("/.paklour/" + name)
        return True
    except OSError as error:
        return error.errno != 2

if fails("store::put"):
    fails("after failure")
    print("not saved", flush=True)
else:
    open("note", "w").close()
    print("saved", flush=True)
'
"""
JUDGE = "#!/bin/sh\n! grep -q not \"$SAID\" || { echo unsaved; exit 1; }\n"
OWN = """target = "outside"
depth = 1
[outside]
label = "x"
codes = ["unsaved"]
points = [{}]
"""


class OwnPoints(Campaigns):
    def test_settings_list_them_as_they_are_found(self):
        """One hit of the point, one open, and one change that a power cut may keep. Each of the first two fails or ends the run, and the other is kept."""
        folder = self.harness(run=HITS, judge=JUDGE)
        done = self.loop("-j", 1, folder)
        self.assertEqual(done.status, 1, done.told)
        self.assertEqual(sorted(self.answers(folder)), sorted([
            "pass\tnone\tstore::put;sys::open;power::keep",
            "fail unsaved\tstore::put=1*return\tstore::put;after failure",
            "pass\tstore::put=1*panic\tstore::put",
            "pass\tsys::open=1*return\tstore::put;sys::open",
            "pass\tsys::open=1*panic\tstore::put;sys::open",
            "pass\tpower::keep=1*return\tstore::put;sys::open;power::keep"]))
        self.assertIn('"sys::symlink", "after failure", "store::put", "power::keep"]\n', (folder / "settings.toml").read_text())
        self.assertIn("loop: points of the program's own, which the settings list now: store::put\n", done.told)
        self.assertIn("loop: points of the program's own, which the settings list now: after failure\n", done.told)
        self.assertIn("fail unsaved: the 1st store::put fails\n1 failure: unsaved: store::put fails\n", done.told)
        self.assertIn("cause 1 unsaved store::put=1*return\n", (folder / "report").read_text())
        self.assertIn('"clean": ["a step of the program", "note"', (folder / "page.html").read_text())  # what the first two hits of the run without faults are about

    def test_as_soon_as_they_are_known_too(self):
        """Several workers begin what is asked for while others try, by the settings as they were."""
        one, many = self.harness(run=HITS, judge=JUDGE), self.here / "many"
        self.loop("-j", 1, "--depth", 2, one)
        done = self.loop("-j", 4, "--depth", 2, "--into", many, one)
        self.assertEqual((many / "report").read_text(), (one / "report").read_text(), done.told)

    def test_what_one_run_shows(self):
        folder = self.harness(run=HITS, judge=JUDGE)
        shown = self.loop("--try", "store::put=1*return", folder).out.splitlines()
        self.assertEqual(shown, ["    1 store::put 1 fails [return]", "    2 after failure 1 ENOENT", "      said: not saved",
            "fail unsaved: the 1st store::put fails"])
        shown = self.loop("--try", "store::put=1*return(no room)", folder).out.splitlines()
        self.assertEqual(shown[0], "    1 store::put 1 returns no room [return(no room)]")
        self.assertEqual(shown[-1], "fail unsaved: the 1st store::put returns no room")

    def test_settings_of_ones_own_have_to_list_them(self):
        folder = self.harness(run=HITS, judge=JUDGE)
        (folder / "settings.toml").write_text(OWN.format('"sys::open", "store::put", "power::keep"'))
        done = self.loop("-j", 1, folder)
        self.assertEqual(done.status, 2)
        self.assertIn("hits after failure: add it to the points of ", done.told)
        (folder / "settings.toml").write_text(OWN.format('"sys::open", "store::put", "after failure", "power::keep"'))
        self.assertEqual(self.loop("-j", 1, folder).status, 1)

    def test_more_of_them_than_settings_may_have(self):
        """A campaign has up to 64 points: 11 of files, that of the power cut, and so 52 of the program's own."""
        run = HITS.replace('if fails("store::put"):', 'for number in range({}): fails(f"point {{number}}")\nif fails("store::put"):')
        folder = self.harness(run=run.format(52), judge=JUDGE)
        done = self.loop(folder)
        self.assertEqual(done.status, 2)
        self.assertIn("loop: settings have at most 64 points, and with those of the program's own there are 65: let it name fewer\n", done.told)


@unittest.skipUnless(shutil.which("cargo"), "no cargo")
class PointsOfFailRs(Campaigns):
    """A program in Rust with points of fail-rs, which is built for Paklour by its manifest alone."""

    @classmethod
    def setUpClass(cls):
        subprocess.run(["make", "-s", "-C", OUTSIDE, "out/note-rust"], check=True)

    def tried(self, **variables):
        done = self.loop("--depth", 2, "--into", self.here / "into", OUTSIDE / "examples" / "fail_rs", **variables)
        return done, (self.here / "into" / "report").read_text().splitlines()

    def test_a_flaw_that_needs_a_point_and_a_kept_change(self):
        """The run without faults has four points and six calls. Each of these fails or ends the run, but for the write, which also finds the disk full or does
        half: 9 times 2, and 4. The flaw is behind the rename, and shows only if the power cut keeps a part of that."""
        done, report = self.tried(FLAW="refuses_late")
        self.assertEqual(done.status, 1, done.told)
        self.assertIn("level 1 22", report)
        causes = [line.split(" ", 3)[2:] for line in report if line.startswith("cause ")]
        self.assertEqual(causes[0], ["ghost", "note-after-rename=1*return;power::keep=1*return"])
        self.assertTrue(all(code == "ghost" and cause.startswith("note-after-rename=1*return;power::keep=") for code, cause in causes), causes)

    def test_without_the_flaw_nothing_is_found(self):
        done, report = self.tried()
        self.assertEqual((done.status, report[-2:]), (0, ["first none", "causes 0"]), done.told)
        self.assertIn("reached note-after-write 1", report)


if __name__ == "__main__":
    unittest.main()
