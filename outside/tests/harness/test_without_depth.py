"""Settings without a depth list hits, and plans come from these: for runs whose hits nobody can tell in order."""

import unittest

from .base import JUDGES, NOTE, OUTSIDE, SAVES, Campaigns

SETTINGS = """target = "outside"
scenarios = [{scenarios}]
[outside]
label = "x"
codes = ["lost", "unsaved"]
points = [{points}]
hits = {hits}
"""
READS = """#!/bin/sh
: > log
case $FAILPOINTS in own*return*) echo not put ;; *) echo put ;; esac
"""
MARKS = """#!/bin/sh
: > log
exec python3 -S -c '
from paklour_points import hit
for word in ("one", "two"):
    if hit("store::put") is None: print("put", word, flush=True)
    else: print("not put", word, flush=True)
'
"""


class WithoutDepth(Campaigns):
    def settings(self, points, hits, scenarios=""):
        path = self.here / "own.toml"
        path.write_text(SETTINGS.format(points=points, hits=hits, scenarios=scenarios))
        return path

    def test_each_plan_is_run_and_no_hits_are_told(self):
        """The note syncs its file and its folder: one return, one from then on and one panic for each of the two, and the run without faults."""
        done = self.loop("--settings", self.settings('"sys::fsync"', [2]), "--into", self.here, NOTE, FLAW="unchecked_sync")
        self.assertEqual(done.status, 1, done.told)
        self.assertEqual(sorted(self.answers(self.here)), sorted(["pass\tnone", "fail lost\tsys::fsync=1*return", "fail lost\tsys::fsync=return",
            "pass\tsys::fsync=1*panic", "pass\tsys::fsync=1*off->1*return", "pass\tsys::fsync=1*off->return", "pass\tsys::fsync=1*off->1*panic"]))
        self.assertIn("loop: 7 plans\n", done.told)
        self.assertIn("; 0 plans were derived", done.told)

    def test_a_fault_that_is_not_met_was_not_tried(self):
        done = self.loop("--settings", self.settings('"sys::rmdir"', [0], '"sys::rmdir=1*return"'), "--into", self.here, NOTE)
        self.assertEqual(sorted(self.answers(self.here)), ["pass\tnone", "unresolved\tsys::rmdir=1*return"])
        self.assertIn("unresolved: the run met none of its faults: sys::rmdir=1*return\n", done.told)

    def test_a_run_without_faults_that_fails_among_others(self):
        """All are asked at once. This one was made before, to see where faults begin, so nothing else has to end first."""
        run = SAVES.replace("printf", '[ "$FAILPOINTS" != none ] || sleep 1; printf')
        folder = self.harness(run=run, judge="#!/bin/sh\necho lost\nexit 1\n")
        done = self.loop("-j", 2, "--settings", self.settings('"sys::fsync"', [2]), folder)
        self.assertEqual((done.status, done.out), (1, ""), done.told)
        self.assertIn("\nfail lost: without any fault\n", done.told)
        self.assertTrue(done.told.endswith(" --try none\n"), done.told)
        self.assertNotIn("fail lost\tnone", self.answers(folder))

    def test_points_of_its_own(self):
        """Of two puts, each that fails breaks the promise."""
        folder = self.harness(run=MARKS, judge="#!/bin/sh\ngrep -q 'not put' \"$SAID\" && { echo unsaved; exit 1; }; exit 0\n")
        client = {"PYTHONPATH": str(OUTSIDE / "points" / "python" / "src")}
        done = self.loop("--settings", self.settings('"store::put"', [2]), folder, **client)
        self.assertEqual(sorted(self.answers(folder)), sorted(["pass\tnone", "pass\tstore::put=1*panic", "pass\tstore::put=1*off->1*panic",
            *[f"fail unsaved\tstore::put={fault}" for fault in ("1*return", "return", "1*off->1*return", "1*off->return")]]), done.told)
        shown = self.loop("--settings", self.here / "own.toml", "--try", "store::put=1*off->1*return", folder, **client).out.splitlines()
        self.assertEqual([line.split(maxsplit=1)[1] for line in shown if "store::put" in line],
            ["store::put 1 ENOENT", "store::put 2 fails [return]", "unsaved: the 2nd store::put fails"])

    def test_a_program_that_reads_the_scenario_by_itself(self):
        """Nobody sees its points, so nobody can say that a fault wasn't met."""
        folder = self.harness(run=READS, judge="#!/bin/sh\n! grep -q not \"$SAID\" || { echo unsaved; exit 1; }\n")
        done = self.loop("--settings", self.settings('"own::point", "sys::rmdir"', "[1, 0]", '"sys::rmdir=1*return"'), folder)
        self.assertEqual(sorted(self.answers(folder)), sorted(["pass\tnone", "fail unsaved\town::point=1*return", "fail unsaved\town::point=return",
            "pass\town::point=1*panic", "unresolved\tsys::rmdir=1*return"]), done.told)


class Described(Campaigns):
    """A file of Python beside the programs says more of them."""

    def test_what_it_adds(self):
        folder = self.harness(run="#!/bin/sh\nprintf new > note && sync note . && echo \"$WORD\"\n", judge="#!/bin/sh\n[ \"$(cat \"$SAID\")\" != said ]\n")
        (folder / "harness.py").write_text('environment = {"WORD": "said"}\n')
        done = self.loop("--try", "none", folder)
        self.assertIn("      said: said\n", done.out)
        self.assertEqual(done.status, 1)

    def test_an_order_that_settings_say(self):
        folder = self.harness(run=SAVES, judge=JUDGES)
        (folder / "harness.py").write_text('order = "next"\n')
        self.assertIn("harness.py: no such order: next; the orders are settled, arrival\n", self.loop(folder).told)


if __name__ == "__main__":
    unittest.main()
