"""Scenarios that failed once are kept, and tried first."""

import unittest

from .base import JUDGES, SAVES, Campaigns

BROKEN = SAVES.replace("sync new", "{ sync new || true; }")
HEAD = "# Scenarios that failed once. paklour-loop --failing tries them first, and adds others to them. Keep this file with the harness."


class Failing(Campaigns):
    def setUp(self):
        super().setUp()
        self.folder = self.harness(run=BROKEN, judge=JUDGES)
        self.kept = self.folder / "failing"

    def again(self, *words):
        return self.loop("-j", 2, "--no-kinds", "--failing", *words, self.folder)

    def test_what_fails_is_kept(self):
        done = self.again()
        self.assertEqual((done.status, self.kept.read_text().splitlines()), (1, [HEAD, "sys::fsync=1*return"]), done.told)
        self.assertIn("\nloop: 0 of 0 scenarios that failed once fail again\n", done.told)
        self.assertIn(f"\nloop: added to {self.kept}, of the scenarios that fail: 1\n", done.told)
        self.kept.write_text(self.kept.read_text() + "sys::open=1*return\n")
        done = self.again()
        self.assertEqual(self.kept.read_text().splitlines(), [HEAD, "sys::fsync=1*return", "sys::open=1*return"])
        self.assertNotIn("loop: added to ", done.told)

    def test_it_is_tried_before_all_else(self):
        self.kept.write_text(f"{HEAD}\nsys::fsync=1*off->1*panic\nsys::fsync=1*return\n")
        lines = self.again().told.splitlines()
        told = [begin for line in lines for begin in ("fail lost: ", "loop: 1 of 2 ", "loop: 14 plans") if line.startswith(begin)]
        self.assertEqual(told, ["fail lost: ", "loop: 1 of 2 ", "loop: 14 plans", "fail lost: "], lines)
        self.assertRegex(lines[-2], "^1 of 18 plans fails, in 1 way, and 1 that failed once fail again; ")

    def test_it_stops_there(self):
        self.kept.write_text("sys::fsync=1*return\n")
        done = self.again("-x")
        self.assertEqual((done.status, self.answers(self.folder)), (1, []), done.told)
        self.assertIn("\nscenarios that failed once fail again, so nothing else was tried; ", done.told)
        self.assertTrue(done.told.endswith(" --try 'sys::fsync=1*return'\n"), done.told)

    def test_a_program_that_is_mended(self):
        self.kept.write_text("sys::fsync=1*return\nsys::rmdir=1*return\nnonsense=\n")
        (self.folder / "run").write_text(SAVES)
        done = self.again()
        self.assertIn("\nloop: 0 of 3 scenarios that failed once fail again, and 1 don't meet all of their faults any more\n", done.told)
        self.assertIn("\nunresolved: ", done.told, "the last of them can't be read")
        self.assertEqual(len(self.kept.read_text().splitlines()), 3, "nothing is taken out")

    def test_a_depth_that_is_too_low_for_it(self):
        """If the sync fails, the program writes once more, and doesn't look at the second sync. The campaign of one fault finds nothing."""
        (self.folder / "run").write_text(SAVES.replace("sync new", "{ sync new || { printf new > new && { sync new || true; }; }; }"))
        self.kept.write_text("sys::fsync=2*return\n")
        done = self.again()
        self.assertEqual(done.status, 1, done.told)
        self.assertRegex(done.told, r"\nnone of \d+ plans fails, and 1 that failed once fail again; ")


if __name__ == "__main__":
    unittest.main()
