"""Names at whose calls no fault is planned."""

import unittest

from .base import JUDGES, Campaigns

RUN = """#!/bin/sh
mkdir noise noise/far && echo x > noise/a.log && echo x > noise/far/b && sync noise/far/b && printf new > new && sync new && mv new note && sync . && echo saved
"""


class Quiet(Campaigns):
    def hits(self, *options):
        done = self.loop("-j", 1, "--no-kinds", *options, self.here / "harness")
        self.assertEqual(done.status, 0, done.told)
        first = next(line for line in self.answers(self.here / "harness") if line.split("\t")[1] == "none")
        return done, first.split("\t")[2].split(";")

    def test_files_of_a_harness(self):
        harness = self.harness(run=RUN, judge=JUDGES)
        _, all_hits = self.hits()
        self.assertEqual(all_hits[0], "2*sys::mkdir")
        (harness / "quiet").write_text("noise\nnoise/**\n")
        done, hits = self.hits()
        self.assertIn("answers.1", done.told, "answers of another aim are set aside")
        self.assertEqual(hits[0], "sys::open")
        self.assertLess(len(hits), len(all_hits))
        self.assertIn("quiet: noise, noise/**", (harness / "report").read_text().splitlines()[0])
        keeps = [hit for hit in hits if hit.endswith("power::keep")]
        self.assertTrue(keeps, "what is done there is pending all the same")

    def test_a_file_of_python(self):
        harness = self.harness(run=RUN, judge=JUDGES)
        (harness / "harness.py").write_text('quiet = ["noise", "noise/**"]\n')
        self.assertEqual(self.hits()[1][0], "sys::open")

    def test_what_fits_no_name_is_refused(self):
        harness = self.harness(run=RUN, judge=JUDGES)
        for text, says in (('"noise/**"', "quiet must be a list of texts"), ('["/noise"]', "quiet: no name fits '/noise'"), ('["noise/"]', "quiet: no name fits 'noise/'"),
                ('[""]', "quiet: no name fits ''")):
            (harness / "harness.py").write_text(f"quiet = {text}\n")
            done = self.loop("-j", 1, harness)
            self.assertEqual(done.status, 2, done.told)
            self.assertIn(says, done.told)

    def test_the_variable_of_whoever_calls_the_loop_aims_at_nothing(self):
        self.harness(run=RUN, judge=JUDGES)
        done = self.loop("-j", 1, "--no-kinds", self.here / "harness", FAULTS_QUIET="**")
        self.assertEqual(done.status, 0, done.told)
        self.assertIn("2*sys::mkdir", self.answers(self.here / "harness")[0])


if __name__ == "__main__":
    unittest.main()
