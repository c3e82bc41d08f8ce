"""The run without faults: what it has to do, so that a plan that passes means something, and what is told where it fails."""

import unittest

from .base import JUDGES, SAVES, Campaigns

TRUE = "#!/bin/sh\ntrue\n"


class Refused(Campaigns):
    """Each of these programs never works, and no judge finds fault with what it leaves."""

    def refused(self, run: str) -> str:
        """What is told, behind the line on the settings."""
        folder = self.harness(run=run, judge=TRUE)
        done = self.loop("-j", 2, folder)
        self.assertEqual((done.status, done.out, self.answers(folder)), (2, "", []), done.told)
        self.assertFalse((folder / "report").exists())
        return done.told.split("\n", 1)[1].replace(str(folder), "harness")

    def test_it_ends_with_another_status_than_0(self):
        self.assertEqual(self.refused("#!/bin/sh\n: > spool; echo queued; exit 75\n"), "loop: the run without faults is refused: `run` ended with 75\n")

    def test_the_last_lines_that_it_wrote_to_standard_error(self):
        told = self.refused("#!/bin/sh\n: > spool; seq 7 >&2; exit 3\n")
        self.assertEqual(told, "loop: the run without faults is refused: `run` ended with 3. The last lines on standard error:\n3\n4\n5\n6\n7\n")

    def test_it_promises_nothing(self):
        told = self.refused("#!/bin/sh\n: > spool; echo why not >&2\n")
        self.assertEqual(told, "loop: the run without faults is refused: it printed no line, so it promised nothing, and every plan would pass. "
            "The last lines on standard error:\nwhy not\n")

    def test_a_program_that_is_not_there_is_named(self):
        told = self.refused("#!/bin/sh\n: > spool; ./gone young || exit\n")
        self.assertTrue(told.startswith("loop: the run without faults is refused: `run` ended with 127, as a shell does if a program isn't there: "
            "harness/run: 2: ./gone: not found. "), told)

    def test_a_program_that_is_not_there_before_any_call(self):
        told = self.refused("#!/bin/sh\nexec ../gone young\n")
        self.assertIn("nothing else is tried. The last lines on standard error:\nharness/run: 2: exec: ../gone: not found\n", told)


class Fails(Campaigns):
    def test_where_no_change_is_pending_no_power_cut_did_it(self):
        """The judge compares with what another moment has left."""
        judge = "#!/bin/sh\necho looked at d >&2; echo the time differs >&2; echo lost; exit 1\n"
        folder = self.harness(run="#!/bin/sh\ndate > d && sync d . && echo saved\n", judge=judge)
        done = self.loop("-j", 2, folder)
        self.assertEqual((done.status, self.answers(folder)), (1, []), done.told)
        self.assertIn("\nfail lost: without any fault\njudge: looked at d\njudge: the time differs\n"
            "loop: no change is pending, so no power cut did this: look at the judge and at the program\n", done.told)
        self.assertIn("\nloop: 1 run and 1 judgement; 0 plans were derived from other runs, 0 of them were run as a check\n", done.told)
        self.assertNotIn("FAULTS_SYNC", done.told)

    def test_what_the_judge_wrote_is_told_beside_what_is_pending(self):
        judge = JUDGES.replace("{ echo lost", "{ echo no note >&2; echo lost")
        folder = self.harness(run=SAVES.replace(" && sync .", ""), judge=judge)
        told = self.loop("-j", 2, folder).told
        self.assertRegex(told, r"\npending: .*\njudge: cat: note: No such file or directory\njudge: no note\nloop: ")
        self.assertNotIn("no change is pending", told)


class GoesOn(Campaigns):
    """A program that renames, and then syncs the data alone, which doesn't keep the new name on ext4; and one that writes in place."""

    RUN = "#!/bin/sh\nprintf new > new && mv new note && sync -d note && echo saved\n"
    IN_PLACE = "#!/bin/sh\nprintf new > note && echo saved\n"
    JUDGE = '#!/bin/sh\n[ -e note ] || [ ! -s "$SAID" ] || { echo lost; exit 1; }\n[ ! -e note ] || [ "$(cat note)" = new ] || { echo torn; exit 1; }\n'

    def test_what_one_may_do_is_told(self):
        done = self.loop("-j", 2, self.harness(run=self.RUN, judge=self.JUDGE))
        self.assertEqual(done.status, 1)
        lines = done.told.splitlines()
        self.assertIn("loop: the run without faults passes if no power cut comes: if the program promises no sync, --kill tries it so", lines)
        self.assertIn("loop: if this is known, --known lost goes on, and counts what else fails", lines)
        self.assertRegex(lines[-2], r"^the run without faults fails, so nothing else was tried; \d+\.\d s$")

    def test_a_known_loss(self):
        """It counts as passed; what else is broken in another state of the same run fails."""
        folder = self.harness(run=self.RUN, judge=self.JUDGE)
        done = self.loop("-j", 2, "--known", "lost", "--known", "never", folder)
        self.assertEqual(done.status, 1, done.told)
        self.assertEqual({answer.split("\t")[0] for answer in self.answers(folder)}, {"pass", "fail torn"})
        self.assertIn("pass\tnone\t", "\n".join(self.answers(folder)))
        self.assertRegex(done.told, r"\nloop: known: lost: [1-9]\d* judgements came to it, and count as passed\nloop: known: never: no judgement came to it\n")
        self.assertEqual((folder / "report").read_text().splitlines()[0], "target harness, settings by paklour-loop, known: lost, never")
        again = done.told.splitlines()[-1]
        self.assertIn(" --known lost --known never --try ", again)
        shown = self.loop(folder, "--known", "lost", "--known", "never", "--try", "none")
        self.assertEqual((shown.status, shown.out.splitlines()[-2:]), (0, ["known: lost", "pass: without any fault"]))

    def test_a_killed_program_alone(self):
        """A rename before the sync is none of its flaws, and a file that is emptied before it is written is."""
        folder = self.harness(run=self.RUN, judge=self.JUDGE)
        self.assertEqual(self.loop("-j", 2, "--kill", folder).status, 0)
        (folder / "run").write_text(self.IN_PLACE)
        (folder / "answers").unlink()
        done = self.loop("-j", 2, "--kill", folder)
        self.assertEqual((done.status, {answer.split("\t")[0] for answer in self.answers(folder)}), (1, {"pass", "fail torn"}), done.told)
        self.assertNotIn("power::", (folder / "settings.toml").read_text() + (folder / "answers").read_text())
        self.assertEqual((folder / "report").read_text().splitlines()[0], "target harness, settings by paklour-loop, killed without a power cut")
        self.assertIn("fail torn: the 1st sys::write (note) ends the run\n", done.told)

    def test_what_it_cannot_judge(self):
        folder = self.harness(run=self.RUN, judge=self.JUDGE, again=TRUE)
        self.assertIn("loop: --kill: `again` of this harness begins after a power cut", self.loop("--kill", folder).told)
        (folder / "again").unlink()
        (folder / "settings.toml").write_text('target = "outside"\ndepth = 1\n[outside]\nlabel = "x"\ncodes = ["lost"]\npoints = ["sys::open"]\n')
        self.assertIn("settings.toml has settings of your own: leave out power::keep there", self.loop("--kill", folder).told)

    def test_points_by_file_need_settings_that_list_them(self):
        """Settings that the loop makes can't, since a fault may lead to any file. A single run shows them."""
        folder = self.harness(run=SAVES, judge=JUDGES)
        done = self.loop(folder, FAULTS_POINTS="file")
        self.assertEqual((done.status, self.answers(folder) if (folder / "answers").exists() else []), (2, []))
        self.assertIn("loop: FAULTS_POINTS=file gives points the names of files, which settings of your own have to list (--settings); ", done.told)
        self.assertIn(" sys::rename@note 1", self.loop(folder, "--try", "none", FAULTS_POINTS="file").out)

    def test_a_crash_that_is_known(self):
        folder = self.harness(run=SAVES.replace("&& sync .", "&& { sync . || { sh -c 'kill -ABRT $$'; exit 1; }; }"), judge=JUDGES)
        for options, status in ([], 1), (["--known", "crashed"], 0):
            done = self.loop("-j", 2, "--no-kinds", *options, "--into", self.here / f"into{status}", folder)
            self.assertEqual((done.status, "fail crashed: " in done.told), (status, status == 1), done.told)


if __name__ == "__main__":
    unittest.main()
