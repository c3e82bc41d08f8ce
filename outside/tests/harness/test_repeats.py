"""Programs that don't do the same each time: each campaign comes to its report, and what differed is told."""

import subprocess
import sys
import unittest

from .base import OUTSIDE, Campaigns

sys.path.insert(0, str(OUTSIDE))

from harness.judging import Judgement  # noqa: E402
from harness.outcome import Outcome  # noqa: E402
from harness.repeats import Repeats  # noqa: E402

TRUE = "#!/bin/sh\ntrue\n"
# Which run of the harness this is, from 1 on, counted outside the data.
COUNTS = '#!/bin/sh\necho >> "$HARNESS/.count"; count=$(wc -l < "$HARNESS/.count")\n'
WRITES = ": > a; : > b; echo done\n"


class NotTheSame(Campaigns):
    def campaign(self, run: str, *options):
        """What was told, and the answers, which the program takes."""
        folder = self.harness(run=COUNTS + run, judge=TRUE)
        done = self.loop("-j", 1, "--no-kinds", *options, folder)
        for name in ("report", "page.html"):
            self.assertTrue((folder / name).exists(), done.told)
        with open(folder / "answers", "rb") as answers:
            report = subprocess.run(["paklour", "report", folder / "settings.toml"], env=self.environment, stdin=answers, capture_output=True, check=False)
        self.assertEqual((report.returncode, report.stdout), (0, (folder / "report").read_bytes()))
        return done, dict(reversed(line.split("\t")[:2]) for line in self.answers(folder)), folder

    def test_hits_that_differ_once(self):
        """The second run, which is that of the first open that fails, makes a folder first."""
        done, answers, _ = self.campaign("[ $count -ne 2 ] || mkdir more\n" + WRITES)
        self.assertEqual((done.status, set(answers.values())), (0, {"pass"}), done.told)
        self.assertIn("loop: flaky 1: so many runs did otherwise than the run that they grew from, until they were made again: "
            "hit 1 was sys::open (a), and now is sys::mkdir (more): sys::open=1*return\n", done.told)

    def test_hits_that_differ_from_the_second_run_on(self):
        """What is kept of the first run is cut from its notes. All others are runs: one is that of a check."""
        done, answers, _ = self.campaign("[ $count -eq 1 ] || mkdir more\n: > a; echo > b; echo done\n")
        self.assertEqual(done.status, 5, done.told)
        unresolved = {scenario for scenario, verdict in answers.items() if verdict == "unresolved"}
        self.assertEqual(unresolved, {"sys::open=1*return", "sys::open=1*off->1*return", "sys::write=1*return", "sys::write=1*panic", "power::keep=return"})
        self.assertIn("\nunresolved: in 4 runs it did otherwise than the run that it grew from: "
            "hit 1 was sys::open (a), and now is sys::mkdir (more): ", done.told)
        self.assertIn("\nloop: 4 more plans are unresolved for this reason: ", done.told)

    def test_files_in_another_order(self):
        """Each second run has the same hits, and makes the files in the other order: none passes for the run that the first one is."""
        done, _, _ = self.campaign("if [ $((count % 2)) -eq 1 ]; then : > a; : > b; else : > b; : > a; fi; echo done\n")
        self.assertEqual(done.status, 5, done.told)
        self.assertIn("\nloop: flaky ", done.told)
        self.assertIn("\nloop: the run did otherwise than before: hit 1 was sys::open (a), and now is sys::open (b): none\n", done.told)

    def test_names_that_no_other_run_has_are_no_difference(self):
        done, answers, _ = self.campaign(": > $count.tmp; mv $count.tmp $count.new; : > a; echo done\n")
        self.assertEqual((done.status, set(answers.values())), (0, {"pass"}), done.told)
        self.assertNotIn("flaky", done.told)

    def test_it_goes_on_after_a_stop(self):
        """Two answers are recorded, and from now on each run makes a folder first: nothing is derived from such a run, and no answer is refused."""
        _, _, folder = self.campaign('[ ! -e "$HARNESS/.more" ] || mkdir more\n' + WRITES)
        kept = [line for line in self.answers(folder) if line.split("\t")[1] in ("none", "sys::open=1*return")]
        (folder / "answers").write_text("".join(line + "\n" for line in kept))
        (folder / ".more").touch()
        done = self.loop("-j", 1, "--no-kinds", folder)
        self.assertEqual(done.status, 5, done.told)
        self.assertEqual(self.answers(folder)[:2], kept)
        self.assertEqual({line.split("\t")[0] for line in self.answers(folder)[2:]}, {"unresolved"})
        self.assertIn("it did otherwise than the run that it grew from: hit 1 was sys::open, and now is sys::mkdir (more): ", done.told)
        self.assertIn("loop: runs that didn't come out the same again, and from which nothing more was derived: 1, the first of them none\n", done.told)
        self.assertTrue((folder / "report").exists())


class Steps(unittest.TestCase):
    """Each step is a run as its hits, of which a fault acts at those with a task, and where it does otherwise than the runs before."""

    def setUp(self):
        self.repeats = Repeats()

    def parting(self, *hits: str, verdict: str = "pass") -> str:
        """Hits are a point with its file and what the scenario did, such as `open a` or `open a return`."""
        trace = []
        for number, hit in enumerate(hits, 1):
            point, file, task = (hit.split() + ["go"])[:3]
            trace.append([str(number), point, "", task, file, "", "", ""])
        return str(self.repeats.take(Outcome("", Judgement(verdict), trace)) or "")

    def test_another_way_after_the_same_answers(self):
        self.assertEqual(self.parting("open a", "write a", "sync a"), "")
        self.assertEqual(self.parting("open a", "write a return", "unlink a"), "")
        self.assertEqual(self.parting("open a", "write a", "sync a"), "")
        self.assertEqual(self.parting("open a", "sync a"), "hit 2 was write (a), and now is sync (a)")
        self.assertEqual(self.parting("open a", "write b return"), "hit 2 was write (a), and now is write (b)")
        self.assertEqual(self.parting("open a", "write a return", "sync a"), "hit 3 was unlink (a), and now is sync (a)")

    def test_after_another_answer_it_may_go_another_way(self):
        self.assertEqual(self.parting("open a", "write a", "sync a"), "")
        for run in (("open a return",), ("open a panic", "keep a"), ("open a", "write a return", "sync a"), ("open a", "write a return(HALF)", "write a")):
            self.assertEqual(self.parting(*run), "")

    def test_an_end_that_comes_earlier_or_later(self):
        self.assertEqual(self.parting("open a", "write a"), "")
        self.assertEqual(self.parting("open a"), "hit 2 was write (a), and now is the end")
        self.assertEqual(self.parting("open a", "write a", "sync a"), "hit 3 was the end, and now is sync (a)")
        self.assertEqual(self.parting("open a", "write a", verdict="fail lost"), "hit 3 was the end with pass, and now is the end with fail lost")

    def test_a_fault_at_each_hit_and_then_at_the_first_alone(self):
        self.assertEqual(self.parting("open a return", "open b return", "open c return"), "")
        self.assertEqual(self.parting("open a return", "open b", "close b"), "")
        self.assertEqual(self.parting("open a return", "close b"), "hit 2 was open (b), and now is close (b)")

    def test_names_that_one_run_alone_has(self):
        self.assertEqual(self.parting("open x1", "open y1", "sync x1"), "")
        self.assertEqual(self.parting("open x2", "open y2", "sync x2"), "")
        self.assertEqual(self.parting("open x3", "open y3", "sync y3"), "hit 3 was sync (x1), and now is sync (y3)")
        self.assertEqual(self.parting("open y1", "open x1", "sync x1"), "hit 1 was open (x1), and now is open (y1)")

    def test_answers_of_an_earlier_call_have_no_files(self):
        for line in ("pass\tnone\topen;write;sync", "pass\twrite=1*return\topen;write;unlink", "unresolved\topen=return\t-", "pass\ta=50%return\ta",
                "pass\tb=1*return"):
            self.assertIsNone(self.repeats.take_answer(line))
        self.assertEqual(str(self.repeats.take_answer("pass\tsync=1*return\topen;sync")), "hit 2 was write, and now is sync")
        self.assertEqual(self.parting("open a", "write a return", "unlink a"), "")
        self.assertEqual(self.parting("open a", "sync a"), "hit 2 was write (a), and now is sync (a)")
        self.assertEqual(self.parting("open a", "write a", "unlink a"), "hit 3 was sync, and now is unlink (a)")
        self.assertEqual(self.parting("open a", "write a", "sync a"), "")
        self.assertEqual(self.parting("open a", "write a", "sync b"), "hit 3 was sync (a), and now is sync (b)")


if __name__ == "__main__":
    unittest.main()
