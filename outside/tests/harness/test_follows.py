"""What follows from another run is what a run says."""

import json
import os
import random
import re
import shutil
import subprocess
import sys
import time
import unittest

from .base import LOG, NOTE, OUTSIDE, Campaigns

SQLITE = OUTSIDE / "examples" / "sqlite" / "harness.py"
STATES = """target = "outside"
depth = {depth}
[outside]
label = "sqlite3 EXTRA"
codes = ["corrupt", "half", "lost"]
points = ["sys::open", "sys::read", "sys::write", "sys::fsync", "sys::truncate", "sys::unlink"]
"""
TWO_WRITES = """target = "outside"
depth = 2
[outside]
label = "two writes"
codes = ["torn"]
points = ["sys::open", "sys::write", "sys::fsync", "power::keep"]
"""
WHOLE = """#!/bin/sh
case "$(tr -d '\\0' < a | sed 's/lm$//')" in '' | abcdefg | hijk | abcdefghijk) exit 0 ;; esac
echo torn
exit 1
"""
# After the power cut the note is synced once more.
RECOVERS = """run = ["{0}/note", "unchecked_sync", "young"]
again = "{0}/component open note fsync > $TMPDIR/did"


def prepare():
    with open("note", "w") as note:
        note.write("old")


def judge(said):
    with open("note") as note:
        held = note.read()
    return None if held == "young" or held == "old" and not said else "lost"
"""


class Follows(Campaigns):
    def campaign(self, name, harness, *options, **variables):
        done = self.loop("-j", 2, "--into", self.here / name, *options, harness, **variables)
        self.assertIn(done.status, (0, 1), done.told)
        runs = int(next(line for line in done.told.splitlines() if "runs and" in line).split()[1])
        return sorted(self.answers(self.here / name)), (self.here / name / "report").read_bytes(), runs

    def same(self, harness, *options, **variables):
        """The answers of a campaign that takes what it can from other runs are those of one that takes nothing; runs of both."""
        known, report, runs = self.campaign("known", harness, *options, **variables)
        every, other, all_runs = self.campaign("every", harness, "--every-run", *options, **variables)
        self.assertEqual(known, every)
        self.assertEqual(report, other)
        return runs, all_runs

    def test_kept_writes_two_faults_deep(self):
        runs, all_runs = self.same(NOTE, "--depth", 2, "--no-kinds", FLAW="rename_first")
        self.assertLess(3 * runs, 2 * all_runs)

    def test_recovery_after_the_cut(self):
        runs, all_runs = self.same(LOG, FLAW="full_disk")
        self.assertLess(runs, all_runs)

    def test_what_is_said_between_two_reads(self):
        """No file changes, and a promise is made: a run that ends before the second read has to be told from one that ends before the first."""
        folder = self.harness(prepare="#!/bin/sh\nprintf a > a\n", run="#!/bin/sh\ncat a > \"$TMPDIR/a\"; echo said; cat a > \"$TMPDIR/a\"; : > b; sync .\n",
            judge="#!/bin/sh\n[ ! -s \"$SAID\" ] || [ -e b ] || { echo early; exit 1; }\n")
        self.same(folder)
        ends = [line for line in self.answers(self.here / "known") if line.startswith("fail early\tsys::read=") and "panic" in line]
        self.assertTrue(ends, "before the second read the promise was made, and b isn't there")

    @unittest.skipUnless(shutil.which("sqlite3"), "sqlite3 is not installed")
    def test_four_states_of_sqlite(self):
        settings = self.here / "settings.toml"
        settings.write_text(STATES.format(depth=1))
        runs, all_runs = self.same(SQLITE, "--settings", settings)
        self.assertLess(runs, all_runs)

    def test_after_a_stop_the_rest_follows_too(self):
        """The run without faults is made once more, and not a run for each panic."""
        known, report, runs = self.campaign("known", NOTE, FLAW="unchecked_sync")
        stopped = self.here / "stopped"
        shutil.copytree(self.here / "known", stopped)
        (stopped / "answers").write_text("".join(line + "\n" for line in known if "panic" not in line))
        after, other, few = self.campaign("stopped", NOTE, "-j", 1, FLAW="unchecked_sync")
        self.assertEqual((after, other), (known, report))
        panics = sum("panic" in line for line in known)
        self.assertLess(few, panics + 2)  # with the finding and the run without faults, which are made at the end

    def test_what_follows_is_no_answer_where_every_run_is_asked_for(self):
        """With --every-run it goes on with answers of its own alone."""
        words = ("-j", 2, "--no-kinds", "--into", self.here, NOTE)
        self.assertEqual(self.loop(*words).status, 0)
        done = self.loop("--every-run", *words)
        self.assertEqual(done.status, 0)
        told = f"loop: {self.here}/answers may have answers that were derived from other runs, so it is now {self.here}/answers.1, and this campaign begins anew\n"
        self.assertTrue(done.told.startswith(told), done.told)
        self.assertNotIn(" begins anew\n", self.loop("--every-run", *words).told)
        self.assertEqual(self.loop(*words).status, 0)
        self.assertIn(f" so it is now {self.here}/answers.2, ", self.loop("--every-run", *words).told)

    def test_a_torn_answer_is_taken_back(self):
        known = self.campaign("known", NOTE, FLAW="unchecked_sync")
        torn = self.here / "torn"
        shutil.copytree(self.here / "known", torn)
        lines = (torn / "answers").read_text().splitlines(keepends=True)
        (torn / "answers").write_text("".join(lines[:5]) + lines[5][:9])
        self.assertEqual(self.campaign("torn", NOTE, FLAW="unchecked_sync")[:2], known[:2])

    def test_runs_are_made_again_where_there_is_no_room(self):
        known = self.campaign("known", NOTE, "--depth", 2, FLAW="rename_first")
        small = self.campaign("small", NOTE, "--depth", 2, "--room", "1M", FLAW="rename_first")  # a few runs have room at once
        self.assertEqual(known[:2], small[:2])
        self.assertLess(known[2], small[2])


class Unjudged(Campaigns):
    def judgements(self, name, **more):
        folder = self.harness(run="#!/bin/sh\ndate +%N > log; sync log .; printf new > new && sync new && mv new note && sync . && echo saved\n",
            judge="#!/bin/sh\n[ ! -s \"$SAID\" ] || [ -s note ] || { echo lost; exit 1; }\n", **more)
        done = self.loop("-j", 2, "--no-kinds", "--into", self.here / name, folder)
        self.assertEqual(done.status, 0, done.told)
        shutil.rmtree(folder)
        return int(re.search(r"(\d+) judgements", done.told)[1])

    def test_what_the_judge_does_not_look_into(self):
        """A file with the time makes each state another, but where it is said not to count."""
        self.assertLess(2 * self.judgements("left_out", unjudged="log\n"), self.judgements("all"))


class Torn(Campaigns):
    """What is kept in part is another cut of a run that is known. Of two writes to a file, the second is never synced; it is of two blocks of 8 bytes."""

    steps = {"prepare": "#!/bin/sh\n: > a\n", "run": f"#!/bin/sh\nexec {OUTSIDE}/out/component open a write abcdefg fsync write hijk\n"}

    def campaign(self, folder, *options):
        """With what it told: its answers, and how many runs it took, plans followed, and of these were tried."""
        settings = self.here / "settings.toml"
        settings.write_text(TWO_WRITES)
        done = self.loop("-j", 1, "--settings", settings, "--into", self.here / "into", *options, folder, FAULTS_BLOCK="8")
        answers = sorted(self.answers(self.here / "into"))
        shutil.rmtree(self.here / "into")
        counts = re.search(r"(\d+) runs and \d+ judgements; (\d+) plans were derived from other runs, (\d+) of them were run", done.told)
        return done, answers, [int(count) for count in counts.groups()]

    def test_it_is_found(self):
        done, answers, _ = self.campaign(self.harness(**self.steps, judge=WHOLE))
        self.assertEqual(done.status, 1, done.told)
        kept = "pending change {} (length of a {}) is kept, pending change {} (block {} of a as after write 2) is kept"
        self.assertLessEqual({"fail torn: " + kept.format(*each) for each in ((1, 8, 3, 0), (2, 11, 3, 0), (2, 11, 4, 1))}, set(done.told.splitlines()))
        self.assertIn("1 failure: torn: length of a 11 is kept, block 1 of a as after write 2 is kept\n", done.told)
        self.assertIn("fail torn\tpower::keep=1*return->1*off->1*return\tsys::open;sys::write;sys::fsync;sys::write;3*power::keep", answers)

    def test_it_takes_no_run(self):
        done, answers, (runs, follows, tried) = self.campaign(self.harness(**self.steps, judge="#!/bin/sh\ntrue\n"))
        kept = [answer for answer in answers if "power::keep=" in answer]
        self.assertEqual(done.status, 0, done.told)
        self.assertGreater(len(kept), 0)
        self.assertGreaterEqual(follows, len(kept))
        self.assertLess(runs - tried, len(answers) - len(kept) + 1)

    def test_it_goes_as_a_run_does(self):
        again = f"#!/bin/sh\nexec {OUTSIDE}/out/component stream a a print lm close_stream\n"
        # The component crashes if its stream can't be opened.
        folder = self.harness(**self.steps, again=again, judge=WHOLE, allowed="crashed\n")
        done, known, _ = self.campaign(folder)
        self.assertEqual(known, self.campaign(folder, "--every-run")[1])
        self.assertEqual(done.status, 1, done.told)


class Killed(Campaigns):
    """Campaigns that are killed at moments that nobody knows before, and gone on with. SEED in the environment says which moments these are."""

    def setUp(self):
        super().setUp()
        recovers = self.here / "recovers.py"
        recovers.write_text(RECOVERS.format(OUTSIDE / "out"))
        self.kinds = {"single": (NOTE, "--no-kinds"), "kept": (NOTE, "--depth", 2, "--no-kinds"), "again": (recovers, "--no-kinds")}
        self.flaws = {"single": "unchecked_sync", "kept": "rename_first", "again": ""}

    def report_after_kills(self, kind, name, moments):
        """Of a campaign that is killed so long after each of its beginnings, and then left alone."""
        words = ("-j", 2, "--into", self.here / name, *self.kinds[kind])
        for moment in moments:
            process = self.start(*words, FLAW=self.flaws[kind])
            time.sleep(moment)
            process.kill()
            process.communicate()
        done = self.loop(*words, FLAW=self.flaws[kind])
        self.assertEqual(done.status, 1, done.told)
        scenarios = [line.split("\t")[1] for line in self.answers(self.here / name)]
        self.assertEqual(len(scenarios), len(set(scenarios)), "an answer is there twice")
        return set(self.answers(self.here / name)), (self.here / name / "report").read_bytes()

    def test_thirty_campaigns(self):
        seed = int(os.environ.get("SEED", time.time_ns() % 1000000))
        print(f"campaigns are killed by SEED={seed}", file=sys.stderr)
        moments = random.Random(seed)
        for kind in self.kinds:
            begun = time.monotonic()
            undisturbed = self.report_after_kills(kind, kind, [])
            lasts = time.monotonic() - begun
            for number in range(10):
                kills = [moments.uniform(0, lasts) for _ in range(moments.choice((1, 1, 2)))]
                with self.subTest(kind=kind, number=number, kills=kills, seed=seed):
                    self.assertEqual(self.report_after_kills(kind, f"{kind}{number}", kills), undisturbed)
        self.assertEqual(list(self.here.glob("paklour-*")), [], "a killed campaign's runs are left")

    def test_what_goes_on_where_it_lay_out_runs(self):
        """What a killed campaign began may need a moment to its end, and makes files meanwhile."""
        left = self.noted_folder("paklour-0123abcd", 0o700)
        makes = "each=0; while :; do each=$((each + 1)); : > $each || exit; done 2> ../said"
        with subprocess.Popen(["timeout", "1", "sh", "-c", makes], cwd=left / "00000001"):
            done = self.loop("--into", self.here / "into", NOTE, "--no-kinds")
        self.assertEqual(done.status, 0, done.told)
        self.assertFalse(left.exists())

    def noted_folder(self, name, mode):
        """One with the folder of a run in it, of which a campaign's note says that its runs lie there."""
        folder = self.here / name
        folder.mkdir(mode)
        folder.chmod(mode)
        (folder / "00000001").mkdir()
        shutil.rmtree(self.here / "into", ignore_errors=True)
        (self.here / "into").mkdir()
        (self.here / "into" / "campaign.json").write_text(json.dumps({"harness": {}, "work": str(folder)}))
        return folder

    def test_a_folder_that_the_loop_does_not_make_stays(self):
        """A note may be a stranger's."""
        for name, mode in (("paklour-mine", 0o700), ("paklour-0123abcd", 0o755), ("other", 0o700)):
            with self.subTest(name=name):
                folder = self.noted_folder(name, mode)
                done = self.loop("--into", self.here / "into", NOTE, "--no-kinds")
                self.assertEqual(done.status, 0, done.told)
                self.assertTrue((folder / "00000001").is_dir())


if __name__ == "__main__":
    unittest.main()
