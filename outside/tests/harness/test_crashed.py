"""Failures of any program, whatever its judge says: a process crashes, or the run hangs after a fault."""

import shutil
import unittest

from .base import Campaigns

TRUE = "#!/bin/sh\ntrue\n"
# Goes on by this command if the first open fails.
FAILS = "#!/bin/sh\ntouch a || {{ {}; }}\ntouch b; touch c; echo done\n"
ABORTS = "echo broken >&2; kill -ABRT $$"
HANGS = "sleep 60"
# Stands for the supervisor, which notes after how many hits it saw a process end by a signal: here after the first of three.
NOTED = 'printf "1\\tSIGSEGV\\tworker\\n" > "$FAULTS_RUN/crashes"'
SETTINGS = 'target = "outside"\ndepth = 1\n[outside]\nlabel = "x"\ncodes = ["lost"]\npoints = ["sys::open"]\n'
FIRST = "sys::open=1*return"


class FirstFails(Campaigns):
    def campaign(self, command: str, *options, status: int = 1, judge: str = TRUE, **more):
        """What was told, and the verdict of each scenario."""
        shutil.rmtree(self.here / "harness", ignore_errors=True)
        folder = self.harness(run=FAILS.format(command), judge=judge, **more)
        done = self.loop("-j", 2, "--no-kinds", "--seconds", 1, *options, folder)
        self.assertEqual(done.status, status, done.told)
        return done, {scenario: verdict for verdict, scenario, _ in (line.split("\t") for line in self.answers(folder))}


class Crashed(FirstFails):
    def test_a_process_that_ends_by_a_signal(self):
        done, verdicts = self.campaign(ABORTS)
        self.assertIn("\nfail crashed: the 1st sys::open (a) fails (SIGABRT, run)\n", done.told)
        self.assertEqual({scenario for scenario, verdict in verdicts.items() if verdict == "fail crashed"}, {FIRST})
        self.assertIn('codes = ["crashed"]', (self.here / "harness" / "settings.toml").read_text())

    def test_what_the_judge_says_comes_first(self):
        _, verdicts = self.campaign("echo promised; " + ABORTS, judge='#!/bin/sh\n! grep -qx promised "$SAID" || { echo lost; exit 1; }\n')
        self.assertEqual(verdicts[FIRST], "fail lost")

    def test_a_program_that_may_crash(self):
        for more in ({"allowed": "crashed\n"}, {"harness.py": 'allowed = ["crashed", "hung"]\n'}):
            _, verdicts = self.campaign(ABORTS, status=0, **more)
            self.assertEqual(set(verdicts.values()), {"pass"})

    def test_one_that_the_supervisor_noted(self):
        """A run that ends before the crash was seen has none, whether it was run or derived."""
        done, verdicts = self.campaign(NOTED, "--depth", 2)
        self.assertIn("\nfail crashed: the 1st sys::open (a) fails (SIGSEGV, worker)\n", done.told)
        self.assertEqual({verdict for scenario, verdict in verdicts.items() if scenario.startswith(FIRST)}, {"fail crashed"})
        self.assertEqual({verdicts[scenario] for scenario in ("none", "sys::open=1*panic", "sys::open=1*off->1*return")}, {"pass"})
        self.assertEqual(self.campaign(NOTED, "--depth", 2, "--every-run")[1], verdicts)

    def test_one_that_is_noted_later_than_a_panic(self):
        """The crash was seen after the second hit: the power that goes at the second hit comes before it, and at the third after it."""
        _, verdicts = self.campaign(NOTED.replace("1\\t", "2\\t"), "--depth", 2)
        self.assertEqual((verdicts[FIRST + "->1*panic"], verdicts[FIRST + "->1*off->1*panic"]), ("pass", "fail crashed"))

    def test_what_a_sanitizer_prints(self):
        for line in ("==7==ERROR: AddressSanitizer: heap-use-after-free", "WARNING: ThreadSanitizer: data race (pid=7)", "a.c:5:3: runtime error: signed overflow"):
            done, verdicts = self.campaign(f"echo '{line}' >&2")
            self.assertEqual(verdicts[FIRST], "fail crashed")
            self.assertIn(f"\nfail crashed: the 1st sys::open (a) fails ({line.removeprefix('==7==')})\n", done.told)

    def test_what_a_judge_or_another_program_prints(self):
        judge = "#!/bin/sh\necho '==7==ERROR: AddressSanitizer: of the judge' >&2\n"
        _, verdicts = self.campaign("echo panic: runtime error: of Go >&2", status=0, judge=judge)
        self.assertEqual(set(verdicts.values()), {"pass"})

    def test_a_recovery_that_crashes(self):
        folder = self.harness(run="#!/bin/sh\ntouch a; echo done\n", again="#!/bin/sh\n[ -e a ] || touch b || kill -SEGV $$\n", judge=TRUE)
        done = self.loop("-j", 2, "--no-kinds", folder)
        self.assertEqual(done.status, 1, done.told)
        self.assertIn("(SIGSEGV, again)\n", done.told)
        (folder / "again").write_text("#!/bin/sh\n: > b; kill -SEGV $$\n")
        (folder / "answers").unlink()
        done = self.loop("-j", 2, "--no-kinds", folder)
        self.assertEqual((done.status, self.answers(folder)), (1, []), done.told)
        self.assertIn("\nfail crashed: without any fault (SIGSEGV, again)\n", done.told)
        self.assertNotIn("FAULTS_SYNC", done.told)

    def test_settings_of_ones_own_that_lack_the_code(self):
        folder = self.harness(run=FAILS.format(ABORTS), judge=TRUE, **{"settings.toml": SETTINGS})
        done = self.loop("-j", 1, folder)
        self.assertEqual((done.status, done.out), (2, ""))
        told = f"loop: a run crashed: add the code crashed to the codes of {folder}/settings.toml, or name it in `allowed` of the harness\n"
        self.assertTrue(done.told.endswith(told), done.told)


class Hung(FirstFails):
    def test_a_run_that_does_not_end(self):
        done, verdicts = self.campaign(HANGS)
        self.assertIn("\nfail hung: the 1st sys::open (a) fails (it was ended after 1 seconds (--seconds))\n", done.told)
        self.assertEqual({scenario for scenario, verdict in verdicts.items() if verdict == "fail hung"}, {FIRST})
        shown = self.loop("--seconds", 1, "--try", FIRST, self.here / "harness")
        self.assertEqual((shown.status, shown.out.splitlines()[-1]), (1, "fail hung: it was ended after 1 seconds (--seconds): the 1st sys::open (a) fails"))

    def test_hits_that_go_on_until_it_is_ended(self):
        """How many there are by then is decided by the clock, and no difference."""
        done, verdicts = self.campaign("while sleep 0.07; do [ -s b ]; cat c; done 2> \"$TMPDIR/told\"", prepare="#!/bin/sh\n: > c\n")
        self.assertEqual(verdicts[FIRST], "fail hung")
        self.assertNotIn("the hits changed", done.told)

    def test_a_program_that_may_hang(self):
        done, verdicts = self.campaign(HANGS, status=5, allowed="hung\n")
        self.assertEqual(verdicts[FIRST], "unresolved")
        self.assertIn(f"\nunresolved: it was ended after 1 seconds (--seconds): {FIRST}\n", done.told)

    def test_a_run_that_grew_from_one_that_hangs(self):
        _, verdicts = self.campaign("touch b; " + HANGS, "--depth", 2)
        self.assertEqual((verdicts[FIRST], verdicts[FIRST + "->1*return"]), ("fail hung", "unresolved"))

    def test_a_recovery_that_does_not_end(self):
        folder = self.harness(run="#!/bin/sh\ntouch a; echo done\n", again="#!/bin/sh\ntouch b || sleep 60\n", judge=TRUE)
        done = self.loop("-j", 2, "--no-kinds", "--seconds", 1, folder)
        self.assertEqual(done.status, 1, done.told)
        self.assertIn("\nfail hung: the 2nd sys::open (b) fails (it was ended after 1 seconds (--seconds))\n", done.told)


class Allowed(Campaigns):
    def test_words_that_mean_nothing(self):
        folder = self.harness(run=FAILS.format("exit"), judge=TRUE, allowed="hungry\n")
        self.assertEqual(self.loop(folder).told, f"loop: {folder}: no such failure: hungry; the failures are crashed, hung\n")


if __name__ == "__main__":
    unittest.main()
