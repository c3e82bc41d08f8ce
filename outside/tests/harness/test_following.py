"""Scenarios that are begun as soon as they are known."""

import os
import subprocess
import time
from pathlib import Path

from harness.answers import Answers
from harness.following import Following
from harness.outcome import Outcome
from harness.workers import Workers

from .base import NOTE, PROGRAM, Campaigns

FOLLOWS = b"--follow" in subprocess.run([PROGRAM, "help", "asks"], stdin=subprocess.DEVNULL, stdout=subprocess.PIPE, check=True).stdout

SETTINGS = """target = "outside"
depth = 2
[outside]
label = "two hits"
codes = ["lost"]
points = ["a"]
"""

# Hits a point twice. SLOW is the scenario whose run goes on until the run of two faults has begun, or until this takes too long.
TRY = """#!/usr/bin/env python3
import os, sys, time
scenario, log = sys.argv[1], os.environ["LOG"]

def note(what):
    with open(log, "a") as file:
        print(what, scenario, file=file)

def expanded(term):
    count, star, task = term.rpartition("*")
    return [task] * (int(count) if star else 2)

def tasks(text):
    terms = [term for term in text.partition("=")[2].split("->") if term]
    return ([task for term in terms for task in expanded(term)] + ["off"] * 2)[:2]

def has_two(text):
    return "off" not in tasks(text)

note("begin")
until = time.monotonic() + float(os.environ["WAITS"])
while scenario == os.environ["SLOW"] and time.monotonic() < until:
    if any(has_two(line.split(" ", 1)[1].strip()) for line in open(log)):
        break
    time.sleep(0.01)
note("end")
hits = 1 if tasks(scenario)[0] == "panic" else 2
print("pass", scenario, "a" if hits == 1 else "2*a", sep="\\t")
"""
SLOW = "a=1*off->1*panic"
TWO_FAULTS = ["a=1*return->1*return", "a=1*return->1*panic"]


class Scripts(Campaigns):
    def setUp(self):
        super().setUp()
        (self.here / "settings.toml").write_text(SETTINGS)
        (self.here / "try").write_text(TRY)
        (self.here / "try").chmod(0o755)
        self.environment |= {"LOG": str(self.here / "log"), "SLOW": SLOW, "WAITS": "20", "PAKLOUR": str(PROGRAM)}

    def follow(self) -> None:
        """Has the loop call a program that follows answers."""
        if not FOLLOWS:
            (self.here / "bin" / "paklour").unlink()
            os.symlink(Path(__file__).with_name("follower"), self.here / "bin" / "paklour")

    def script(self, jobs: int = 2, **variables):
        return self.loop("-j", jobs, "--script", self.here / "try", self.here / "settings.toml", self.here / "answers", **variables)

    def log(self) -> list[str]:
        return (self.here / "log").read_text().splitlines()

    def scenarios(self) -> list[str]:
        return sorted(line.split("\t")[1] for line in (self.here / "answers").read_text().splitlines())


class Follows(Scripts):
    def test_the_next_level_begins_before_a_level_ends(self):
        self.follow()
        done = self.script()
        self.assertEqual(done.status, 0, done.told)
        log = self.log()
        self.assertLess(min(log.index(f"begin {text}") for text in TWO_FAULTS), log.index(f"end {SLOW}"))
        self.assertEqual(self.scenarios(), sorted({*self.scenarios()}), "each is run once")

    def test_an_older_program_goes_round_by_round(self):
        if FOLLOWS:
            self.skipTest("this program follows answers")
        self.assertEqual(self.script(WAITS="0.3").status, 0)
        log = self.log()
        self.assertGreater(min(log.index(f"begin {text}") for text in TWO_FAULTS), log.index(f"end {SLOW}"))

    def test_one_worker_goes_round_by_round(self):
        self.follow()
        looks = self.here / "looks"
        self.assertEqual(self.script(jobs=1, WAITS="0.1", LOOKS=str(looks)).status, 0)
        self.assertFalse(looks.exists())

    def test_both_ways_come_to_the_same(self):
        rounds = self.script(jobs=1, WAITS="0")
        scenarios = self.scenarios()
        (self.here / "answers").unlink()
        self.follow()
        followed = self.script(jobs=3)
        self.assertEqual((followed.status, followed.out, self.scenarios()), (rounds.status, rounds.out, scenarios))

    def test_a_harness_comes_to_the_same_both_ways(self):
        flaws = {"sound": 0, "rename_first": 1}
        reports = {}
        for jobs in (1, 3):
            for flaw in flaws:
                done = self.loop("-j", jobs, "--depth", 2, "--into", self.here / f"{flaw}{jobs}", NOTE, FLAW=flaw)
                reports[flaw, jobs] = done.status, done.out
            self.follow()
        for flaw, status in flaws.items():
            self.assertEqual(reports[flaw, 1][0], status)
            self.assertEqual(reports[flaw, 3], reports[flaw, 1])

    def test_a_loop_that_was_stopped_goes_on(self):
        whole = self.script(jobs=1, WAITS="0").out
        lines = (self.here / "answers").read_text().splitlines(keepends=True)
        self.follow()
        for count in range(len(lines)):
            (self.here / "answers").write_text("".join(lines[:count]))
            (self.here / "log").unlink()
            done = self.script(WAITS="0")
            self.assertEqual((done.status, done.out), (0, whole), done.told)
            self.assertEqual(len(self.scenarios()), len(lines))
            self.assertEqual(len([line for line in self.log() if line.startswith("begin")]), len(lines) - count)

    def test_a_refused_answer_ends_the_campaign(self):
        self.follow()
        (self.here / "try").write_text(TRY.replace('print("pass"', 'print("passes" if scenario == "a=1*return" else "pass"'))
        done = self.script(WAITS="0")
        self.assertEqual(done.status, 2)
        self.assertIn("answers: line ", done.told)

    def test_a_script_that_answers_another_scenario_is_stopped(self):
        self.follow()
        (self.here / "try").write_text(TRY.replace('scenario, "a" if hits == 1', 'scenario if scenario == "none" else "b=off", "a" if scenario == "another"'))
        done = self.script(WAITS="0")
        self.assertEqual(done.status, 2)
        self.assertIn("answers other scenarios than those that it was given", done.told)


class PassedOn(Scripts):
    def test_answers_are_kept_back_until_they_have_grown(self):
        """Of 800 bytes an eighth is 100."""
        program = self.here / "bin" / "paklour"
        program.unlink()
        program.write_text(f"#!/bin/sh\nexec cat > {self.here}/got\n")
        program.chmod(0o755)
        (self.here / "answers").write_text(("pass\tnone\t" + "a" * 69 + "\n") * 10)
        path, os.environ["PATH"] = os.environ["PATH"], self.environment["PATH"]
        self.addCleanup(os.environ.__setitem__, "PATH", path)
        following = Following(str(self.here / "settings.toml"), Answers(str(self.here / "answers")), [])
        self.addCleanup(following.process.stdout.close)
        self.addCleanup(following.end)
        following.tell("x" * 98, at_once=False)
        following.tell("y" * 9, at_once=False)
        following.tell("z" * 9, at_once=False)
        following.tell("at once", at_once=True)
        following.finish()
        following.process.wait(20)
        got = (self.here / "got").read_text()
        self.assertEqual(len(got), 800 + 99 + 10 + 10 + 8)

    def test_workers_take_what_comes_while_they_work(self):
        class Decider:
            def base_of(self, text):
                return None

            def decide(self, text):
                return Outcome(text, None, [])

        def more():
            yield ["b", "c"]
            time.sleep(0.05)
            yield ["d"]

        workers = Workers(Decider(), 2)
        self.assertEqual(sorted(outcome.scenario for outcome in workers.decided(["a"], more())), ["a", "b", "c", "d"])
