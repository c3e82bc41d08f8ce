"""A budget: the report is whole to a depth, and plans of the next one are drawn by the seed."""

import re
import unittest

from .base import NOTE, Campaigns

SLOW = """#!/bin/sh
sleep 0.3 && printf new > note && sync note . && echo saved
"""
# Two ways to keep something: only if both fail is nothing there.
TWO_WAYS = """#!/bin/sh
{ mkdir a || ln -s x b; } 2> /dev/null
sync . && echo kept
"""
NEEDS_ONE = """#!/bin/sh
[ ! -s "$SAID" ] || [ -d a ] || [ -L b ] || { echo lost; exit 1; }
"""


class Budgets(Campaigns):
    def drawn(self, into, *options):
        done = self.loop("-j", 1, "--no-kinds", "--every-run", *options, "--into", self.here / into, self.here / "harness")
        return done, [line.split("\t")[1] for line in self.answers(self.here / into)]

    def report(self, folder):
        return (self.here / folder / "report").read_text()

    def test_a_report_to_the_depth_that_is_whole_and_a_sample_of_the_next(self):
        self.harness(run=TWO_WAYS, judge=NEEDS_ONE)
        one, whole = self.drawn("one", "--depth", 1)
        two, every = self.drawn("two", "--depth", 2)
        self.assertEqual((one.status, two.status), (0, 1), one.told + two.told)
        pairs = int(re.search(r"^level 2 (\d+)$", self.report("two"), re.M)[1])
        self.assertGreater(pairs, 3)

        done, few = self.drawn("drawn", "--depth", 2, "--plans", len(whole) + 2)
        self.assertEqual(len(few), len(whole) + 2)
        self.assertEqual(self.report("drawn"), self.report("one"))
        said = f"of the {pairs} plans with 2 faults, 2 were tried, drawn by seed 0: "
        self.assertIn(f"none of {len(whole)} plans fails; {said}", done.told)
        self.assertIn(f'"sample": "O{said[1:]}', (self.here / "drawn" / "page.html").read_text())

        done, no_more = self.drawn("drawn", "--depth", 2, "--plans", len(whole) + 2)
        self.assertEqual((done.status, no_more), (0, few), "what is spent tries nothing more")
        again, same = self.drawn("again", "--depth", 2, "--plans", len(whole) + 2)
        self.assertEqual((again.status, same), (done.status, few), "the same plans are drawn")
        more, all_pairs = self.drawn("drawn", "--depth", 2, "--plans", len(whole) + pairs)
        self.assertEqual((more.status, all_pairs[:len(few)]), (1, few), "a larger budget goes on, and a failure that was drawn fails")
        self.assertIn(f"of the {pairs} plans with 2 faults, {pairs} were tried, drawn by seed 0: 1 of them fails", more.told)
        self.assertIn("fail lost: the 1st sys::mkdir (a) fails, the 1st sys::symlink (b) fails", more.told)

        last, rest = self.drawn("drawn", "--depth", 2)
        self.assertEqual((last.status, self.report("drawn"), set(rest)), (1, self.report("two"), set(every) | set(whole)))

    def test_if_not_even_one_fault_was_tried_whole_that_is_no_pass(self):
        self.harness(run=TWO_WAYS, judge=NEEDS_ONE)
        done, few = self.drawn("into", "--plans", 4)
        self.assertEqual((done.status, len(few)), (5, 4), done.told)
        self.assertRegex(done.told, r"depth 1 isn't whole: none of 4 plans that were tried fails; of the \d+ plans with 1 fault, 3 were tried, drawn by seed 0: none of them fails")
        self.assertRegex(done.out, r"answered 4 of \d+ known\n")
        self.assertFalse((self.here / "into" / "report").exists())

    def test_a_share_says_that_its_budget_is_spent(self):
        self.harness(run=TWO_WAYS, judge=NEEDS_ONE)
        done, few = self.drawn("into", "--shard", "1/2", "--plans", 2)
        self.assertEqual(len(few), 2, done.told)
        self.assertRegex(done.told, r"loop: the budget is spent: of the \d+ plans with 1 fault, 1 were tried, drawn by seed 0: none of them fails, of this share; "
            "the same command goes on with the rest\n$")

    def test_time(self):
        self.harness(run=SLOW, judge="#!/bin/sh\n")
        done, few = self.drawn("into", "--for", "1s")
        self.assertEqual(done.status, 5, done.told)
        self.assertIn(f"depth 1 isn't whole: none of {len(few)} plan", done.told)
        self.assertLess(len(few), 6)

    def test_what_is_no_budget_is_refused(self):
        for words, says in ((("--for", "10"), "--for 10: this is no time such as 90s, 10m or 2h"), (("--for", "0m"), "--for 0m: this is no time such as 90s, 10m or 2h"),
                (("--plans", "0"), "--plans 0: this is no whole number from 1 on")):
            self.assertIn(f"loop: {says}", self.loop(*words, NOTE).told)
        own = self.here / "own.toml"
        own.write_text('target = "outside"\n[outside]\nlabel = "x"\ncodes = ["lost"]\npoints = ["sys::write"]\nhits = [1]\n')
        done = self.loop("--plans", 3, "--settings", own, "--into", self.here / "own", NOTE)
        self.assertEqual((done.status, done.told), (2, f"loop: {own} has no depth, and a budget is for plans that grow: give it one\n"))


if __name__ == "__main__":
    unittest.main()
