"""Operations that a harness draws from a seed, each draw a workload and a campaign of its own."""

import shutil

from .base import OUTSIDE, Campaigns

STORE = f"""import os
import random

environment = {{"FLAW": os.environ.get("FLAW", "sound")}}
session = ["{OUTSIDE}/out/keys", environment["FLAW"], "session"]
look = ["{OUTSIDE}/out/keys", environment["FLAW"], "list"]


def operations(seed):
    draws = random.Random(seed)
    for number in range(4):
        yield draws.choice(["put a 1", "del z", "compact"]) if number else "put z 9"
"""
ONE = 'from store import *\n\n\ndef operations(seed):\n    return {drawn}\n'


class Drawn(Campaigns):
    def setUp(self):
        super().setUp()
        self.into = self.here / "into"
        self.file = self.here / "store.py"
        self.file.write_text(STORE)

    def campaign(self, *options, **variables):
        return self.loop("-j", 2, "--no-kinds", "--into", self.into, *options, self.file, **variables)

    def workload(self, seed):
        return (self.into / f"seed-{seed}" / "workload").read_text().splitlines()

    def test_each_seed_has_a_campaign_of_its_own(self):
        done = self.campaign("--workloads", 2)
        self.assertEqual((done.status, done.told.splitlines()[-1]), (0, "none of 2 workloads fails"), done.told)
        self.assertEqual([line for line in done.told.splitlines() if line.startswith("loop: seed")], ["loop: seed 1", "loop: seed 2"])
        self.assertEqual(sorted(path.name for path in self.into.iterdir()), ["seed-1", "seed-2"])
        self.assertEqual(len({tuple(self.workload(seed)) for seed in (1, 2)}), 2)
        self.assertIn('label = "store, seed 2, settings by paklour-loop"', (self.into / "seed-2" / "settings.toml").read_text())

    def test_a_flaw_that_one_of_them_shows(self):
        """The store loses what is put or deleted behind a compaction: the run without faults of such a workload shows it, and of no other."""
        done = self.campaign("--workloads", 5, FLAW="no_folder_sync")
        loses = [seed for seed in range(1, 6) if "compact" in self.workload(seed)[:-1]]
        *_, last = done.told.splitlines()
        self.assertEqual((done.status, last.partition(" of ")[2].partition(" fail")[0]), (1, "5 workloads"), done.told)
        found = [int(seed) for seed in last.partition(": seed ")[2].split(", ")]
        self.assertTrue(found and set(found) <= set(loses) and len(found) < 5, (found, loses))
        again = next(line for line in done.told.splitlines() if line.startswith("again: "))
        self.assertIn(f" --seed {found[0]} --try ", again)
        tried = self.campaign("--seed", found[0], "--try", again.partition(" --try ")[2].strip("'"), FLAW="no_folder_sync")
        self.assertEqual((tried.status, tried.out.count("fail lost: ")), (1, 1), tried.told)

    def test_it_stops_at_the_first_that_fails(self):
        done = self.campaign("-x", "--seed", 5, "--workloads", 3, FLAW="no_folder_sync")
        self.assertEqual((done.status, done.told.splitlines()[-1]), (1, "1 of 1 workload fails: seed 5"), done.told)
        self.assertEqual([path.name for path in self.into.iterdir()], ["seed-5"])

    def test_what_was_drawn_makes_a_harness_of_its_own(self):
        """With the operations in a file `workload`, in place of the generator, the answers are the same."""
        self.campaign("--seed", 4)
        folder = self.harness(session=f'#!/bin/sh\nexec "{OUTSIDE}/out/keys" sound session\n', look=f'#!/bin/sh\nexec "{OUTSIDE}/out/keys" sound list\n')
        shutil.copy(self.into / "seed-4" / "workload", folder)
        done = self.loop("-j", 2, "--no-kinds", folder)
        self.assertEqual(sorted(self.answers(folder)), sorted(self.answers(self.into / "seed-4")), done.told)

    def refused(self, line, *options):
        done = self.campaign(*options)
        self.assertEqual((done.status, done.told), (2, f"loop: {line}\n"))

    def test_what_is_refused(self):
        of_one = "goes by scenarios, which mean nothing without their workload: put the file `workload` of a seed into a harness of its own"
        for words in (("--failing",), ("--shard", "1/2"), ("--join", self.here)):
            self.refused(f"{words[0]} {of_one}", *words)
        self.refused("--try is of one workload: name its seed by --seed", "--workloads", 2, "--try", "none")
        for drawn, line in (("map(str, range(10 ** 9))", "there are 65 operations, and there may be 1 to 64"), ("[]", "there are 0 operations, and there may be 1 to 64"),
                ("[1]", "operation 1 must be a line of up to 200 bytes that isn't empty")):
            (self.here / "one.py").write_text(ONE.format(drawn=drawn))
            self.file = self.here / "one.py"
            self.refused(f"{self.file}, seed 7: {line}", "--seed", 7)
        self.file.write_text('from store import *\n\noperations = "put a 1"\n')
        self.refused(f"{self.file}: operations are a list of lines")
        self.file.write_text('from store import *\n\noperations = ["put a 1"]\n')
        for word in ("--workloads", "--seed"):
            self.refused(f"{word} can be used only with a harness whose `operations` is a function, which draws them from a seed", word, 2)
