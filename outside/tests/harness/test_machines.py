"""A campaign that goes over machines: shares that are grown apart come together to what one machine says."""

import os
import shlex
import shutil
import subprocess
import sys
import unittest

from .base import LOOP, NOTE, OUTSIDE, Campaigns

sys.path.insert(0, str(OUTSIDE))

from harness.scenario import points_of  # noqa: E402
from harness.shard import Shard, first_place  # noqa: E402

WORDS = ("-j", 2, "--depth", 2)
# As ssh does: goes to a machine, which is a folder here, and runs a command there.
ENTERS = """#!/bin/bash
while [ "$1" = -l ] || [ "$1" = -p ]; do shift 2; done
machine=$1
shift
[ "$1" != -- ] || shift
cd "${0%/*}/../$machine" && SHELL=/bin/bash exec bash -c "$*"
"""


def has_gnu_parallel() -> bool:
    """Another program has the name too, which takes other words."""
    return bool(shutil.which("parallel")) and "GNU parallel" in subprocess.run(["parallel", "--version"], capture_output=True, text=True, check=False).stdout


class Shares(unittest.TestCase):
    """Of a run without faults that opens, writes twice, syncs."""

    places = {("open", 1): 0, ("write", 1): 1, ("write", 2): 2, ("fsync", 1): 3}

    def test_which_fault_acts_first(self):
        for text, place in {"write=1*return": 1, "write=1*off->1*panic": 2, "fsync=1*return;write=1*off->1*return": 2, "write=1*off->return": 2,
                "power::keep=1*return": 0, "fsync=1*return;power::keep=2*return": 3, "write=4*off->1*return;open=1*return": 0, "a=50%return": 0}.items():
            self.assertEqual(first_place(text, self.places), place, text)

    def test_each_plan_has_one(self):
        shares = [Shard(number, 3) for number in (1, 2, 3)]
        self.assertEqual([share.has("fsync=1*return", self.places) for share in shares], [True, False, False])
        self.assertEqual([share.has("write=1*return", self.places) for share in shares], [False, True, False])
        self.assertTrue(all(share.has("none", self.places) for share in shares))

    def test_each_plan_has_one_where_no_hits_are_told(self):
        plans = [f"fsync={number}*return" for number in range(1, 30)]
        counts = [sum(Shard(number, 3).has(plan, {}) for plan in plans) for number in (1, 2, 3)]
        self.assertEqual(sum(counts), len(plans))
        self.assertTrue(all(counts), counts)

    def test_points_of_an_answer(self):
        self.assertEqual(points_of("open;2*write;fsync"), ["open", "write", "write", "fsync"])
        self.assertEqual((points_of("-"), points_of("")), ([], []))


class Machines(Campaigns):
    def setUp(self):
        super().setUp()
        self.environment["FLAW"] = "rename_first"

    def whole(self):
        self.assertEqual(self.loop(*WORDS, "--into", self.here / "whole", NOTE).status, 1)
        return set(self.answers(self.here / "whole")), (self.here / "whole" / "report").read_bytes()

    def joined(self, parts):
        done = self.loop(*WORDS, "--join", parts, "--into", self.here / "joined", NOTE)
        self.assertEqual(done.status, 1, done.told)
        self.assertIn("; 0 plans were derived", done.told)
        return set(self.answers(self.here / "joined")), (self.here / "joined" / "report").read_bytes()

    def test_three_shares(self):
        parts = self.here / "parts"
        parts.mkdir()
        for number in (1, 2, 3):
            done = self.loop(*WORDS, "--shard", f"{number}/3", "--into", parts / str(number), NOTE)
            self.assertEqual((done.status, done.out), (1 if "fail " in done.told else 0, ""))
        answers = [set(self.answers(parts / str(number))) for number in (1, 2, 3)]
        common = [answers[first] & answers[other] for first, other in ((0, 1), (0, 2), (1, 2))]
        self.assertEqual([len(each) for each in common], [1, 1, 1], "all have the run without faults, and nothing else")
        self.assertEqual(self.joined(parts), self.whole())

    def test_a_machine_that_is_gone(self):
        """Whoever joins the others does its share."""
        parts = self.here / "parts"
        parts.mkdir()
        self.loop(*WORDS, "--shard", "2/2", "--into", parts / "2", NOTE)
        done = self.loop(*WORDS, "--join", parts, "--into", self.here / "joined", NOTE)
        self.assertEqual((set(self.answers(self.here / "joined")), (self.here / "joined" / "report").read_bytes()), self.whole())
        self.assertNotIn("; 0 plans were derived", done.told)

    def test_a_run_without_faults_that_fails(self):
        """Each machine says so, and who joins them."""
        parts = self.here / "parts"
        parts.mkdir()
        for words in (("--shard", "1/2", "--into", parts / "1"), ("--shard", "2/2", "--into", parts / "2"), ("--join", parts, "--into", self.here / "joined")):
            done = self.loop(*WORDS, *words, NOTE, FLAW="no_folder_sync")
            self.assertEqual((done.status, done.out), (1, ""))
            self.assertIn("\nfail lost: without any fault\n", done.told)
        self.assertFalse((self.here / "joined" / "report").exists())

    def test_shares_of_another_harness(self):
        parts = self.here / "parts"
        (parts / "1").mkdir(parents=True)
        (parts / "1" / "answers").write_text("pass\tnone\tsys::open\n")
        (parts / "1" / "campaign.json").write_text('{"harness": "another"}\n')
        done = self.loop("--join", parts, "--into", self.here, NOTE)
        self.assertEqual((done.status, done.told), (2, f"loop: {parts}/1/answers belongs to another harness: delete it, and start again\n"))

    def test_a_folder_without_answers(self):
        done = self.loop("--join", self.here / "parts", "--into", self.here, NOTE)
        self.assertEqual((done.status, done.told), (2, f"loop: no folder in {self.here}/parts has a file answers\n"))

    def test_a_line_that_is_no_answer_of_a_harness(self):
        self.whole()
        parts = self.here / "parts"
        shutil.copytree(self.here / "whole", parts / "1")
        for line, told in (("pass", "loop: this line of the answers has no scenario: pass\n"), ("pass\tnone", "answers: line 1: no hits")):
            (parts / "1" / "answers").write_text(f"{line}\n")
            done = self.loop(*WORDS, "--join", parts, "--into", self.here / "joined", NOTE)
            self.assertEqual(done.status, 2)
            self.assertIn(told, done.told)

    def test_shares_that_say_otherwise(self):
        self.whole()
        parts = self.here / "parts"
        shutil.copytree(self.here / "whole", parts / "1")
        text = (parts / "1" / "answers").read_text()
        (parts / "1" / "answers").write_text(text.replace("fail lost\tsys::fsync=1*return;", "pass\tsys::fsync=1*return;"))
        done = self.loop(*WORDS, "--join", parts, "--into", self.here / "whole", NOTE)
        self.assertEqual(done.status, 5)
        self.assertIn(f"loop: {self.here}/parts/1/answers: the verdict changed from fail lost to pass: sys::fsync=1*return;power::keep=1*return\n", done.told)

    def test_a_share_whose_runs_do_otherwise(self):
        """One answer of two has other hits up to its fault: its run is made here."""
        whole = self.whole()
        parts = self.here / "parts"
        shutil.copytree(self.here / "whole", parts / "1")
        lines = [line for line in self.answers(parts / "1") if line.split("\t")[1] in ("none", "sys::fsync=1*panic")]
        (parts / "1" / "answers").write_text("".join(f"{line}\n" for line in lines).replace("panic\t2*sys::open;", "panic\tsys::read;2*sys::open;"))
        self.assertIn("panic\tsys::read;", (parts / "1" / "answers").read_text())
        done = self.loop(*WORDS, "--join", parts, "--into", self.here / "joined", NOTE)
        self.assertEqual(done.status, 1, done.told)
        self.assertIn(f"loop: {parts}/1/answers: an answer isn't taken over, since its run did otherwise than those before: "
            "hit 1 was sys::open, and now is sys::read: sys::fsync=1*panic\n", done.told)
        self.assertEqual((set(self.answers(self.here / "joined")), (self.here / "joined" / "report").read_bytes()), whole)

    @unittest.skipUnless(has_gnu_parallel(), "GNU parallel is not installed")
    def test_by_gnu_parallel(self):
        """Over two machines, which are folders."""
        for name in ("bin/enters", "first", "second"):
            (self.here / name).mkdir() if "/" not in name else (self.here / name).write_text(ENTERS)
        (self.here / "bin" / "enters").chmod(0o755)
        command = shlex.join([sys.executable, str(LOOP), *map(str, WORDS), "--shard", "{}/4", "--into", "part{}", str(NOTE)])
        machines = [word for name in ("first", "second") for word in ("--sshlogin", f"{self.here}/bin/enters {name}")]
        subprocess.run(["parallel", "--will-cite", "-j", "1", *machines, command, ":::", "1", "2", "3", "4"], env=self.environment, cwd=self.here,
            capture_output=True, check=False)
        did = {name: sorted(os.listdir(self.here / name)) for name in ("first", "second")}
        self.assertEqual(sorted(did["first"] + did["second"]), ["part1", "part2", "part3", "part4"])
        self.assertTrue(all(did.values()), "each has done some")
        (self.here / "parts").mkdir()
        for name in did:
            for part in did[name]:
                (self.here / name / part).rename(self.here / "parts" / part)
        self.assertEqual(self.joined(self.here / "parts"), self.whole())


if __name__ == "__main__":
    unittest.main()
