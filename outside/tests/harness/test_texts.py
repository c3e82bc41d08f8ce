"""Scenarios, hits and digests, by worked examples."""

import os
import signal
import sys
import unittest
from pathlib import Path
from unittest import mock

from .base import OUTSIDE, Campaigns

sys.path.insert(0, str(OUTSIDE))

from harness import tree  # noqa: E402
from harness.answers import Answers, Stopped  # noqa: E402
from harness.definition import Harness  # noqa: E402
from harness.judging import Judgement  # noqa: E402
from harness.outcome import Outcome  # noqa: E402
from harness.records import place_in  # noqa: E402
from harness.scenario import Fault, Scenario, Unreadable, hits_text, scenario_of  # noqa: E402
from harness.settings import Settings  # noqa: E402
from harness.telling import faults_in_words, group_of, ordinal, what  # noqa: E402
from harness.watching import hit_line  # noqa: E402


class Scenarios(unittest.TestCase):
    def test_faults(self):
        faults = [Fault("a", 3, "return(HALF)"), Fault("b", 1, "panic"), Fault("b", 2, "panic")]
        self.assertEqual(Scenario("a=2*off->1*return(HALF);b=2*panic").faults(), faults)
        self.assertEqual(Scenario("none").faults(), [])

    def test_answers_in_order(self):
        scenario = Scenario("a=1*off->1*return->1*off->1*panic")
        self.assertEqual(scenario.answers(["a", "b", "a", "a", "a", "a"]), ["go", "go", "return", "go", "panic", "go"])

    def test_from_then_on(self):
        scenario = Scenario("a=1*off->return")
        self.assertTrue(scenario.is_endless())
        self.assertEqual(scenario.answers("aaa"), ["go", "return", "return"])
        self.assertFalse(Scenario("power::keep=return").is_endless())

    def test_interruptions_in_a_row_are_one(self):
        scenario = Scenario("a=1*off->return(EINTR)")
        self.assertFalse(scenario.is_endless())
        self.assertEqual(scenario.answers("aaba"), ["go", "return(EINTR)", "go", "go"])
        self.assertEqual(scenario.faults(), [Fault("a", 2, "return(EINTR)")])
        scenario = Scenario("a=2*return(EINTR)->1*return(EINTR)->1*return->2*return(EINTR)->return(EINTR)")
        self.assertEqual(scenario.answers("aaaaaaa"), ["return(EINTR)", "go", "go", "return", "return(EINTR)", "go", "go"])
        self.assertEqual(scenario.faults(), [Fault("a", 1, "return(EINTR)"), Fault("a", 4, "return"), Fault("a", 5, "return(EINTR)")])

    def test_shares_are_not_read(self):
        self.assertRaises(Unreadable, Scenario, "a=50%return")

    def test_text_of_faults(self):
        for text in ("none", "a=1*return", "a=2*off->1*return->1*off->1*panic;b=1*return(ENOSPC)"):
            self.assertEqual(scenario_of(Scenario(text).faults()), text)

    def test_hits(self):
        self.assertEqual(hits_text(["a", "b", "b", "a"]), "a;2*b;a")
        self.assertEqual(hits_text([]), "")


class Places(unittest.TestCase):
    """Where a scenario ends a run that is known: open, write, write, fsync, of which the first write failed."""

    points = ["open", "write", "write", "fsync"]
    key = frozenset({Fault("write", 1, "return")})

    def place(self, text):
        return place_in(self.points, self.key, Scenario(text))

    def test_a_panic_is_a_prefix(self):
        self.assertEqual(self.place("write=1*return->1*panic"), 3)
        self.assertEqual(self.place("write=1*return;fsync=1*panic"), 4)

    def test_no_other_fault_is_the_end(self):
        self.assertEqual(self.place("write=1*return;power::keep=1*return"), 5)

    def test_another_run(self):
        self.assertIsNone(self.place("fsync=1*panic"))
        self.assertIsNone(self.place("write=2*return"))
        self.assertIsNone(self.place("write=1*panic"))
        self.assertIsNone(self.place("write=1*return(HALF);fsync=1*panic"))


class Words(unittest.TestCase):
    def test_ordinals(self):
        self.assertEqual([ordinal(number) for number in (1, 2, 3, 4, 11, 12, 21, 112)], ["1st", "2nd", "3rd", "4th", "11th", "12th", "21st", "112th"])

    def test_tasks(self):
        def told(point, *answers):
            return [what(["1", point, "1", answer, "note"]) for answer in answers]

        self.assertEqual(told("sys::write", "return", "return(ENOSPC)", "return(HALF)", "return(KILL)", "return(TERM)", "return(FULL)", "panic"),
            ["fails", "fails with ENOSPC", "does half", "kills its process", "comes with SIGTERM", "finds the disk full", "ends the run"])
        self.assertEqual(told("store::put", "return", "return(ENOSPC)", "return(KILL)", "panic"), ["fails", "returns ENOSPC", "kills its process", "ends the run"])


class TornInWords(unittest.TestCase):
    """A run of one write, at whose end three changes are pending: a new name, and two writes to it."""

    def outcome(self, *hits, scenario="none"):
        """Hits of power::keep, as what they ask and the answer."""
        trace = [["1", "sys::write", "1", "go", "a", "-", "-", "-"]]
        trace += [[str(number + 1), "power::keep", str(number), answer, asked, "-", "-", "-"] for number, (asked, answer) in enumerate(hits, 1)]
        return Outcome(scenario, Judgement("fail torn"), trace)

    def test_one(self):
        told = self.outcome(("2 rename a -> b, and all before it", "go"), ("1 create a", "return"), ("3 length of b 7", "go"))
        self.assertEqual(faults_in_words(told), "pending change 1 (create a) is kept")
        self.assertEqual(group_of(told), ("torn", "create a is kept"))

    def test_all_before_it_and_a_block(self):
        told = self.outcome(("2 rename a -> b, and all before it", "return"), ("3 length of b 7", "go"), ("4 block 0 of b as after write 1", "return"))
        self.assertEqual(faults_in_words(told),
            "pending change 2 (rename a -> b, and all before it) is kept, pending change 4 (block 0 of b as after write 1) is kept")
        self.assertEqual(group_of(told), ("torn", "rename a -> b and all before it are kept, block 0 of b as after write 1 is kept"))

    def test_what_is_undone(self):
        """A change that a sync made last isn't pending, and of a move one end alone may be undone."""
        told = self.outcome(("0 create log, undone", "return"), ("2 rename a -> b, of it b undone", "return"))
        self.assertEqual(faults_in_words(told), "the change (create log) is undone, the change (rename a -> b, of it b) is undone")
        self.assertEqual(group_of(told), ("torn", "create log is undone, rename a -> b, of it b is undone"))

    def test_all_from_then_on(self):
        told = self.outcome(("1 create a", "go"), ("2 length of a 7", "return"), ("3 block 0 of a as after write 1", "return"),
            scenario="power::keep=1*off->return")
        self.assertEqual(faults_in_words(told), "pending change 2 (length of a 7) and each later one is kept")

    def test_what_a_cut_takes_for_nothing(self):
        told = self.outcome(("1 create a", "panic"), ("2 length of a 7", "return"))
        self.assertEqual(faults_in_words(told), "pending change 2 (length of a 7) is kept")
        self.assertEqual(hit_line(told.trace[1]), "    2 power::keep 1 (1 create a) - [panic]")


class Made(Campaigns):
    """Settings that the loop makes keep to what settings may have: 64 codes, and labels of 200 bytes."""

    def settings(self, name):
        with mock.patch("harness.settings.show"):
            return Settings(Harness(name, self.here, {}), self.here, Answers(str(self.here / "answers")), None, None, has_kinds=True)

    def test_a_long_name(self):
        self.assertEqual(self.settings("x" * 250).table["outside"]["label"], "x" * 174 + ", settings by paklour-loop")

    def test_too_many_codes(self):
        settings = self.settings("x")
        for number in range(64):
            settings.take_code(f"fail lost {number}\tnone")
        with self.assertRaisesRegex(Stopped, "^the judge printed the code lost 64, but settings have at most 64 codes: "):
            settings.take_code("fail lost 64\tnone")


class Trees(Campaigns):
    def made(self, name):
        folder = self.here / name
        (folder / "sub").mkdir(parents=True)
        (folder / "one").write_text("1")
        os.link(folder / "one", folder / "sub" / "two")
        os.symlink("one", folder / "link")
        return str(folder)

    def test_a_copy_is_alike(self):
        first = self.made("first")
        tree.copy(first, f"{self.here}/second")
        self.assertEqual(tree.digest(first), tree.digest(f"{self.here}/second"))

    def test_each_difference(self):
        changes = {
            "name": lambda folder: os.rename(f"{folder}/one", f"{folder}/ona"),
            "contents": lambda folder: open(f"{folder}/one", "w").close(),
            "length": lambda folder: os.truncate(f"{folder}/one", 2),
            "mode": lambda folder: os.chmod(f"{folder}/one", 0o600),
            "links": lambda folder: (os.unlink(f"{folder}/one"), tree.shutil.copyfile(f"{folder}/sub/two", f"{folder}/one")),
            "target": lambda folder: (os.unlink(f"{folder}/link"), os.symlink("two", f"{folder}/link")),
            "folder": lambda folder: os.mkdir(f"{folder}/more"),
        }
        before = tree.digest(self.made("before"))
        for name, change in changes.items():
            folder = self.made(name)
            change(folder)
            self.assertNotEqual(tree.digest(folder), before, name)

    def test_what_is_left_out(self):
        folder = self.made("judged")
        one_name, both = [("sub/t*",), ("on?",)], ("sub/t*", "on?")
        before = {patterns: tree.digest(folder, patterns) for patterns in (*one_name, both)}
        Path(folder, "one").write_text("2")
        for patterns in one_name:
            self.assertNotEqual(tree.digest(folder, patterns), before[patterns], "it has another name too")
        self.assertEqual(tree.digest(folder, both), before[both])
        Path(folder, "more").touch()
        self.assertNotEqual(tree.digest(folder, both), before[both])

    def sparse(self, name, length):
        """A file of that length, of which four hundred bytes are there, in two places."""
        folder = self.here / name
        folder.mkdir()
        with open(folder / "large", "wb") as file:
            file.write(b"a" * 200)
            file.seek(length // 4)
            file.write(b"b" * 200)
            file.truncate(length)
        return folder

    def test_holes_are_not_read(self):
        """It takes no time, and would take hours."""
        self.addCleanup(signal.alarm, 0)
        signal.alarm(20)
        before = tree.digest(self.sparse("sparse", 4 << 40))
        with open(self.here / "sparse" / "large", "r+b") as file:
            file.seek((1 << 40) + 199)
            file.write(b"c")
        self.assertNotEqual(tree.digest(self.here / "sparse"), before)

    def test_room_that_nobody_has_written_to(self):
        """A log takes 8 megabytes ahead: no byte of that is copied, and it is the same as zeros that were written."""
        ahead, written = self.here / "ahead", self.here / "written"
        for folder in (ahead, written):
            folder.mkdir()
            (folder / "log").write_text("first")
        with open(ahead / "log", "r+b") as file:
            os.posix_fallocate(file.fileno(), 0, 8 << 20)
        with open(written / "log", "ab") as file:
            file.write(bytes((8 << 20) - len("first")))
        tree.copy(str(ahead), f"{self.here}/copied")
        self.assertLess(tree.size(f"{self.here}/copied"), 1 << 20)
        self.assertEqual(len({tree.digest(f"{self.here}/{name}") for name in ("ahead", "written", "copied")}), 1)

    def test_holes_are_not_copied(self):
        folder = self.sparse("sparse", 100 << 20)
        tree.copy(str(folder), f"{self.here}/copied")
        self.assertEqual(tree.digest(folder), tree.digest(f"{self.here}/copied"))
        self.assertEqual((folder / "large").read_bytes(), (self.here / "copied" / "large").read_bytes())
        self.assertLess(tree.size(f"{self.here}/copied"), 1 << 20)


if __name__ == "__main__":
    unittest.main()
