"""The flaws of five small programs, each found at a depth of at most two by the settings that the loop makes: on the disk that is the default if a
file system loses something by it, and otherwise under `posix`. Each sound form passes, and no plan of it is unresolved."""

import shutil
from dataclasses import dataclass

from .base import OUTSIDE, Campaigns

FLAWS = OUTSIDE / "flaws"
OVERTAKEN = """target = "outside"
depth = 1

[outside]
label = "a group commit whose threads overtake"
codes = ["lost"]
points = ["sys::open", "sys::write", "sys::fsync", "order::next"]

[outside.kinds]
"order::next" = ["return"]
"""


@dataclass
class Flaw:
    harness: str
    name: str
    says: str  # what stands behind `fail`
    depth: int = 1
    disk: str = ""  # if no file system loses anything by it, though the letter of the standard allows that


# A torn record is a half that was written before the other half, or a length that is there without its bytes.
HALF = r"the \d.. sys::write \({0}\) does half, the \d.. sys::write \({0}\) .*, all pending changes are kept"
ZEROS = r"the \d.. sys::fsync \({0}\) (fails|ends the run), pending change \d+ \(length of {0} \d+\) is kept"
FOUND = [
    Flaw("queue", "short_write", r"lost: the \d.. sys::write \(queue\) .*does half"),
    Flaw("queue", "retry_sync", r"lost: the \d.. sys::fsync \(queue\)( and each later sys::fsync)? fails"),
    Flaw("queue", "no_folder_sync", "lost: without any fault", disk="posix"),
    Flaw("queue", "torn_taken", "garbage: " + HALF.format("queue"), 2),
    Flaw("queue", "torn_kept", f"lost: ({HALF}|{ZEROS})".format("queue"), 2),
    Flaw("ledger", "short_write", r"lost: the \d.. sys::write \(new\) .*does half"),
    Flaw("ledger", "applied_twice", r"twice: the \d.. sys::(open \(\.\)|fsync \(\.\)|truncate \(log\)) .*"),
    Flaw("ledger", "rename_first", r"unopenable: the \d.. sys::fsync \(merged\) .*, the pending changes of names are kept"),
    Flaw("ledger", "emptied_early", r"lost: the \d.. sys::(open|fsync) \(\.\) (fails|ends the run)"),
    Flaw("ledger", "log_not_named", r"lost: the \d.. sys::\w+ \(\w+\) ends the run", disk="posix"),
    Flaw("ledger", "torn_taken", f"((lost|torn): {HALF}|unopenable: {ZEROS})".format("log"), 2),
    Flaw("server", "unchecked_sync", r"lost: the \d.. sys::fsync \(data\)( and each later sys::fsync)? fails"),
    Flaw("server", "rename_first", r"lost: the \d.. sys::fsync \(data\) .*, the pending changes of names are kept"),
    Flaw("server", "no_folder_sync", "lost: without any fault", disk="posix"),
    Flaw("install", "nothing_synced", "broken: without any fault"),
    Flaw("install", "folders_not_synced", "broken: without any fault"),
    Flaw("install", "removed_first", r"broken: the 1st sys::symlink \(current\) ends the run, all pending changes are kept"),
    Flaw("install", "old_removed_early", r"broken: the \d.. sys::\w+ \([1.]\) .*, pending change \d+ \((unlink 1/part|rmdir 1), alone\) is kept", 2),
    Flaw("commit", "acknowledged_early", r"lost: the \d.. sys::\w+ \((log|\.)\) .*"),
    Flaw("commit", "unchecked_sync", r"lost: the \d.. sys::fsync \(log\)( and each later sys::fsync)? fails"),
]


class Planted(Campaigns):
    def found(self, harness, flaw, depth, disk=""):
        """The first line of a failure, or an empty text where all plans pass. No plan is unresolved."""
        into = self.here / "into"
        done = self.loop("-j", 2, "-x", "--depth", depth, "--into", into, FLAWS / harness, FLAW=flaw, **{"FAULTS_SYNC": disk} if disk else {})
        fails = [line for line in done.told.splitlines() if line.startswith("fail ")]
        self.assertEqual(done.status, 1 if fails else 0, done.told)
        shutil.rmtree(into)
        return fails[0] if fails else ""


class Judged(Planted):
    def each(self, harness, depth_of_sound):
        for flaw in FOUND:
            if flaw.harness == harness:
                with self.subTest(flaw=flaw.name):
                    if flaw.depth > 1 or flaw.disk:
                        self.assertEqual(self.found(harness, flaw.name, 1), "")
                    self.assertRegex(self.found(harness, flaw.name, flaw.depth, flaw.disk), f"^fail {flaw.says}$")
        self.assertEqual(self.found(harness, "sound", depth_of_sound), "")

    def test_a_queue(self):
        self.each("queue", 2)

    def test_a_ledger(self):
        self.each("ledger", 2)

    def test_a_server(self):
        self.each("server", 1)

    def test_an_installer(self):
        self.each("install", 2)

    def test_a_group_commit(self):
        """Its threads wait for one lock, and get it in the same order in each run."""
        self.each("commit", 2)

    def test_a_server_that_appends_to_a_torn_line(self):
        """The server has written half of a word, and is killed before the other half. Recovery keeps that half, and appends the next word to it. A
        campaign of two faults comes to it, and takes too long for every test."""
        torn = "the 2nd sys::write (data) does half, the 3rd sys::write (data) ends the run"
        for flaw, status, last in (("torn_kept", 1, f"fail lost: {torn}, all pending changes are kept"), ("sound", 0, f"pass: {torn}")):
            done = self.loop("--into", self.here / "into", FLAWS / "server", "--try", "sys::write=1*off->1*return(HALF)->1*panic", FLAW=flaw)
            self.assertEqual((done.status, done.out.splitlines()[-1]), (status, last), done.told)

    def test_what_came_meanwhile(self):
        """No order of calls shows it but one in which the second thread writes between the two syncs: settings with `order::next` find it."""
        settings = self.here / "order.toml"
        settings.write_text(OVERTAKEN)
        for flaw, says in (("sound", "^$"), ("counted_late", r"^fail lost: the \d.. order::next \(sys::\w+\) fails$")):
            into = self.here / "into"
            done = self.loop("-j", 2, "-x", "--settings", settings, "--into", into, FLAWS / "commit", FLAW=flaw)
            fails = [line for line in done.told.splitlines() if line.startswith("fail ")]
            self.assertEqual(done.status, 1 if fails else 0, done.told)
            self.assertRegex("".join(fails[:1]), says)
            shutil.rmtree(into)
