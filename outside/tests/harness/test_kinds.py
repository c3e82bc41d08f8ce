"""Faults as systems have them, in whole campaigns: what each finds, in programs that survive it and in ones that don't."""

import sys
import unittest

from .base import Campaigns

PYTHON = f"#!{sys.executable} -IS\n"

# Writes its note one byte at a time, by a call that it makes again if it moved nothing.
BY_BYTES = PYTHON + """
import os
new = os.open("new", os.O_WRONLY | os.O_CREAT)
for byte in b"new":
    while not os.write(new, bytes([byte])):
        pass
os.fsync(new)
os.rename("new", "note")
os.fsync(os.open(".", os.O_RDONLY))
print("saved", flush=True)
"""
HAS_NEW = "#!/bin/sh\n[ ! -s \"$SAID\" ] || [ \"$(cat note)\" = new ] || { echo lost; exit 1; }\n"

# Copies its note, which it takes for whole.
READS_ONCE = PYTHON + """
import os
{}
copy = os.open("copy", os.O_WRONLY | os.O_CREAT)
os.write(copy, text)
os.fsync(copy)
print("copied", flush=True)
"""
ONCE = 'text = os.read(os.open("note", os.O_RDONLY), 4096)'
TO_ITS_END = 'text = open("note", "rb").read()'
HAS_COPY = "#!/bin/sh\n[ ! -s \"$SAID\" ] || cmp -s note copy || { echo torn; exit 1; }\n"

# A worker writes an entry of two parts, and is cleaned up after if it ends otherwise than well.
WORKS = PYTHON + """
import os
worker = os.fork()
if not worker:
    log = os.open("log", os.O_WRONLY | os.O_CREAT)
    if os.write(log, b"a") + os.write(log, b"b") != 2:
        os._exit(1)
    os.fsync(log)
    os._exit(0)
status = os.waitpid(worker, 0)[1]
if {}:
    log = os.open("log", os.O_WRONLY | os.O_CREAT | os.O_TRUNC)
    os.fsync(log)
print("ended", flush=True)
"""
HAS_BOTH_OR_NONE = '#!/bin/sh\n[ ! -s "$SAID" ] || case "$(cat log)" in ab | "") ;; *) echo torn; exit 1 ;; esac\n'

# Appends a record. If the disk is full it has a way out.
STORES = PYTHON + """
import os
def write(file, text):
    while text:
        text = text[os.write(file, text):]
log = os.open("log", os.O_RDWR | os.O_APPEND)
kept = os.read(log, 100)
try:
    write(log, b"new")
except OSError:
    os.ftruncate(log, len(kept))
{}
os.fsync(log)
print("stored", flush=True)
"""
DELETES_SPARE = """
    os.unlink("spare")
    write(log, b"new")"""
MAKES_ANOTHER = """
    print("stored", flush=True)
    log = os.open("compact", os.O_WRONLY | os.O_CREAT)
    write(log, kept + b"new")
    os.fsync(log)
    os.rename("compact", "log")"""
PREPARES = "#!/bin/sh\nprintf old > log; echo room > spare\n"
HAS_RECORD = '#!/bin/sh\n[ ! -s "$SAID" ] || [ "$(cat log)" = oldnew ] || { echo lost; exit 1; }\n'

# Saves two notes, and deletes one if it is told to end.
SAVES_TWO = """#!/bin/sh
trap 'rm -f {}; exit 1' TERM
printf new > new && sync new && mv new note && sync . && echo saved
printf more > other && sync other
"""


def settings(depth: int, code: str, **kinds: str) -> str:
    points = ["open", "read", "write", "fsync", "truncate", "rename", "unlink"]
    lines = ['target = "outside"', f"depth = {depth}", "[outside]", 'label = "kinds"', f'codes = ["{code}"]',
        f"points = {[f'sys::{point}' for point in points] + ['power::keep']}", "[outside.kinds]"]
    return "\n".join([*lines, *[f'"sys::{point}" = {tried.split()}' for point, tried in kinds.items()]]) + "\n"


class Kinds(Campaigns):
    def tried(self, folder, scenario, **variables):
        """The verdict of one scenario, and each hit with what its call came to."""
        done = self.loop(folder, "--try", scenario, **variables)
        return done.out.splitlines()[-1], done.out

    def counted(self, folder, *options):
        done = self.loop("-j", 2, *options, folder)
        counts = next(line for line in done.out.splitlines() if line.startswith("counts "))
        return done.status, counts, done.told


class Halves(Kinds):
    def test_one_byte_at_a_time(self):
        """Half of one byte is this byte, so the program comes to its end, however often it is halved."""
        folder = self.harness(run=BY_BYTES, judge=HAS_NEW)
        status, counts, told = self.counted(folder, "--depth", 2)
        self.assertEqual((status, counts.partition(" unresolved ")[2]), (0, "0"), told)

    def test_a_read_of_a_small_file(self):
        """Of three bytes one is read, whatever the buffer has room for."""
        folder = self.harness(prepare="#!/bin/sh\nprintf new > note\n", run=READS_ONCE.format(ONCE), judge=HAS_COPY)
        self.assertEqual(self.tried(folder, "sys::read=1*return(HALF)")[0], "fail torn: the 1st sys::read (note) does half")
        (folder / "settings.toml").write_text(settings(1, "torn", read="return return(HALF) panic"))
        self.assertIn("perhaps nobody reads the rest: the 1st sys::read (note) did half, and `run` ended with 0", self.loop("-j", 2, folder).told)
        (folder / "run").write_text(READS_ONCE.format(TO_ITS_END))
        self.assertTrue(self.tried(folder, "sys::read=1*return(HALF)")[0].startswith("pass"))


class Interruptions(Kinds):
    def test_a_sticky_one_is_that_one(self):
        """Python makes the call again, as often as it takes. A plan that goes on for ever would be ended after some time. It isn't even run."""
        kinds = "return return(EINTR)"
        notes = 'import os\nopen(os.environ["HARNESS"] + "/../runs", "a").write(os.environ["FAILPOINTS"] + "\\n")'
        folder = self.harness(run=BY_BYTES.replace("import os", notes), judge=HAS_NEW, **{"settings.toml": settings(1, "lost", open=kinds, write=kinds)})
        status, counts, told = self.counted(folder, "--seconds", 5)
        self.assertEqual((status, counts.partition(" unresolved ")[2]), (0, "0"), told)
        answers = {scenario: (verdict, hits) for verdict, scenario, hits in (line.split("\t") for line in self.answers(folder))}
        self.assertEqual(answers["sys::write=return(EINTR)"], answers["sys::write=1*return(EINTR)"])
        self.assertEqual(answers["sys::write=1*return(EINTR)"][1].count("4*sys::write"), 1)
        runs = (self.here / "runs").read_text().splitlines()
        self.assertIn("sys::write=1*return(EINTR)", runs)
        self.assertNotIn("sys::write=return(EINTR)", runs)


class Kills(Kinds):
    def campaign(self, looks: str, depth: int):
        kinds = settings(depth, "torn", write="return return(KILL) panic")
        return self.harness(run=WORKS.format(looks), judge=HAS_BOTH_OR_NONE, **{"settings.toml": kinds})

    def test_a_worker_that_is_cleaned_up_after(self):
        status, counts, told = self.counted(self.campaign("status", 1))
        self.assertEqual((status, counts.partition(" unresolved ")[2]), (0, "0"), told)

    def test_one_of_which_only_the_exit_status_is_looked_at(self):
        """Which is 0 if a signal ended it. An error, or the end of all, doesn't show that."""
        folder = self.campaign("os.WEXITSTATUS(status)", 2)
        done = self.loop("-j", 2, folder)
        self.assertIn("\nfail torn: the 2nd sys::write (log) kills its process, all pending changes are kept\n", done.told)
        self.assertEqual((done.status, [line for line in done.out.splitlines() if line.startswith("cause ")][0].split(" ", 2)[2]),
            (1, "torn sys::write=1*off->1*return(KILL)"), done.told)
        self.assertIn("perhaps nobody looks at how a process ended: one was killed at the 2nd sys::write (log), and `run` ended with 0", done.told)


class Terms(Kinds):
    def test_a_program_that_cleans_up(self):
        """It is told to end at the write of the other note, when the first one is promised. The removal is pending then."""
        scenario = "sys::write=1*off->1*return(TERM)"
        folder = self.harness(run=SAVES_TWO.format("new other"), judge=HAS_NEW)
        self.assertTrue(self.tried(folder, scenario)[0].startswith("pass"))
        (folder / "run").write_text(SAVES_TWO.format("note other"))
        self.assertEqual(self.tried(folder, scenario)[0], "fail lost: the 2nd sys::write (other) comes with SIGTERM, the pending changes of names are kept")


class FullDisks(Kinds):
    def store(self, way_out: str):
        kinds = settings(1, "lost", open="return return(FULL) panic", write="return return(FULL) panic")
        return self.harness(prepare=PREPARES, run=STORES.format(way_out), judge=HAS_RECORD, **{"settings.toml": kinds})

    def test_a_store_that_deletes_its_spare_file(self):
        folder = self.store(DELETES_SPARE)
        verdict, shown = self.tried(folder, "sys::write=1*return(FULL)")
        self.assertTrue(verdict.startswith("pass"), shown)
        status, counts, told = self.counted(folder)
        self.assertEqual((status, counts.partition(" unresolved ")[2]), (0, "0"), told)

    def test_a_store_whose_way_out_needs_a_new_file(self):
        """One write that fails doesn't show it: the new file can be made then."""
        folder = self.store(MAKES_ANOTHER)
        self.assertTrue(self.tried(folder, "sys::write=1*return(ENOSPC)")[0].startswith("pass"))
        self.assertEqual(self.tried(folder, "sys::write=1*return(FULL)")[0], "fail lost: the 1st sys::write (log) finds the disk full")


if __name__ == "__main__":
    unittest.main()
