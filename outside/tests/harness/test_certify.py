"""Findings that are tried on real file systems. What these keep and lose is measured in docs/DISKS.md: the expected states are from its tables."""

import ast
import os
import random
import shutil
import subprocess
import sys
import time
import unittest
import xml.etree.ElementTree
from pathlib import Path
from unittest.mock import Mock

from disks.disk import RECORDER, Disk, Unmountable, lacking
from harness.certify import Certificate, Certifier, Wanted, calls_alone, sentences
from harness.definition import PYTHON_FILE
from harness.identity import files_in
from harness.judging import PASS, Judgement
from harness.on_disk import waiting, words_of
from harness.record import Record
from harness.words import Usage, split

from .base import OUTSIDE, Campaigns

FILE_SYSTEMS = ("ext4", "xfs", "btrfs")
LACKING = {name: lacking(name) for name in FILE_SYSTEMS}
NOWHERE = "; ".join(f"{name}: {why}" for name, why in LACKING.items() if why)
CAN_BE_ALONE = not subprocess.run(["unshare", "--user", "--map-root-user", "true"], capture_output=True, check=False).returncode
REPLACE = OUTSIDE / "examples" / "replace"
FAILED_SYNC = "sys::fsync=1*return"
CERTIFIED = f"(Linux {os.uname().release})"

# Renames before it syncs: a power cut between the two may leave an empty note.
RENAMES_FIRST = """#!/bin/sh
printf younger > new && mv new note && sync note && sync . && echo saved
"""
PREPARES = """#!/bin/sh
printf old > note
"""
JUDGES = """#!/bin/sh
case $(cat note) in
old) ! grep -q saved "$SAID" || { echo lost; exit 1; } ;;
younger) ;;
*) echo torn; exit 1 ;;
esac
"""

# All verdicts of what power cuts leave after runs on a disk, each once.
VERDICTS = """
import sys
from harness import definition
from harness.bounds import Bounds
from harness.certify import Certifier, Wanted
from harness.disk import disk_of
from harness.processes import Processes
from harness.records import Records
from harness.room import Room
from harness.run import Runner
from harness.work import Work

harness, file_system, tries, *scenarios = sys.argv[1:]
processes, work = Processes(), Work(None, True, [])
runner = Runner(definition.read(harness), work, processes, Room(disk_of(work.place), 1 << 30, Bounds(60, 1 << 30), Records()))
try:
    runner.prepare()
    certifier = Certifier(runner, work.folder, Wanted((file_system,), tries=int(tries)))
    with certifier.on_disk(file_system) as place:
        print(sorted({judgement.verdict for calls in scenarios for _, _, judgement in certifier.judgements(place, calls)}))
finally:
    processes.end()
    work.end()
"""


class Words(unittest.TestCase):
    def test_what_a_power_cut_keeps_is_left_to_the_disk(self):
        self.assertEqual(calls_alone("sys::fsync=1*return;power::keep=2*off->1*return"), "sys::fsync=1*return")
        self.assertEqual(calls_alone("power::keep=return; sys::open=1*return;sys::write=panic"), "sys::open=1*return;sys::write=panic")
        self.assertEqual(calls_alone("power::keep=1*return"), "none")
        self.assertEqual(calls_alone("none"), "none")

    def test_hits_that_wait(self):
        """What a finding has happen stays, and a call that fails for ever waits nowhere."""
        self.assertEqual(waiting("none", [("sys::open", 1), ("sys::open", 3)]), "sys::open=1*sleep(300)->1*off->1*sleep(300)")
        self.assertEqual(waiting("sys::fsync=1*return", [("sys::fsync", 3), ("sys::rename", 1)]),
            "sys::fsync=1*return->1*off->1*sleep(300);sys::rename=1*sleep(300)")
        self.assertEqual(waiting("sys::fsync=1*off->1*panic", [("sys::fsync", 2)]), "sys::fsync=1*off->1*panic")
        self.assertEqual(waiting("sys::open=6*off->return;sys::write=1*return", [("sys::open", 2), ("sys::write", 1)]), "sys::open=6*off->return;sys::write=1*return")

    def test_what_is_said_of_a_finding(self):
        told = sentences([Certificate("ext4", image=Path("saving/certified/torn.ext4"), tries=2), Certificate("btrfs", tries=40),
            Certificate("xfs", image=Path("saving/certified/torn.xfs"), tries=1)])
        self.assertEqual(told, [f"certified on ext4, xfs {CERTIFIED}", "what ext4 left in try 2: mount -o loop saving/certified/torn.ext4 FOLDER",
            "what xfs left in try 1: mount -o loop,nouuid saving/certified/torn.xfs FOLDER", "not provoked on btrfs in 40 tries"])
        self.assertEqual(sentences([Certificate("xfs", tries=40, unmountable=3)]), ["not provoked on xfs in 40 tries, of whose disks 3 can't be mounted"])
        self.assertEqual(sentences([Certificate("ext4", why_not="no root"), Certificate("xfs", why_not="no mkfs.xfs"), Certificate("btrfs", why_not="no root")]),
            ["not tried on ext4, btrfs: no root", "not tried on xfs: no mkfs.xfs"])
        self.assertEqual(sentences([Certificate("ext4", why_not="judge ended with 3: \x1b[2J")]), ["not tried on ext4: judge ended with 3: \\x1b[2J"])

    def test_file_systems_behind_the_option(self):
        listing = {"--certify": FILE_SYSTEMS}
        self.assertEqual(split(["saving", "--certify", "xfs", "ext4", "--strict"], set(), {"--strict"}, listing=listing),
            ({"--certify": "xfs\next4", "--strict": "yes"}, ["saving"]))
        self.assertEqual(split(["--certify", "saving"], set(), set(), listing=listing), ({"--certify": ""}, ["saving"]))
        with self.assertRaises(Usage):
            split(["--certified", "saving"], set(), set(), listing=listing)


class Files(Campaigns):
    def test_words_that_a_program_wrote(self):
        """By these the recorder knows its data: they aren't what was there before, nor bytes that a line can't have."""
        before, after = self.here / "before", self.here / "after"
        for folder in (before, after):
            (folder / "sub").mkdir(parents=True)
            (folder / "same").write_text("the same words")
        (before / "log").write_bytes(b"first record\n")
        (after / "log").write_bytes(b"first record\nsecond record\n")
        (after / "sub" / "new").write_bytes(b"\0\x01\xff   blanks first\0no")
        (after / "short").write_bytes(b"abc")
        self.assertEqual(sorted(words_of(after, before)), ["blanks first", "second record"])

    def test_an_image_is_kept_whole_and_through_no_link(self):
        """Who may write in the folder doesn't decide where root writes, and what can't be kept whole isn't there."""
        disk = Disk("ext4", None)
        disk.room, disk.lay = str(self.here), Mock()
        (self.here / "laid").write_bytes(b"an image")
        other, image, folder = self.here / "other", self.here / "image", self.here / "folder"
        other.write_text("of somebody else")
        for name in ("image", "image.new"):
            (self.here / name).symlink_to(other)
        disk.keep(str(image), 0, 1.0, random.Random(0))
        self.assertEqual((image.read_bytes(), image.is_symlink(), other.read_text()), (b"an image", False, "of somebody else"))
        folder.mkdir()
        with self.assertRaises(OSError):
            disk.keep(str(folder), 0, 1.0, random.Random(0))
        self.assertEqual([path.name for path in self.here.glob("*.new")], [])

    def test_images_are_no_part_of_the_harness(self):
        """Otherwise its answers would belong to another harness once a finding is certified."""
        (self.here / "certified").mkdir()
        for name in ("run", "certified/lost-0.ext4", PYTHON_FILE):
            (self.here / name).write_text("")
        (self.here / "bin" / "paklour").unlink()
        self.assertEqual(sorted(path.name for path in files_in(self.here, self.here)), [PYTHON_FILE, "run"])


class Unmounted(Campaigns):
    def test_disks_that_cannot_be_mounted_are_counted(self):
        """Nobody judged them, so a finding that wasn't provoked isn't told as if its judge had seen all disks."""
        (self.here / "said").write_bytes(b"")
        place = Mock(disk=Mock(file_system="ext4"), unmountable=0)
        place.run.return_value = Record(self.here, "none", 0, "", [])
        place.cuts.return_value = ["first", "second"]
        place.after.side_effect = [Unmountable("no superblock"), Judgement(PASS)] * 3
        found = Certifier(None, self.here, Wanted(("ext4",), tries=3)).provoked(place, "none", "fail lost")
        self.assertEqual(found, Certificate("ext4", tries=3, unmountable=3))


class Refused(Campaigns):
    @unittest.skipUnless(CAN_BE_ALONE, "no user namespace can be made here")
    def test_without_root(self):
        """The finding is told all the same, and so is what lacks."""
        folder = self.harness(prepare=PREPARES, run=RENAMES_FIRST, judge=JUDGES)
        done = subprocess.run(["unshare", "--user", "--map-root-user", sys.executable, OUTSIDE / "loop", folder, "--try", FAILED_SYNC, "--certify"],
            env=self.environment, capture_output=True, text=True, check=False)
        self.assertEqual((done.returncode, done.stdout.splitlines()[-1]), (1, "  not tried on ext4, xfs, btrfs: no root"), done.stderr)
        self.assertIn("loop: no root: --certify needs root, loop devices, FUSE and the programs of the file system\n", done.stderr)

    def test_what_is_no_file_system(self):
        """Behind the option it is another argument, of which there are too many then."""
        folder = self.harness(prepare=PREPARES, run=RENAMES_FIRST, judge=JUDGES)
        self.assertEqual(self.loop(folder, "--certify", "ext9").status, 2)
        self.assertIn("loop: --certificates 0: this is no whole number from 1 on", self.loop(folder, "--certify", "--certificates", 0).told)


@unittest.skipIf(NOWHERE, f"no disk can be recorded here: {NOWHERE}")
class OnRealDisks(Campaigns):
    def tearDown(self):
        self.assertEqual([line for line in Path("/proc/mounts").read_text().splitlines() if str(self.here) in line], [])
        self.assertNotIn(str(self.here), subprocess.run(["losetup", "--list", "--output", "BACK-FILE"], capture_output=True, text=True, check=True).stdout)
        self.assertEqual([path.name for path in self.here.iterdir() if path.name.startswith(("paklour-", "disks."))], [])

    def in_image(self, image: Path, command: str) -> str:
        """What a command prints in the folder of the data, where an image is mounted as a finding says."""
        script = f'mount -o loop{",nouuid" * (image.suffix == ".xfs")} "$0" "$1" && cd "$1/root/data" && {command}'
        shown = self.here / "shown"
        shown.mkdir(exist_ok=True)
        return subprocess.run(["unshare", "--mount", "sh", "-c", script, image, shown], capture_output=True, text=True, check=True).stdout

    def test_a_program_that_renames_before_it_syncs(self):
        """Where the sync fails there may be the new name without its bytes, on ext4 zeros and on XFS nothing. The image shows it."""
        folder = self.harness(prepare=PREPARES, run=RENAMES_FIRST, judge=JUDGES)
        done = self.loop(folder, "--try", FAILED_SYNC, "--certify", "ext4", "xfs")
        self.assertEqual(done.status, 1, done.told)
        self.assertIn(f"\n  certified on ext4, xfs {CERTIFIED}\n", done.out)
        images = {path.suffix[1:]: path for path in (folder / "certified").iterdir() if path.suffix in (".ext4", ".xfs")}
        self.assertEqual(self.in_image(images["ext4"], "od -An -c note | tr -d ' '"), "\\0" * len("younger") + "\n")
        self.assertEqual(self.in_image(images["xfs"], "cat note"), "")
        for image in images.values():
            self.assertLess(image.stat().st_blocks * 512, 10 << 20)

    def test_a_run_that_fails_without_a_fault(self):
        """It is told at once on which file systems it is so, before the campaign says anything else."""
        folder = self.harness(prepare=PREPARES, run="#!/bin/sh\nprintf younger > note && echo saved\n", judge=JUDGES)
        done = self.loop(folder, "--certify")
        self.assertEqual(done.status, 1, done.told)
        lines = done.told.splitlines()
        at = lines.index(f"  certified on ext4, xfs, btrfs {CERTIFIED}")
        self.assertTrue(lines[at - 1].endswith(": without any fault"), done.told)
        certified = (folder / "certified" / "certificates").read_text().splitlines()
        self.assertEqual(certified[0], f"none\tcertified on ext4, xfs, btrfs {CERTIFIED}")
        again = self.loop(folder)
        self.assertNotIn("belongs to", again.told, "the images are no part of the harness")

    def test_a_campaign(self):
        """Each finding has its sentences beneath its line, as many as were asked for, and scenarios of the same calls share them."""
        folder = self.harness(prepare=PREPARES, run=RENAMES_FIRST, judge=JUDGES)
        done = self.loop("--into", self.here / "into", folder, "--depth", 1, "--junit", "--certify", "ext4", "--certificates", 1)
        self.assertEqual(done.status, 1, done.told)
        lines = done.told.splitlines()
        self.assertIn("loop: 1 of 5 findings and causes are tried on real file systems (--certificates)", lines)
        self.assertIn(f"  certified on ext4 {CERTIFIED}", lines)
        at = lines.index(f"  certified on ext4 {CERTIFIED}")
        self.assertTrue(lines[at - 1].startswith("fail torn: the 3rd sys::open (note) ends the run"), done.told)
        self.assertEqual(len([line for line in lines if line.startswith("  certified")]), 1)
        told = [case.text.splitlines() for case in xml.etree.ElementTree.parse(self.here / "into" / "junit.xml").iter("failure")]
        self.assertEqual([f"certified on ext4 {CERTIFIED}" in text for text in told].count(True), 1)
        self.assertIn(f'"further": ["certified on ext4 {CERTIFIED}", ', (self.here / "into" / "page.html").read_text("utf-8"))

    def test_a_name_that_lasts_by_the_sync_of_its_file(self):
        """By the letter of the standard a new name needs the sync of its folder, and no file system loses it."""
        run = "#!/bin/sh\nprintf new > note && sync note && echo saved\n"
        folder = self.harness(run=run, judge='#!/bin/sh\n[ ! -s "$SAID" ] || [ "$(cat note)" = new ] || { echo lost; exit 1; }\n')
        done = self.loop(folder, "--try", "none", "--certify", "ext4", FAULTS_SYNC="posix")
        self.assertEqual(done.out.splitlines()[-2:], ["fail lost: without any fault", "  not provoked on ext4 in 40 tries"], done.told)

    def verdicts(self, harness: Path, tries: int, *scenarios: str, file_systems=FILE_SYSTEMS, **variables: str) -> list[str]:
        """The verdicts of what power cuts leave on each file system."""
        started = [subprocess.Popen([sys.executable, "-c", VERDICTS, harness, name, str(tries), *scenarios], stdout=subprocess.PIPE, text=True,
            env=self.environment | {"PYTHONPATH": str(OUTSIDE)} | variables) for name in file_systems]
        return [process.communicate()[0].strip() for process in started]

    def test_a_sound_program(self):
        """No power cut of any of the three leaves anything that its judge refuses, also where calls failed before."""
        scenarios = ["none", FAILED_SYNC, "sys::fsync=1*off->1*panic", "sys::rename=1*off->1*return"]
        self.assertEqual(self.verdicts(REPLACE, 10, *scenarios, FLAW="sound", REPLACEMENTS="ne w , mo re"), ["['pass']"] * 3)

    def test_names_up_to_any_of_them(self):
        """Names come in order, and another program's sync may come between any two of them."""
        run = "#!/bin/sh\nfor name in a b c d; do : > $name; done; echo made\n"
        folder = self.harness(run=run, judge='#!/bin/sh\n[ "$(echo ?)" = "?" ] || { echo ? | tr -d " "; exit 1; }\n')
        found = set(ast.literal_eval(self.verdicts(folder, 40, "none", file_systems=["ext4"])[0]))
        self.assertLessEqual(found, {"fail a", "fail ab", "fail abc", "fail abcd", "pass"})
        self.assertGreaterEqual(len(found & {"fail a", "fail ab", "fail abc"}), 2, found)

    def test_a_judge_that_fails_for_another_reason(self):
        """It says nothing of a power cut, as it refuses the file system itself."""
        for name, ends, said in (("code", "echo torn; exit 1", "fail torn"), ("status", "echo no such disk >&2; exit 3", "unresolved: judge ended with 3: no such disk")):
            with self.subTest(name):
                shutil.rmtree(self.here / "harness", ignore_errors=True)
                judge = JUDGES.replace("#!/bin/sh\n", f'#!/bin/sh\n[ "$(stat -f -c %T .)" = tmpfs ] || {{ {ends}; }}\n')
                folder = self.harness(prepare=PREPARES, run=RENAMES_FIRST, judge=judge)
                done = self.loop(folder, "--try", FAILED_SYNC, "--certify", "ext4")
                self.assertEqual(done.out.splitlines()[-1], f"  not tried on ext4: without a fault and a power cut the verdict is {said}")

    def test_a_signal(self):
        """It ends the program that runs on the disk, and then the disk: nothing stays mounted."""
        run = RENAMES_FIRST.replace("printf younger", '[ "$(stat -f -c %T .)" = tmpfs ] || { touch "$HARNESS/../begun"; sleep 50; }; printf younger')
        folder = self.harness(prepare=PREPARES, run=run, judge=JUDGES)
        with self.start(folder, "--try", FAILED_SYNC, "--certify", "btrfs") as process:
            while process.poll() is None and not (self.here / "begun").exists():
                time.sleep(0.01)
            process.terminate()
            out, told = process.communicate(timeout=30)
        self.assertEqual(process.returncode, 143, out + told)
        self.assertIn("loop: stopped by SIGTERM", told)

    def test_recovery_after_the_cut(self):
        """It would need a second power cut, of the disk that the first one left."""
        folder = self.harness(prepare=PREPARES, run="#!/bin/sh\nprintf younger > note && echo saved\n", again="#!/bin/sh\ncat note > seen\n", judge=JUDGES)
        done = self.loop(folder, "--try", "none", "--certify", "xfs")
        self.assertEqual(done.out.splitlines()[-1], "  not tried on xfs: `again` needs a second power cut")
