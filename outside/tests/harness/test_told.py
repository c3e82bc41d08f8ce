"""What has to be told, and never passes."""

import contextlib
import json
import os
import pty
import re
import shutil
import signal
import subprocess
import sys
import time
import unittest
import xml.etree.ElementTree
from collections import Counter

from harness.telling import in_order

from .base import JUDGES, LOG, LOOP, NOTE, OUTSIDE, SAVES, Campaigns

SETTINGS = """target = "outside"
depth = 1
[outside]
label = "x"
codes = ["lost"]
points = [{}]
"""


class Refused(Campaigns):
    def refused(self, expected, *words, status=2, **variables):
        done = self.loop("-j", 2, *words, **variables)
        self.assertIn(expected, done.told)
        self.assertEqual(done.status, status, done.told)
        self.assertEqual(done.out, "")
        return done

    def test_a_harness_without_judge(self):
        folder = self.harness(run=SAVES)
        self.refused(": `judge` is missing: a harness has a program of this name, or a file of Python that defines it\n", folder)

    def test_a_step_that_can_not_be_run(self):
        folder = self.harness(run=SAVES, judge=JUDGES)
        (folder / "judge").chmod(0o644)
        self.refused(f"judge isn't executable: call chmod +x {folder}/judge\n", folder)

    def test_words_of_the_other_kind(self):
        folder = self.harness(run=SAVES, judge=JUDGES)
        for words in (["--engine", "parallel"], ["--brief"], ["--hits"], ["--no-recheck"]):
            self.refused(f"loop: {words[0]} can be used only with a script\n", *words, folder)
        for words in (["--shard", "1/2"], ["--join", "parts"], ["--try", "none"], ["-x"]):
            self.refused(f"loop: {words[0]} can be used only with a harness\n", *words, "--script", "./try", "settings.toml", "answers")

    def test_settings_that_are_not_there(self):
        folder, settings = self.harness(run=SAVES, judge=JUDGES), self.here / "none.toml"
        self.refused(f"loop: {settings}: No such file or directory\n", "--settings", settings, folder)
        self.refused(f"loop: {settings}: No such file or directory\n", settings, self.here / "answers", "./try")
        settings.write_text("depth = \n")
        self.refused(f"loop: {settings}: Invalid value (at line 1, column 9)\n", "--settings", settings, folder)

    def test_where_nothing_can_be_put(self):
        """A status of 1 would say that a plan fails."""
        folder, file = self.harness(run=SAVES, judge=JUDGES), self.here / "file"
        file.touch()
        self.refused(f"loop: {file}: File exists\n", "--into", file, folder)
        self.refused(f"loop: {file}/into: Not a directory\n", "--into", file / "into", folder)
        (self.here / "into" / "report").mkdir(parents=True)
        self.refused(f"loop: {self.here}/into/report: Is a directory\n", "--no-kinds", "--into", self.here / "into", folder)

    def test_a_scenario_that_can_not_be_read(self):
        done = self.loop("--try", "sys::fsync=1*retrun", self.harness(run=SAVES, judge=JUDGES))
        self.assertEqual((done.status, done.out), (2, "unresolved: faults: scenario: UnknownTask entry 1 term 1: without any fault\n"))

    def test_a_program_that_is_not_seen(self):
        """However often it is asked."""
        folder = self.harness(run="#!/bin/sh\ntrue\n", judge=JUDGES)
        for _ in range(2):
            self.refused("the run without faults is unresolved", folder)
        self.assertEqual(self.answers(folder), [])

    def test_a_file_that_changes_unseen(self):
        folder = self.harness(run="#!/bin/sh\n: > here; sleep 1\n", judge=JUDGES)
        with self.start(folder) as process:
            while not (made := list(self.here.glob("paklour-*/*/data/here"))):
                time.sleep(0.01)
            made[0].write_text("by another")
            _, told = process.communicate()
        self.assertEqual(process.returncode, 2)
        self.assertIn("here", told)

    def test_answers_of_another_harness(self):
        folder = self.harness(run="#!/bin/sh\n: > here; echo here\n", judge="#!/bin/sh\ntrue\n")
        self.assertEqual(self.loop("-j", 2, folder).status, 0)
        before = (folder / "answers").read_bytes()
        for number in (1, 2):
            (folder / "judge").write_text(f"#!/bin/sh\ntrue # changed {number}\n")
            done = self.loop("-j", 2, folder)
            self.assertEqual(done.status, 0)
            self.assertIn(f"loop: {folder}/answers belongs to a harness with another judge, so it is now {folder}/answers.{number}, and this campaign begins anew\n",
                done.told)
            self.assertEqual(sorted((folder / f"answers.{number}").read_bytes().splitlines()), sorted(before.splitlines()))
        self.assertNotIn("answers belongs", self.loop("-j", 2, folder).told, "what was set aside is no part of the harness")

    def test_two_campaigns_in_one_folder(self):
        folder = self.harness(run="#!/bin/sh\nsleep 1; : > here\n", judge="#!/bin/sh\ntrue\n")
        with self.start(folder) as first:
            while not (folder / "answers").exists():
                time.sleep(0.01)
            self.refused("another loop is writing to", folder)
            first.terminate()
            first.communicate()

    def test_a_point_that_no_program_has(self):
        folder = self.harness(run=SAVES, judge=JUDGES)
        (folder / "settings.toml").write_text(SETTINGS.format('"sys::open", "power::write"'))
        self.refused(": power::write: there is no such point; ", folder)

    def test_a_point_of_before(self):
        folder = self.harness(run=SAVES, judge=JUDGES)
        (folder / "settings.toml").write_text(SETTINGS.format('"sys::open", "power::keep", "power::tear"'))
        self.refused(": power::tear: there is no such point; remove it from the points", folder)

    def test_a_code_that_settings_lack(self):
        folder = self.harness(run=SAVES, judge="#!/bin/sh\necho torn\nexit 1\n")
        (folder / "settings.toml").write_text(SETTINGS.format('"sys::open"'))
        self.refused("the judge printed the code torn: add it to the codes of", folder)


class Unresolved(Campaigns):
    def first_line(self, **steps):
        """Behind that which says what settings were made."""
        done = self.loop("-j", 1, "--seconds", 1, "--bytes", "1M", self.harness(**steps))
        self.assertEqual(done.status, 2, done.told)
        return done.told.splitlines()[1]

    def test_a_judge_that_ends_otherwise(self):
        self.assertIn("unresolved: judge ended with 3: why not: none", self.first_line(run=SAVES, judge="#!/bin/sh\necho why not >&2\nexit 3\n"))

    def test_a_judge_that_says_nothing(self):
        self.assertIn("unresolved: judge ended with 9: it wrote nothing to standard error: none", self.first_line(run=SAVES, judge="#!/bin/sh\nexit 9\n"))

    def test_a_run_that_takes_too_long(self):
        self.assertEqual("unresolved: it was ended after 1 seconds (--seconds): none", self.first_line(run="#!/bin/sh\n: > here; sleep 30\n", judge=JUDGES))

    def test_a_run_that_writes_too_much(self):
        line = self.first_line(run="#!/bin/sh\nhead -c 3000000 /dev/zero > here\n", judge=JUDGES)
        self.assertEqual("unresolved: it wrote more than 1048576 bytes (--bytes): none", line)

    def test_a_run_that_says_too_much(self):
        line = self.first_line(run="#!/bin/sh\n: > here; yes | head -c 3000000\n", judge=JUDGES)
        self.assertEqual("unresolved: it wrote more than 1048576 bytes (--bytes): none", line)

    def test_a_recovery_that_hits_too_often(self):
        """It writes again for ever, and ends long before its time is up."""
        again = (f"#!{sys.executable} -S\nimport os\nfile = os.open('more', os.O_WRONLY)\nwhile True:\n"
                 "    try:\n        os.write(file, b'x')\n        break\n    except OSError:\n        pass\n")
        folder = self.harness(prepare="#!/bin/sh\n: > more\n", run="#!/bin/sh\nprintf a > note\n", again=again, judge="#!/bin/sh\ntrue\n")
        done = self.loop(folder, "--try", "sys::write=1*off->return")
        last = "unresolved: it hit more than 65536 points: the 2nd sys::write (more) and each later sys::write fails"
        self.assertEqual((done.status, done.out.splitlines()[-1]), (0, last), done.told)

    def test_a_recovery_that_writes_too_much(self):
        """Each write takes the place of the one before, and all are noted."""
        again = f"#!{sys.executable} -S\nimport os\nfile = os.open('more', os.O_WRONLY | os.O_CREAT)\nwhile True:\n    os.pwrite(file, bytes(100000), 0)\n"
        folder = self.harness(run="#!/bin/sh\nprintf a > note\n", again=again, judge="#!/bin/sh\ntrue\n")
        done = self.loop("--bytes", "10M", folder, "--try", "none")
        self.assertEqual(done.out.splitlines()[-1], "unresolved: it wrote more than 10485760 bytes (--bytes): without any fault", done.told)

    def test_how_many_for_the_same_reason(self):
        """The judge ends with 3 for what ended early, and with 4 for what ended later."""
        run = "#!/bin/sh\n: > begun && sync . && echo begun && " + SAVES.removeprefix("#!/bin/sh\n")
        judge = '#!/bin/sh\ncase "$(tail -n 1 "$SAID")" in saved) ;; begun) echo later >&2; exit 4 ;; *) echo early >&2; exit 3 ;; esac\n'
        folder = self.harness(run=run, judge=judge)
        done = self.loop("-j", 1, "--no-kinds", folder)
        self.assertEqual(done.status, 5, done.told)
        lines = done.told.splitlines()
        self.assertRegex(lines.pop(), r"^none of 24 plans fails, and 22 are unresolved; ")
        for why in ("judge ended with 3: early", "judge ended with 4: later"):
            self.assertEqual(sum(line.startswith(f"unresolved: {why}: ") for line in lines), 1, done.told)
        more = [re.fullmatch(r"loop: (\d+) more plans are unresolved for this reason: judge ended with (3: early|4: later)", line) for line in lines[-3:-1]]
        self.assertTrue(all(more), done.told)
        unresolved = sum(answer.startswith("unresolved\t") for answer in self.answers(folder))
        self.assertEqual(sum(int(found[1]) + 1 for found in more), unresolved)

    def test_one_that_is_shown(self):
        folder = self.harness(run="#!/bin/sh\nhead -c 3000000 /dev/zero > here\n", judge=JUDGES)
        done = self.loop("--bytes", "1M", folder, "--try", "none")
        self.assertEqual((done.status, done.out.splitlines()[-1]), (0, "unresolved: it wrote more than 1048576 bytes (--bytes): without any fault"), done.told)

    def test_statuses_by_which_others_say_something(self):
        """Where a call fails `run` ends with the status by which a shell says that a program isn't there, or `timeout` that the time was up."""
        for status in (124, 125, 127):
            folder = self.harness(run=f"#!/bin/sh\ntouch here || exit {status}\necho done\n", judge="#!/bin/sh\ntrue\n")
            done = self.loop("-j", 1, folder)
            self.assertEqual((done.status, [line.split("\t")[0] for line in self.answers(folder)]), (0, ["pass"] * 4), done.told)
            shutil.rmtree(folder)

    def test_what_it_began_is_ended(self):
        folder = self.harness(run=f"#!/bin/sh\n: > here; setsid sleep 77 & echo $! > {self.here}/pid; sleep 30\n", judge=JUDGES)
        self.assertEqual(self.loop("--seconds", 1, folder).status, 2)
        self.assertFalse(os.path.exists(f"/proc/{(self.here / 'pid').read_text().strip()}"))


class NotTheSame(Campaigns):
    def test_a_judge_that_looks_at_something_else(self):
        """Every second judgement says otherwise."""
        count = '#!/bin/sh\necho >> "$HARNESS/count"\n[ $(($(wc -l < "$HARNESS/count") % 2)) -eq 1 ] || { echo even; exit 1; }\n'
        done = self.loop("-j", 1, self.harness(run=SAVES, judge=count))
        self.assertEqual(done.status, 5, done.told)
        self.assertRegex(done.told, "loop: the verdict changed from (pass to fail even|fail even to pass): ")
        self.assertIn("--every-run", done.told)

    def test_what_follows_is_tried(self):
        """A judge that says otherwise the second time that it sees the same: told before the campaign ends."""
        judge = '''#!/bin/sh
what=$(cat "$SAID" $(ls) | cksum; ls)
grep -qxF "$(echo $what)" "$HARNESS/seen" 2> "$TMPDIR/said" && { echo again; exit 1; }
echo $what >> "$HARNESS/seen"
'''
        folder = self.harness(run=SAVES, judge=judge)
        done = self.loop("-j", 1, "--depth", 2, folder)
        self.assertEqual(done.status, 5, done.told)
        self.assertIn("loop: the verdict changed from pass to fail again: ", done.told)
        self.assertTrue((folder / "report").exists())

    def test_a_first_failure_that_does_not_fail_again(self):
        """A judge that doesn't look at where nothing was said, but for the first time."""
        judge = '#!/bin/sh\n[ -s "$SAID" ] || ! mkdir "$HARNESS/seen" 2> "$TMPDIR/said" || { echo once; exit 1; }\n'
        done = self.loop("-j", 2, "-x", "--depth", 2, self.harness(run=SAVES, judge=judge))
        self.assertEqual(done.status, 5, done.told)
        self.assertRegex(done.told, r"\nfail once: .*\n(.*\n)*loop: the verdict changed from fail once to pass: ")

    def test_a_judge_by_the_clock(self):
        """It says otherwise from a second after its first judgement on."""
        judge = '''#!/bin/sh
[ -e "$HARNESS/moment" ] || echo $(($(date +%s%N) + 1000000000)) > "$HARNESS/moment"
sleep 0.3
[ "$(date +%s%N)" -lt "$(cat "$HARNESS/moment")" ] || { echo late; exit 1; }
'''
        done = self.loop("-j", 1, "--depth", 2, self.harness(run=SAVES, judge=judge))
        self.assertEqual(done.status, 5, done.told)
        self.assertIn("loop: the verdict changed from ", done.told)

    def test_a_program_that_does_more_each_time(self):
        run = '#!/bin/sh\necho >> "$HARNESS/count"\nfor each in $(seq $(wc -l < "$HARNESS/count")); do : > "file$each"; done; echo done\n'
        done = self.loop("-j", 1, self.harness(run=run, judge="#!/bin/sh\ntrue\n"))
        self.assertIn(done.status, (2, 5), done.told)
        self.assertRegex(done.told, "hits differ|the hits changed|the verdict changed")

    def test_a_program_that_goes_another_way_the_second_time(self):
        """Two plans are answered by what follows from its first run, and then the third by a run."""
        run = '#!/bin/sh\nmkdir "$HARNESS/begun" 2> "$TMPDIR/said" || mkdir here\n: > file; echo done\n'
        done = self.loop("-j", 1, self.harness(run=run, judge="#!/bin/sh\ntrue\n"))
        self.assertEqual(done.status, 5, done.told)
        self.assertIn("\nunresolved: in 4 runs it did otherwise than the run that it grew from: "
            "hit 1 was sys::open (file), and now is sys::mkdir (here): sys::open=1*return\n", done.told)
        self.assertIn("\nloop: the hits changed from sys::open;power::keep to sys::mkdir;sys::open;2*power::keep: none\n", done.told)


class Shown(Campaigns):
    def test_names_with_control_bytes(self):
        run = "#!/bin/sh\nname=$(printf 'a\\033[2J\\nb\"')\nprintf x > \"$name\"; sync \"$name\"; echo done\n"
        done = self.loop("-j", 1, self.harness(run=run, judge="#!/bin/sh\nprintf 'co\\033de\"\\n'\nexit 1\n"))
        self.assertEqual(done.status, 1)
        self.assertNotIn("\033", done.told)
        self.assertIn('fail co?de"', done.told)

    def test_other_characters_that_control_a_terminal(self):
        """U+009B begins a command of a terminal by itself, and some terminals also take the byte alone for it. No other letter is changed."""
        run = "#!/bin/sh\nname=$(printf 'a\\302\\233b\\233c\\303\\251')\nprintf x > \"$name\"; echo done\n"
        done = self.loop("-j", 1, self.harness(run=run, judge="#!/bin/sh\n[ -s a* ] || { echo lost; exit 1; }\n"))
        self.assertIn("\npending: 1 create a\\x9bb\\x9bc\u00e9\n", done.told)

    def test_letters_of_any_kind(self):
        judge = "#!/bin/sh\n[ ! -s \"$SAID\" ] || exit 0\necho 'lost \U0001f600 \"\\'\nexit 1\n"
        folder = self.harness(run=SAVES, judge=judge).rename(self.here / 'a \U0001f600 "\x7f')
        done = self.loop("-j", 2, "--no-kinds", folder)
        self.assertEqual(done.status, 1, done.told)
        lines = (folder / "report").read_text().splitlines()
        self.assertEqual(lines[0], 'target a \U0001f600 "?, settings by paklour-loop')
        self.assertIn('first 1 lost \U0001f600 "\\', lines)

    def test_what_a_judge_says_with_control_bytes(self):
        done = self.loop("-j", 1, self.harness(run=SAVES, judge="#!/bin/sh\nprintf 'why\\033[2J' >&2\nexit 3\n"))
        self.assertIn("unresolved: judge ended with 3: why\\x1b[2J: none\n", done.told)

    def test_a_judge_that_does_not_look_at_the_data(self):
        """It is told once all plans pass. A run that changes nothing says nothing of its judge."""
        told = "loop: the judge also passes what lay there before the run, though everything was promised: "
        blind = "#!/bin/sh\nexit 0\n"
        for run, judge, is_told in ((SAVES, JUDGES, False), (SAVES, blind, True), ("#!/bin/sh\ncat note\n", blind, False)):
            folder = self.harness(prepare="#!/bin/sh\necho old > note\n", run=run, judge=judge)
            done = self.loop("-j", 2, folder)
            self.assertEqual((done.status, told in done.told), (0, is_told), done.told)
            shutil.rmtree(folder)

    def told_here(self):
        """What the loop says of a harness in the current folder."""
        return subprocess.run([OUTSIDE / "loop", "-j", "2", "harness"], cwd=self.here, env=self.environment, capture_output=True, text=True, check=True).stderr

    def test_files_are_named_as_from_the_current_folder(self):
        folder = self.harness(run=SAVES, judge=JUDGES)
        self.assertTrue(self.told_here().startswith("loop: wrote the settings harness/settings.toml: "))
        (folder / "judge").write_text(JUDGES + "# changed\n")
        self.assertIn("loop: harness/answers belongs to a harness with another judge, so it is now harness/answers.1, and this campaign begins anew\n",
            self.told_here())

    def test_what_a_person_reads(self):
        done = self.loop("-j", 2, "--into", self.here, NOTE, FLAW="unchecked_sync")
        lines = done.told.splitlines()
        self.assertEqual(lines[:2], [f"loop: wrote the settings {self.here}/settings.toml: depth 1, all points of files, what a power cut keeps, full disks and half \
writes; codes are added as the judge prints them", "loop: 14 plans with one fault"], "six hits in two ways, and the write in four")
        self.assertEqual((self.here / "report").read_text().splitlines()[0], "target note, settings by paklour-loop")
        self.assertIn("fail lost: the 1st sys::fsync (new) fails", lines)
        self.assertIn("1 failure: lost: sys::fsync (new) fails", lines)
        self.assertIn("1 failure: lost: sys::fsync (new) fails, sys::fsync (.) fails, the pending changes of names are kept", lines)
        self.assertRegex(lines[-2], rf"^2 of 17 plans fail, in 2 ways; \d+\.\d s; page {self.here}/page.html$")
        self.assertTrue(lines[-1].startswith("again: ") and lines[-1].endswith(f"{NOTE} --into {self.here} --try 'sys::fsync=1*return'"), lines[-1])
        self.assertEqual((self.here / "report").read_text().splitlines()[-2:], ["cause 9 lost sys::fsync=1*return", "cause 16 lost sys::fsync=return"])
        self.assertIn("<html", (self.here / "page.html").read_text())

    def on_terminal(self, folder, **variables):
        """What a terminal gets of a campaign."""
        reader, writer = pty.openpty()
        with subprocess.Popen([sys.executable, LOOP, "-j", "2", folder], env=self.environment | {"TERM": "xterm"} | variables, stdin=subprocess.DEVNULL,
                stdout=subprocess.DEVNULL, stderr=writer) as process:
            os.close(writer)
            told = b""
            with contextlib.suppress(OSError):  # as the end of a terminal is told
                while read := os.read(reader, 65536):
                    told += read
        os.close(reader)
        return process.returncode, told.decode().replace("\r\n", "\n")

    def test_a_report_on_a_terminal(self):
        """The points that no run hits are left out there, and not in a pipe nor in the file."""
        folder = self.harness(run=SAVES, judge=JUDGES)
        whole = self.loop("-j", 2, folder).out.splitlines()
        person, terminal = pty.openpty()
        with open(self.here / "shown", "wb") as shown:
            with subprocess.Popen([sys.executable, LOOP, folder], env=self.environment, stdin=subprocess.DEVNULL, stdout=terminal, stderr=subprocess.DEVNULL):
                os.close(terminal)
                with contextlib.suppress(OSError):  # as the end of a terminal is told
                    while read := os.read(person, 65536):
                        shown.write(read)
        os.close(person)
        unhit = [line for line in whole if line.startswith(("census ", "reached ")) and line.endswith(" 0")]
        self.assertTrue({"census sys::link 0", "reached sys::link 0"} <= set(unhit), whole)
        self.assertEqual((self.here / "shown").read_text().splitlines(), [line for line in whole if line not in unhit])
        self.assertTrue(set(unhit) <= set((folder / "report").read_text().splitlines()))

    def test_a_terminal(self):
        """One line is written over, and the lines that stay are above it."""
        folder = self.harness(run=SAVES.replace("sync new", "{ sync new || true; }"), judge=JUDGES)
        status, told = self.on_terminal(folder)
        self.assertEqual(status, 1, told)
        stays = [line.rpartition("\r\x1b[K")[2] for line in told.rstrip("\n").split("\n")]
        self.assertRegex(told, r"\r\x1b\[K\d+ of \d+ plans answered by \d+ runs, \d+ failing; \d+ s, time left \S+")
        self.assertIn("\x1b[31mfail lost: the 1st sys::fsync (new) fails\x1b[0m", stays)
        self.assertRegex(stays[-2], r"^\x1b\[31m\d+ of \d+ plans fails?, in \d+ ways?; \d+\.\d s; page .*/page.html\x1b\[0m$")
        self.assertRegex(stays[-1], r"^again: ")
        self.assertFalse([line for line in stays if "answered by" in line], "none of these lines stays")

    def test_a_terminal_without_colours_or_without_lines_that_are_written_over(self):
        folder = self.harness(run=SAVES.replace("sync new", "{ sync new || true; }"), judge=JUDGES)
        told = self.on_terminal(folder, NO_COLOR="1")[1]
        self.assertIn("\r\x1b[K", told)
        self.assertNotIn("\x1b[3", told)
        (folder / "answers").unlink()
        told = self.on_terminal(folder, TERM="dumb")[1]
        self.assertNotIn("\x1b", told)
        self.assertRegex(told, r"\nloop: 1 answered, \d+ still to answer, 0 failing, time left unknown\n")

    def test_many_failures_of_a_kind(self):
        """A program that never looks at what a write came to: each of seven fails once, and each but the last also from then on."""
        writes = "import os\nnote = os.open('note', os.O_WRONLY | os.O_CREAT)\nos.fsync(os.open('.', os.O_RDONLY))\nfor _ in range(7):\n" \
            "    try: os.write(note, b'x')\n    except OSError: pass\nos.fsync(note)\nprint('saved')\n"
        folder = self.harness(run=f"#!{sys.executable} -S\n{writes}", judge='#!/bin/sh\n[ ! -s "$SAID" ] || [ "$(cat note)" = xxxxxxx ] || { echo lost; exit 1; }\n')
        done = self.loop("-j", 2, "--no-kinds", folder)
        self.assertEqual(len([line for line in done.told.splitlines() if line.startswith("fail ")]), 10, done.told)
        guess = "  perhaps nobody looks at what a call returns: the 1st sys::write (note) failed, and `run` ended with 0\n" \
            "  mend: look at what each call returns, and if one fails, keep the old data and end with another status than 0 " \
            "(docs/FLAWS.md#a-result-that-isnt-looked-at)\n"
        self.assertIn(f"\n13 failures: lost: sys::write (note) fails\n{guess}loop: 3 more failures like those above: lost: sys::write (note) fails\n", done.told)

    def test_in_which_order_groups_are_told(self):
        """By what they came to, and those with the fewest events first, however many they are."""
        plain, two, many = ("lost", "a fails"), ("lost", "a fails, b fails"), ("corrupt", "a fails, c fails")
        self.assertEqual(in_order(Counter({many: 9, two: 5, plain: 1})), [plain, two, many])

    def test_gaps_in_settings_that_the_loop_made(self):
        """It lists all points of files, so one that no run reaches is none. In settings of one's own it is."""
        folder = self.harness(run=SAVES, judge=JUDGES)
        done = self.loop("-j", 2, "--no-kinds", "--strict", folder)
        self.assertEqual((done.status, "strict: " in done.told), (0, False), done.told)
        (folder / "settings.toml").write_text((folder / "settings.toml").read_text().split("\n", 1)[1])
        done = self.loop("-j", 2, "--strict", folder)
        self.assertEqual((done.status, "\nstrict: no run reaches sys::rmdir\n" in done.told), (5, True), done.told)

    def test_each_depth_has_full_disks_and_half_writes(self):
        """Unless an option leaves them out."""
        folder, into = self.harness(run=SAVES, judge=JUDGES), self.here / "into"
        for words, has_kinds in (([], True), (["--depth", 2], True), (["--depth", 2, "--no-kinds"], False)):
            told = self.loop("-x", *words, "--into", into, folder).told.splitlines()[0]
            self.assertTrue(told.startswith(f"loop: wrote the settings {into}/settings.toml: "), told)
            self.assertEqual((", full disks and half writes" in told, "return(HALF)" in (into / "settings.toml").read_text()), (has_kinds, has_kinds))
            (into / "answers").unlink()

    def test_one_run_leaves_the_settings_as_they_are(self):
        """Those of a campaign. If there are none yet, it makes them."""
        words = ("--into", self.here, NOTE)
        self.assertIn("loop: wrote the settings ", self.loop(*words, "--try", "none").told)
        self.assertEqual(self.loop("-j", 2, "--depth", 2, *words, FLAW="rename_first").status, 1)
        before = (self.here / "settings.toml").read_text()
        done = self.loop(*words, "--try", "sys::fsync=1*return", FLAW="rename_first")
        self.assertNotIn("loop: ", done.told)
        self.assertIn("power::keep 1 (2 rename new -> note, and all before it)", done.out)
        self.assertEqual((self.here / "settings.toml").read_text(), before)
        with open(self.here / "answers", "rb") as answers:
            report = subprocess.run(["paklour", "report", self.here / "settings.toml"], env=self.environment, stdin=answers, capture_output=True, check=False)
        self.assertEqual(report.stdout, (self.here / "report").read_bytes())

    def test_how_it_is_run_again(self):
        settings = self.here / "own.toml"
        settings.write_text(SETTINGS.format('"sys::open", "sys::write", "sys::fsync", "sys::rename"'))
        done = self.loop("-x", "--settings", settings, "--into", self.here, NOTE, FLAW="unchecked_sync")
        self.assertIn(f" {NOTE} --settings {settings} --into {self.here} --try 'sys::fsync=1*return'\n", done.told)

    def test_one_scenario_hit_by_hit(self):
        done = self.loop("--into", self.here, NOTE, "--try", "sys::fsync=1*return", FLAW="unchecked_sync")
        self.assertEqual(done.status, 1)
        self.assertEqual([line.split(maxsplit=1)[1] if line[:5].strip().isdigit() else line.strip() for line in done.out.splitlines()], [
            "sys::open 1 (.) 3", "sys::open 2 (new) 4", "sys::write 1 (new) 5", "sys::fsync 1 (new) fails [return]", "sys::rename 1 (note) 0",
            "sys::fsync 2 (.) 0", "said: saved young", "power::keep 1 (1 length of note 5) -", "pending: 1 length of note 5",
            "pending: 2 block 0 of note as after write 1", "fail lost: the 1st sys::fsync (new) fails"])
        self.assertFalse((self.here / "report").exists())

    def test_what_is_said_after_the_cut(self):
        """The power goes at the sync of the folder, so the name of the log is lost. The recovery makes it anew, and adds a record."""
        done = self.loop("--into", self.here, LOG, "--try", "sys::fsync=1*off->1*panic", FAULTS_SYNC="posix")
        lines = [line.strip() for line in done.out.splitlines()]
        self.assertEqual([line for line in lines if not line[0].isdigit()],
            ["pending: 1 create log", "again begins", "said: added fourth-record", "pass: the 2nd sys::fsync (.) ends the run"])
        begins = lines.index("again begins")
        self.assertEqual((lines[begins - 3], lines[begins + 1]), ("7 sys::fsync 2 (.) ends the run [panic]", "9 sys::open 4 (snap) ENOENT"))
        self.assertEqual(lines[lines.index("said: added fourth-record") - 1].split()[1:], ["sys::fsync", "5", "(log)", "0"])

    def test_a_torn_write_hit_by_hit(self):
        """A record of 22 bytes at 23 is in two blocks of 32 bytes, and the first of these is there."""
        done = self.loop("--into", self.here, LOG, "--try", "power::keep=1*off->2*return", FLAW="torn_taken", FAULTS_BLOCK="32")
        self.assertEqual(done.status, 1)
        lines = [" ".join(line.split()[1:]) for line in done.out.splitlines() if " power::" in line]
        self.assertEqual(lines, ["power::keep 1 (2 length of log 45) -", "power::keep 2 (1 length of log 32) is kept [return]",
            "power::keep 3 (3 block 0 of log as after write 4) is kept [return]"])
        self.assertEqual(done.out.splitlines()[-1],
            "fail lost: pending change 1 (length of log 32) is kept, pending change 3 (block 0 of log as after write 4) is kept")

    def test_it_stops_at_the_second(self):
        done = self.loop("-j", 1, "--failures", 2, "--depth", 2, "--into", self.here, NOTE, FLAW="rename_first")
        self.assertEqual(done.status, 1)
        fails = [line for line in done.told.splitlines() if line.startswith("fail ")]
        self.assertEqual(len(fails), 2)
        self.assertIn("again: ", done.told)
        self.assertFalse((self.here / "report").exists())

    def test_all_forms_in_one_command(self):
        done = self.loop("-j", 2, "--junit", "--json", "--page", "--progress", "--into", self.here, NOTE, FLAW="unchecked_sync")
        self.assertEqual(done.status, 1)
        self.assertEqual(json.loads((self.here / "report.json").read_text())["counts"]["fail"], 2)
        suite = xml.etree.ElementTree.parse(self.here / "junit.xml").getroot()[0]
        self.assertEqual((suite.get("tests"), suite.get("failures")), ("17", "2"))
        self.assertIn("<html", (self.here / "page.html").read_text())
        self.assertRegex(done.told, r"loop: 1 answered, 14 still to answer, 0 failing, time left (unknown|0:00:\d\d)\n")

    def test_which_file_system_a_run_without_faults_trusts(self):
        """A file is renamed, and then only its data are synced; or a name comes after each sync."""
        run = "#!/bin/sh\nprintf new > other && sync other && mv other note && sync -d note && echo saved\n"
        told = self.loop("--into", self.here, self.harness(run=run, judge=JUDGES)).told
        self.assertIn("loop: the run without faults passes if you set FAULTS_SYNC=xfs: as on ext4, and fdatasync also makes a rename last, which ext4 doesn't\n"
            "loop: the run without faults passes if you set FAULTS_SYNC=btrfs: fdatasync makes a rename last, ", told)
        self.assertNotIn("FAULTS_SYNC=ext4", told)
        told = self.loop("--into", self.here / "other", NOTE, FLAW="no_folder_sync").told
        self.assertIn("loop: the run without faults fails with FAULTS_SYNC=ext4 and FAULTS_SYNC=xfs and FAULTS_SYNC=btrfs too: ", told)
        told = self.loop("--into", self.here / "named", NOTE, FLAW="no_folder_sync", FAULTS_SYNC="names").told
        self.assertNotRegex(told, "(set|with) FAULTS_SYNC")
        self.assertIn("\nagain: FAULTS_SYNC=names ", told, "without it the run would be another one")

    def test_a_run_without_faults_that_is_mended(self):
        """It had failed, which ended the campaign, and nothing else was answered."""
        folder = self.harness(run="#!/bin/sh\nprintf new > note && echo saved\n", judge=JUDGES)
        for _ in range(2):
            done = self.loop("-j", 2, "--no-kinds", folder)
            self.assertEqual((done.status, self.answers(folder)), (1, []), done.told)
            self.assertIn("\npending: 1 create note\n", done.told)
        (folder / "run").write_text(SAVES)
        done = self.loop("-j", 2, "--no-kinds", folder)
        self.assertEqual(done.status, 0, done.told)

    def test_it_stops_at_the_first(self):
        done = self.loop("-j", 1, "-x", "--into", self.here, NOTE, FLAW="unchecked_sync")
        self.assertEqual(done.status, 1)
        self.assertFalse((self.here / "report").exists())
        self.assertIn("--try 'sys::fsync=1*return'", done.told)


COUNTED = """target = "outside"
[outside]
label = "x"
codes = ["lost"]
points = ["sys::open"]
hits = [1]
"""


class NobodyReads(Campaigns):
    """Whoever reads what a command writes has seen enough, as `head` has: the command ends as the system ends one for that, and without a word."""

    def ended(self, *words, stream="stdout") -> int:
        """Its status, as a shell has it; to the other stream nothing is written but what the loop tells."""
        reader, writer = os.pipe()
        os.close(reader)
        streams = {"stdout": subprocess.PIPE, "stderr": subprocess.PIPE} | {stream: writer}
        done = subprocess.run([*map(str, words)], env=self.environment, cwd=self.here, text=True, check=False, **streams)
        os.close(writer)
        self.assertNotRegex(done.stderr or "", "Traceback|Broken pipe|Exception")
        return done.returncode if done.returncode >= 0 else 128 - done.returncode

    def test_help(self):
        for name in ("loop", "new", "census", "faults", "powercut"):
            self.assertEqual(self.ended(OUTSIDE / "out" / "bin" / f"paklour-{name}", "--help"), 141, name)

    def test_a_run_that_is_shown(self):
        self.assertEqual(self.ended(LOOP, "--into", self.here, NOTE, "--try", "none"), 141)
        self.assertEqual(list(self.here.glob("paklour-*")), [], "its run is left")

    def test_a_report(self):
        self.assertEqual(self.ended(LOOP, "--into", self.here, NOTE), 141)
        report = (self.here / "report").read_text()
        self.assertEqual(self.loop("--whole", "--into", self.here, NOTE).out, report)

    def test_lines_of_a_campaign(self):
        self.assertEqual(self.ended(LOOP, "--into", self.here, NOTE, stream="stderr"), 141)
        self.assertEqual(self.ended(LOOP, "--no-such-option", stream="stderr"), 141)

    def test_a_report_by_a_script(self):
        (self.here / "try").write_text("#!/bin/sh\nprintf 'pass\\t%s\\n' \"$1\"\n")
        (self.here / "try").chmod(0o755)
        (self.here / "settings.toml").write_text(COUNTED)
        self.assertEqual(self.ended(LOOP, "--script", "./try", "settings.toml", "answers"), 141)
        self.assertEqual(len(self.answers(self.here)), 4)

    def test_a_harness_that_is_new(self):
        self.assertEqual(self.ended(OUTSIDE / "new", "made", "touch", "note"), 141)
        self.assertTrue((self.here / "made" / "run").exists())

    def test_what_is_pending_and_a_census(self):
        script = """mkdir data && "$0"/paklour-powercut begin run data && cd data &&
            FAULTS_ROOT=$PWD FAULTS_RUN=../run FAILPOINTS=none "$0"/paklour-faults sh -c ': > a'"""
        subprocess.run(["sh", "-c", script, OUTSIDE / "out" / "bin"], env=self.environment, cwd=self.here, check=True)
        self.assertEqual(self.ended(OUTSIDE / "out" / "powercut", "pending", "run"), 141)
        for option in ("--points", "--kinds", "--hits"):
            self.assertEqual(self.ended(OUTSIDE / "census", option, "run/trace"), 141, option)

    def test_a_device_that_is_full(self):
        with open("/dev/full", "wb") as full:
            for words in ((LOOP, "--into", self.here, NOTE), (LOOP, "--into", self.here, NOTE, "--try", "none"), (OUTSIDE / "new", "made", "touch", "note")):
                done = subprocess.run(words, env=self.environment, cwd=self.here, stdout=full, stderr=subprocess.PIPE, text=True, check=False)
                self.assertEqual((done.returncode, done.stderr.splitlines()[-1]), (4, f"{words[0].name}: standard output: No space left on device"))


class Stopped(Campaigns):
    def stopped(self, number):
        """A campaign that got this signal while a run was made, which had begun something in a session of its own."""
        folder = self.harness(run=f"#!/bin/sh\n: > here; setsid sleep 77 & echo $! $$ > {self.here}/pids; sleep 30\n", judge=JUDGES)
        with self.start(folder) as process:
            while not (self.here / "pids").exists() or not (self.here / "pids").read_text():
                time.sleep(0.01)
            process.send_signal(number)
            process.communicate()
        return process.returncode

    def is_running(self):
        return any(os.path.exists(f"/proc/{pid}") for pid in (self.here / "pids").read_text().split())

    def test_by_a_signal(self):
        """All that runs is ended, and no folder of a run is left."""
        self.assertEqual(self.stopped(signal.SIGTERM), 128 + signal.SIGTERM)
        self.assertFalse(self.is_running())
        self.assertEqual(list(self.here.glob("paklour-*")), [])

    def test_by_one_that_it_can_not_see(self):
        """What runs sees that the loop is gone."""
        self.assertEqual(self.stopped(signal.SIGKILL), -signal.SIGKILL)
        until = time.monotonic() + 20
        while self.is_running() and time.monotonic() < until:
            time.sleep(0.05)
        self.assertFalse(self.is_running())


if __name__ == "__main__":
    unittest.main()
