"""What the page and JUnit's XML have of a finding, for somebody who has neither the harness nor the terminal."""

import dataclasses
import json
import os
import shutil
import subprocess
import tempfile
import unittest
import xml.etree.ElementTree as Xml
from html.parser import HTMLParser
from pathlib import Path

from harness.answers import Stopped
from harness.appendix import Appendix, in_script, into_junit, into_page
from harness.compared import MOST_FILES, SMALL, compared
from harness.judging import Judgement
from harness.outcome import Outcome
from harness.settings import Made, made_text
from harness.story import Change, Story, changes_of, hits_of, lines_of
from harness.under_test import Program

from .base import JUDGES, OUTSIDE, SAVES, Campaigns

RENAMES_FIRST = """#!/bin/sh
printf new > new && mv new note && sync note && sync . && echo saved
"""
OLD_OR_NEW = """#!/bin/sh
case $(cat note) in old | new) ;; *) echo torn; echo 'it is neither' >&2; exit 1 ;; esac
"""
HOSTILE = "</script><!--<script>\x1b[2J\u2028\u202e&amp;]]>"
JUNIT = """<?xml version="1.0" encoding="UTF-8"?>
<testsuites>
<testsuite name="x" tests="2" failures="1" errors="0" skipped="0">
<testcase classname="x" name="plan 0 none"/>
<testcase classname="x" name="plan 1 sys::fsync=1*return"><failure type="lost" message="fail lost">scenario sys::fsync=1*return
</failure></testcase>
</testsuite>
</testsuites>
"""


class Elements(HTMLParser):
    """The scripts of a page, as a browser finds them, and how many elements it has."""

    def __init__(self, page: str):
        super().__init__()
        self.scripts: list[tuple[str | None, str]] = []
        self.count = 0
        self.feed(page)

    def handle_starttag(self, tag, attributes):
        self.count += 1
        self.is_script = tag == "script"
        if self.is_script:
            self.scripts.append((dict(attributes).get("id"), ""))

    def handle_endtag(self, tag):
        self.is_script = False

    def handle_data(self, data):
        if self.count and self.is_script:
            name, text = self.scripts[-1]
            self.scripts[-1] = (name, text + data)


def appendix_in(page: Path) -> dict:
    """What the loop has added to a page."""
    return json.loads(dict(Elements(page.read_text("utf-8")).scripts)["told-by-the-loop"])


class Added(Campaigns):
    def campaign(self, status=1, **steps):
        folder = self.harness(**steps)
        done = self.loop("-j", 2, "--junit", folder, SOURCE_DATE_EPOCH="1000000000")
        self.assertEqual(done.status, status, done.told)
        return folder, done

    def alone(self, folder: Path, form: str) -> str:
        """What `paklour` itself writes of a campaign."""
        with open(folder / "answers", "rb") as answers:
            return subprocess.run(["paklour", "report", form, folder / "settings.toml"], env=self.environment, stdin=answers, capture_output=True, text=True,
                check=False).stdout

    def renamed_first(self):
        return self.campaign(prepare="#!/bin/sh\nprintf old > note\n", run=RENAMES_FIRST, judge=OLD_OR_NEW)

    def test_each_finding_has_the_words_of_the_terminal(self):
        folder, done = self.renamed_first()
        told = appendix_in(folder / "page.html")
        printed = sorted(line for line in done.told.splitlines() if line.startswith("fail "))
        self.assertEqual(sorted(story["words"] for story in told["stories"]), printed)
        failures = [case[0] for case in Xml.parse(folder / "junit.xml").iter("testcase") if len(case)]
        self.assertEqual(sorted(failure.get("message") for failure in failures), printed)
        for failure in failures:
            self.assertIn(failure.get("message"), failure.text.splitlines())

    def test_what_lay_there(self):
        """The rename is on the disk, and the contents aren't, so neither word is there."""
        folder, _ = self.renamed_first()
        told = appendix_in(folder / "page.html")
        story = next(one for one in told["stories"] if one["scenario"] == "sys::fsync=1*return")
        self.assertEqual([(change["what"], change["kept"]) for change in story["pending"]],
            [("create new", "kept"), ("rename new -> note", "kept"), ("length of note 3", "lost"), ("block 0 of note as after write 1", "lost")])
        self.assertEqual([(one["name"], one["before"]["text"], one["after"]["text"], one["after"]["length"]) for one in story["files"]["differences"]],
            [("note", "old", "", 0)])
        self.assertEqual((story["promised"], story["judge"], story["program"]), ([], ["it is neither"], []))
        self.assertEqual(story["hits"][-3:], ["note", "rename new -> note, and all before it", "create new"])
        self.assertEqual(told["title"], folder.name, "no program is named")
        self.assertEqual((told["date"], told["program"]["run"]), ("2001-09-09", ["printf new > new && mv new note && sync note && sync . && echo saved"]))
        lines = next(case[0].text for case in Xml.parse(folder / "junit.xml").iter("testcase") if case.get("name").endswith(" sys::fsync=1*return")).splitlines()
        for line in ("pending: block 0 of note as after write 1: lost", "promised: nothing", "judge: it is neither", f"again: {story['again']}",
                "note: before the run: 3 bytes, `old`; when the judge looked: 0 bytes"):
            self.assertIn(line, lines)

    @unittest.skipUnless(shutil.which("node"), "node isn't installed, so nothing is said of whether the page's script reads it")
    def test_the_script_of_the_page_reads_it(self):
        folder, _ = self.renamed_first()
        (self.here / "told.json").write_text(json.dumps(appendix_in(folder / "page.html")))
        reads = ("import { readFileSync } from 'node:fs'; import { readAppendix } from '%s';"
            "console.log(readAppendix(readFileSync('%s', 'utf8')).storyOf('sys::fsync=1*return').words)")
        done = subprocess.run(["node", "--input-type=module", "-e", reads % (OUTSIDE.parent / "viewer" / "told.js", self.here / "told.json")],
            capture_output=True, text=True, check=False)
        self.assertEqual((done.stdout, done.returncode), ("fail torn: the 1st sys::fsync (note) fails, the pending changes of names are kept\n", 0), done.stderr)

    def test_the_command_makes_the_run_again(self):
        folder, _ = self.renamed_first()
        for story in appendix_in(folder / "page.html")["stories"]:
            self.assertIn(f" {folder} --try ", story["again"])
            done = subprocess.run(story["again"], shell=True, env=self.environment, capture_output=True, text=True, check=False)
            self.assertEqual((done.returncode, done.stdout.splitlines()[-1]), (1, story["words"]))

    def test_all_else_in_the_xml_is_as_it_was(self):
        folder, _ = self.renamed_first()
        ours, alone = Xml.parse(folder / "junit.xml").getroot(), Xml.fromstring(self.alone(folder, "--junit"))
        for case, before in zip(ours.iter("testcase"), alone.iter("testcase"), strict=True):
            self.assertEqual(case.attrib, before.attrib)
            self.assertEqual([found.get("type") for found in case], [found.get("type") for found in before])
            for found, one in zip(case, before):
                self.assertTrue(found.text.startswith(one.text))
        self.assertEqual(ours[0].attrib, alone[0].attrib)

    def test_no_finding(self):
        folder, _ = self.campaign(0, run=SAVES, judge=JUDGES)
        self.assertEqual(appendix_in(folder / "page.html")["stories"], [])
        self.assertEqual(Xml.canonicalize((folder / "junit.xml").read_text()), Xml.canonicalize(self.alone(folder, "--junit")))

    def test_what_programs_write_ends_nothing(self):
        """Names, promises and lines of the judge, with bytes that are no text."""
        hostile = os.fsencode(HOSTILE) + b"\xff"
        quoted = hostile.replace(b"/", b":").decode("utf-8", "surrogateescape")
        run = f"#!/bin/sh\n: > '{quoted}'; printf new > note; printf '%s\\n' '{HOSTILE}'; sync note\n".encode("utf-8", "surrogateescape")
        judge = f"#!/bin/sh\n[ -s note ] || [ ! -e note ] || {{ echo torn; printf '%s\\n' '{quoted}' >&2; exit 1; }}\n".encode("utf-8", "surrogateescape")
        folder = self.harness(run="", judge="")
        (folder / "run").write_bytes(run)
        (folder / "judge").write_bytes(judge)
        done = self.loop("-j", 2, "--junit", folder)
        self.assertEqual(done.status, 1, done.told)
        page = Elements((folder / "page.html").read_text("utf-8"))
        alone = Elements(self.alone(folder, "--page"))
        self.assertEqual(page.count, alone.count + 1, "only the element of the appendix is new")
        self.assertEqual([name for name, _ in page.scripts], ["told-by-the-loop", "document", None])
        self.assertEqual(page.scripts[1:], alone.scripts)
        begin, end = r"<:script><!--<script>\x1b[2J", "\u202e" + r"&amp;]]>\xff"  # Python has a line for each part
        story = next(one for one in json.loads(page.scripts[0][1])["stories"] if one["scenario"] == "sys::fsync=1*return")
        self.assertEqual(story["judge"], [begin, end])
        self.assertIn(begin + r"\u2028\u202e&amp;]]>\xff", [one["name"] for one in story["files"]["differences"]])
        self.assertIn(r"</script><!--<script>\x1b[2J", story["promised"])
        self.assertIn(f"judge: {begin}\njudge: {end}\n", Xml.parse(folder / "junit.xml").find(".//failure").text)

    def test_a_crash_has_the_lines_of_the_program(self):
        run = "#!/bin/sh\nprintf new > note; echo started; sync note || { echo 'no sync' >&2; kill -ABRT $$; }\n"
        folder, _ = self.campaign(run=run, judge="#!/bin/sh\ntrue\n")
        story = next(one for one in appendix_in(folder / "page.html")["stories"] if one["scenario"] == "sys::fsync=1*return")
        self.assertTrue(story["words"].startswith("fail crashed: the 1st sys::fsync (note) fails (SIGABRT, "), story["words"])
        self.assertIn("no sync", story["program"])
        self.assertEqual((story["files"], story["judge"], story["promised"]), (None, [], ["started"]))

    def test_settings_of_ones_own_have_the_title(self):
        folder = self.harness(run=SAVES, judge=JUDGES)
        (folder / "settings.toml").write_text(made_text("no word is lost", ["lost"], Made(True, True).points([]), 1, Made(True, True)).partition("\n")[2])
        self.assertEqual(self.loop("-j", 2, folder).status, 0)
        self.assertEqual(appendix_in(folder / "page.html")["title"], "no word is lost")

    def test_a_point_that_names_its_file(self):
        """The file is said once."""
        folder = self.harness(prepare="#!/bin/sh\nprintf old > note\n", run=RENAMES_FIRST, judge=OLD_OR_NEW)
        points = ["sys::open@new", "sys::write@new", "sys::rename@note", "sys::open@note", "sys::fsync@note", "sys::open@.", "sys::fsync@."]
        (folder / "settings.toml").write_text(f'target = "outside"\ndepth = 1\n[outside]\nlabel = "x"\ncodes = ["torn"]\npoints = {json.dumps(points)}\n')
        self.loop("-j", 2, folder, FAULTS_POINTS="file")
        words = [story["words"] for story in appendix_in(folder / "page.html")["stories"]]
        self.assertIn("fail torn: the 1st sys::fsync (note) fails, the pending changes of names are kept", words)

    def test_a_program_that_is_killed_alone(self):
        """Then no power cut comes, and nothing is lost."""
        folder = self.harness(prepare="#!/bin/sh\nprintf old > note\n", run="#!/bin/sh\nrm note && printf new > note && echo saved\n", judge=OLD_OR_NEW)
        self.assertEqual(self.loop("-j", 2, "--kill", folder).status, 1)
        story = next(one for one in appendix_in(folder / "page.html")["stories"] if one["scenario"] == "sys::write=1*panic")
        self.assertEqual((story["state"], [change["kept"] for change in story["pending"]]), ("live", ["kept", "kept"]))
        self.assertIn(" --kill --try ", story["again"])

    def test_the_program_that_a_file_of_python_names(self):
        (self.here / "save").write_text(RENAMES_FIRST)
        (self.here / "save").chmod(0o755)
        os.utime(self.here / "save", (1000000000, 1000000000))
        (self.here / "saving.py").write_text('run = ["./save"]\nversion = "save 1.2"\n\ndef judge(said):\n    return "gone"[len(said) + 4:]\n')
        self.assertEqual(self.loop("-j", 2, "--into", self.here / "into", self.here / "saving.py").status, 0)
        told = appendix_in(self.here / "into" / "page.html")
        self.assertEqual(told["title"], "save")
        program = told["program"]
        digest = subprocess.run(["sha256sum", self.here / "save"], capture_output=True, text=True, check=True).stdout[:12]
        self.assertEqual(program, {"name": "save", "run": ["./save"], "version": "save 1.2", "files": [{"name": "save", "digest": digest, "changed": "2001-09-09"}]})
        (self.here / "save").rename(self.here / "run")
        (self.here / "saving.py").write_text((self.here / "saving.py").read_text().replace("./save", "./run"))
        self.assertEqual(self.loop("-j", 2, "--into", self.here / "other", self.here / "saving.py").status, 0)
        self.assertEqual(appendix_in(self.here / "other" / "page.html")["title"], "saving", "`run` is no name of a program")

    def test_a_part_of_the_program_does_not_name_it(self):
        """A script that `run` reads is linked into the harness, since answers belong to it, and can't be run by itself."""
        (self.here / "part.sh").write_text(RENAMES_FIRST)
        folder = self.harness(run='#!/bin/sh\n. "$HARNESS/part.sh"\n', judge="#!/bin/sh\nexit 0\n")
        (folder / "part.sh").symlink_to("../part.sh")
        self.assertEqual(self.loop("-j", 2, folder).status, 0)
        told = appendix_in(folder / "page.html")
        self.assertEqual((told["title"], [file["name"] for file in told["program"]["files"]]), (folder.name, ["part.sh"]))
        (folder / "run").write_text('#!/bin/sh\nsh "$HARNESS"/../part.sh\n')
        self.assertEqual(self.loop("-j", 2, folder).status, 0)
        self.assertEqual(appendix_in(folder / "page.html")["title"], "part.sh", "it is named by the path to which the link leads")


class Without(unittest.TestCase):
    """What is added, without a campaign."""

    story = Story("sys::fsync=1*return", "fail lost", "fail lost: the 1st sys::fsync (a) fails", "", [Change("block 0 of a as after write 1", "lost")], [], 0, None, [], [], [],
        "paklour-loop x --try y", ["On an ext4 of this kernel it is lost too."])

    def appendix(self, *stories):
        return Appendix("x", Program("x", [], "", []), "2026-11-30", "paklour-loop x", "", [], list(stories))

    def test_sentences_of_others(self):
        self.assertEqual(json.loads(in_script(self.appendix(self.story)))["stories"][0]["further"], ["On an ext4 of this kernel it is lost too."])
        self.assertIn("On an ext4 of this kernel it is lost too.", lines_of(self.story))
        self.assertEqual(lines_of(dataclasses.replace(self.story, further=[]))[-1], "again: paklour-loop x --try y")

    def outcome(self, hits, pending):
        """An outcome by the point, the answer and the words of each hit, and by the words of what was pending at the last cut."""
        trace = [[str(number), point, str(number), answer, words] for number, (point, answer, words) in enumerate(hits, 1)]
        return Outcome("none", Judgement("fail lost"), trace, [[str(number), words] for number, words in enumerate(pending, 1)])

    def kept(self, outcome, state=""):
        return [change.kept for change in changes_of(outcome, state)]

    def test_two_power_cuts(self):
        """A hit says what it is about. What is pending is so at the last cut, where the hits of the first one keep nothing."""
        first, last = ("power::keep", "return", "1 rename a -> b"), ("power::keep", "go", "2 chmod b 600, and all before it")
        outcome = self.outcome([("sys::rename", "go", "b"), first, ("sys::open", "go", "b"), last], ["rename b -> c", "chmod b 600, and all before it"])
        self.assertEqual(hits_of(outcome), ["b", "rename a -> b", "b", "chmod b 600, and all before it"])
        self.assertEqual(self.kept(outcome), ["lost", "lost"])

    def test_what_was_kept(self):
        """Of the sequence a change and all before it, and of a file's length and of a block a version. In a state of its own their kinds decide."""
        pending = ["unlink z", "create b, and all before it", "rename b -> c, and all before it", "length of a 4096", "length of a 9000",
            "block 0 of a as after write 1", "block 0 of a as after write 3", "block 1 of a as after write 3", "block 0 of a as b as after write 1"]
        answers = [("go", "3 rename b -> c, and all before it"), ("return", "2 create b, and all before it"), ("return", "5 length of a 9000"),
            ("return", "7 block 0 of a as after write 3"), ("go", "8 block 1 of a as after write 3"), ("go", "9 block 0 of a as b as after write 1")]
        outcome = self.outcome([("power::keep", answer, words) for answer, words in answers], pending)
        self.assertEqual(self.kept(outcome), ["kept"] * 2 + ["lost"] + ["kept"] * 4 + ["lost"] * 2)
        self.assertEqual(self.kept(outcome, "names"), ["kept"] * 3 + ["lost"] * 6)
        self.assertEqual(self.kept(outcome, "contents"), ["lost"] * 3 + ["kept"] * 6)
        self.assertEqual(self.kept(outcome, "live"), ["kept"] * 9)
        self.assertEqual([change.what for change in changes_of(outcome, "")[:3]], ["unlink z", "create b", "rename b -> c"])

    def test_what_was_kept_by_itself(self):
        """Of a rename one end, and a length without the shortening before it."""
        pending = ["create a", "rename a -> b, and all before it", "truncate l to 5, and all before it", "length of l 80"]
        hits = [("power::keep", "return", words) for words in ("2 rename a -> b, of it b alone", "4 length of l 80, alone")]
        self.assertEqual(self.kept(self.outcome(hits, pending)), ["lost", "kept", "lost", "kept"])

    def test_a_page_that_has_no_place(self):
        with self.assertRaises(Stopped):
            into_page(b"<html></html>", self.appendix())

    def test_a_failure_without_a_story_has_its_command(self):
        failure = Xml.fromstring(into_junit(JUNIT.encode(), self.appendix())).find(".//failure")
        self.assertEqual((failure.get("message"), failure.text),
            ("fail lost", "scenario sys::fsync=1*return\nagain: paklour-loop x --try 'sys::fsync=1*return'\n"))

    def test_what_xml_can_not_have(self):
        story = dataclasses.replace(self.story, words="fail lost: \ufffe\x00")
        self.assertEqual(Xml.fromstring(into_junit(JUNIT.encode(), self.appendix(story))).find(".//failure").get("message"), "fail lost: \ufffd\ufffd")


class Compared(unittest.TestCase):
    def setUp(self):
        room = tempfile.TemporaryDirectory()
        self.addCleanup(room.cleanup)
        self.before, self.after = Path(room.name, "before"), Path(room.name, "after")
        self.before.mkdir()
        self.after.mkdir()

    def sides(self):
        return {one.name: (one.before, one.after) for one in compared(self.before, self.after).differences}

    def fill(self, **files: tuple[bytes | None, bytes | None]):
        for name, contents in files.items():
            for folder, text in zip((self.before, self.after), contents):
                if text is not None:
                    (folder / name).write_bytes(text)

    def test_names_that_are_on_one_side(self):
        self.fill(gone=(b"a", None), new=(None, b"b"), same=(b"c", b"c"))
        (self.after / "folder").mkdir()
        sides = self.sides()
        self.assertEqual(sorted(sides), ["folder", "gone", "new"])
        self.assertEqual((sides["gone"][0].text, sides["gone"][1]), ("a", None))
        self.assertEqual((sides["new"][0], sides["new"][1].text), (None, "b"))
        self.assertEqual(sides["folder"][1].kind, "folder")
        self.assertEqual(compared(self.before, self.after).same, 1)

    def test_files_into_which_the_judge_does_not_look(self):
        self.fill(LOG=(b"12:01", b"12:02"), note=(b"old", b""))
        found = compared(self.before, self.after, ("LOG*",))
        self.assertEqual(([one.name for one in found.differences], found.unjudged), (["note"], 1))

    def test_the_bytes_that_differ(self):
        self.fill(log=(b"0123456789" * 100, b"0123456789" * 50 + b"\n\\" + b"x" * 300))
        before, after = self.sides()["log"]
        self.assertEqual((before.length, before.begin, before.text[:20], before.more), (1000, 484, "45678901234567890123", 1000 - 484 - 160))
        self.assertEqual((after.length, after.begin, after.text[:22], after.more), (802, 484, "4567890123456789" + r"\n\\xx", 802 - 484 - 160))

    def test_bytes_that_are_no_text(self):
        self.fill(db=(None, bytes(range(128, 228))))
        after = self.sides()["db"][1]
        self.assertEqual((after.text, after.more), ("".join(f"\\x{byte:02x}" for byte in range(128, 160)), 68))

    def test_a_difference_deep_in_a_small_file_that_is_no_text(self):
        """Less is shown of such a file than of a text, so the difference may lie behind that."""
        same = bytes(range(128, 228))
        self.fill(db=(same + b"old", same + b"new"))
        self.assertEqual([(side.begin, side.text[-3:], side.more) for side in self.sides()["db"]], [(84, "old", 0), (84, "new", 0)])

    def test_a_large_file_has_its_length_alone(self):
        self.fill(large=(b"a" * (SMALL + 1), b"b" * (SMALL + 1)))
        self.assertEqual([(side.length, side.text, side.more) for side in self.sides()["large"]], [(SMALL + 1, "", SMALL + 1)] * 2)

    def test_links_and_modes(self):
        (self.before / "current").symlink_to("v1")
        (self.after / "current").symlink_to("v2")
        self.fill(key=(b"k", b"k"))
        (self.after / "key").chmod(0o600)
        (self.before / "key").chmod(0o644)
        sides = self.sides()
        self.assertEqual([(side.kind, side.text) for side in sides["current"]], [("link", "v1"), ("link", "v2")])
        self.assertEqual([side.mode for side in sides["key"]], ["0644", "0600"])

    def test_many_files(self):
        self.fill(**{f"file{number:02d}": (None, b"") for number in range(MOST_FILES + 3)})
        found = compared(self.before, self.after)
        self.assertEqual((len(found.differences), found.more), (MOST_FILES, 3))
