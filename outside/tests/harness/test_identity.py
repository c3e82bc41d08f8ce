"""Of what a harness consists: what changes it, so that answers of before say nothing of it, and what doesn't."""

import contextlib
import os
import shutil
import sys
import unittest
from pathlib import Path
from unittest import mock

from .base import OUTSIDE, Campaigns

sys.path.insert(0, str(OUTSIDE))

from harness import definition  # noqa: E402
from harness.identity import differences  # noqa: E402

SETTINGS = 'target = "outside"\ndepth = {}\n[outside]\nlabel = "x"\ncodes = ["lost"]\npoints = ["sys::open"]\n'
SOURCES = '#!/bin/sh\n. "$HARNESS/saving.sh"\nsave\n'
SAVING = "save() { : > note; echo saved; }\n"
JUDGES = "#!/bin/sh\ntrue\n"


class Identity(Campaigns):
    def setUp(self):
        super().setUp()
        (self.here / "elsewhere").write_text("one\n")
        self.folder = self.harness(run=SOURCES, judge=JUDGES)
        self.put("saving.sh", SAVING)
        self.put("below/expected", "one\n")
        os.symlink("../elsewhere", self.folder / "linked")

    def put(self, name: str, text: str) -> None:
        path = self.folder / name
        path.parent.mkdir(exist_ok=True)
        path.write_text(text)

    def identity(self, path: Path | None = None, into: Path | None = None):
        return definition.read(str(path or self.folder)).identity(into or self.folder)

    @contextlib.contextmanager
    def differs(self, *names: str, **words):
        """What is done meanwhile makes another harness, by these names."""
        before = self.identity(**words)
        yield
        self.assertEqual(differences(before, self.identity(**words)), [*names])

    def test_what_changes_it(self):
        for name in ("run", "judge", "saving.sh", "below/expected"):
            with self.differs(name):
                self.put(name, "#!/bin/sh\n# another\n")
        with self.differs("linked"):
            (self.here / "elsewhere").write_text("two\n")
        with self.differs("below/more"):
            self.put("below/more", "")
        with self.differs("below/more"):
            (self.folder / "below" / "more").unlink()
        with self.differs("of_the_program.toml"):
            self.put("of_the_program.toml", "depth = 2\n")
        with self.differs("below/answers"):
            self.put("below/answers", "")
        with self.differs("FAULTS_SYNC"):
            self.enterContext(mock.patch.dict(os.environ, FAULTS_SYNC="posix"))

    def test_another_power_cut(self):
        """Answers belong to what the power cut kept, so also those of a version that notes nothing of it are set aside."""
        own, other = self.identity(), self.here / "profiles"
        shutil.copy(definition.PROFILES, other)
        with mock.patch.object(definition, "PROFILES", other), self.differs("power cut"):
            other.write_text("leaves linux names any\n")
        self.assertEqual(differences({name: said for name, said in own.items() if name != "power cut"}, own), ["power cut"])

    def test_what_does_not(self):
        self.put("settings.toml", SETTINGS.format(1))
        with self.differs():
            for name in ("settings.toml", "deeper.toml"):
                self.put(name, SETTINGS.format(2))
            for name in ("answers", "answers.12", "failing", "campaign.json", "report", "page.html", "junit.xml", "report.json", ".saving.sh.swp", ".hidden/file", "saving.sh~"):
                self.put(name, "")
            self.put("__pycache__/saving.pyc", "")
            self.put("earlier/campaign.json", "{}\n")
            self.put("earlier/answers", "pass\tnone\n")
        with self.differs(into=self.folder / "now"):
            self.put("now/answers", "")

    def test_a_file_of_python_and_what_it_imports(self):
        self.put("alone.py", "import beside\nrun = beside.RUN\ndef judge(said): pass\n")
        self.put("beside.py", "RUN = ['sh', '-c', ': > here']\n")
        with self.differs("beside.py", path=self.folder / "alone.py"):
            self.put("beside.py", "RUN = ['sh', '-c', ': > here']  # another\n")
        with self.differs(path=self.folder / "alone.py"):
            self.put("saving.sh", "# another\n")

    def test_its_commands(self):
        """Which may go by variables that it doesn't name as those of its programs, and by programs that it names by their paths."""
        self.put("harness.py", "import os\nrun = ['../elsewhere', os.environ.get('WORD', 'one')]\ndef judge(said): pass\n")
        with self.differs("run"):
            self.enterContext(mock.patch.dict(os.environ, WORD="another"))
        with self.differs("../elsewhere", "linked"):
            (self.here / "elsewhere").write_text("three\n")


class Resumed(Campaigns):
    def setUp(self):
        super().setUp()
        self.folder = self.harness(run=SOURCES, judge=JUDGES)
        (self.folder / "saving.sh").write_text(SAVING)

    def test_a_script_that_its_programs_source(self):
        self.assertEqual(self.loop("-j", 2, self.folder).status, 0)
        self.assertEqual(self.loop("-j", 2, "--depth", 2, "--no-kinds", self.folder).status, 0, "with more settings it goes on")
        (self.folder / "saving.sh").write_text(SAVING + "# another\n")
        done = self.loop("-j", 2, self.folder)
        self.assertEqual(done.status, 0)
        self.assertIn(f"loop: {self.folder}/answers belongs to a harness with another saving.sh, so it is now {self.folder}/answers.1, ", done.told)

    def test_a_note_that_no_campaign_left(self):
        self.assertEqual(self.loop("-j", 2, self.folder).status, 0)
        note = self.folder / "campaign.json"
        for said in ("", "[1]", "{"):
            note.write_text(said)
            done = self.loop("-j", 2, self.folder)
            self.assertEqual((done.status, done.told),
                (2, f"loop: {note} can't be read as the note of a campaign: delete it and answers, and start again\n"), said)

    def test_campaigns_in_its_own_folder(self):
        for _ in range(2):
            done = self.loop("-j", 2, "--into", self.folder / "result", self.folder)
            self.assertEqual((done.status, "another harness" in done.told), (0, False), done.told)
        self.assertEqual(self.loop("-j", 2, "--into", self.folder / "joined", "--join", self.folder, self.folder).status, 0)

    def test_shares_of_another(self):
        parts = self.here / "parts"
        self.assertEqual(self.loop("-j", 2, "--shard", "1/2", "--into", parts / "1", self.folder).status, 0)
        other = self.here / "other"
        shutil.copytree(self.folder, other)
        (other / "saving.sh").write_text(SAVING + "# another\n")
        done = self.loop("--join", parts, "--into", self.here / "joined", other)
        self.assertEqual((done.status, done.told),
            (2, f"loop: {parts}/1/answers belongs to a harness with another saving.sh: delete it, and start again\n"))


if __name__ == "__main__":
    unittest.main()
