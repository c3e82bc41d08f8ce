"""The plugin of pytest, and what docs/TEST_SUITES.md says of it and of other test suites."""

import fcntl
import os
import re
import shutil
import signal
import subprocess
import sys
import time
import unittest
from pathlib import Path

from .base import JUDGES, LOOP, OUTSIDE, PROGRAM, SAVES, Campaigns

PLUGIN = OUTSIDE / "python"
PAGE = OUTSIDE.parent / "docs" / "TEST_SUITES.md"
HAS_PYTEST = "import sys, pytest; sys.exit(sys.version_info < (3, 11) or int(pytest.__version__.split('.')[0]) < 7)"
PYTHON = next((python for python in (sys.executable, "/usr/bin/python3")
    if not subprocess.run([python, "-c", HAS_PYTEST], capture_output=True, check=False).returncode), None)
LOST = """fail lost: without any fault
pending: 1 create new
pending: 2 rename new -> note, and all before it
pending: 3 length of note 5
pending: 4 block 0 of note as after write 1
"""
JUDGE = """import os

WORD = "young"


def judge(said):
    return None if f"saved {WORD}" not in said or os.path.exists("note") and open("note").read() == WORD else "lost"


"""
TEST = JUDGE + """def test_saves(paklour):
    paklour.campaign(run=["./save", "young"], judge=judge{more})
"""
PATIENT = """#!/bin/sh
trap 'echo ended > "$TMPDIR/ended"; exit 143' TERM
: > "$TMPDIR/begun"
while :; do sleep 0.1; done
"""


def blocks() -> dict[str, str]:
    """The files of the page, by the comment in the first line of each, or in the second behind `#!`. What comes first counts."""
    found: dict[str, str] = {}
    for body in re.findall(r"^```\w+\n(.*?)^```", PAGE.read_text("utf-8"), re.M | re.S):
        if name := re.match(r"(?:#!.*\n)?(?:#|//|;|/\*) (\S+\.\w+)(?: \*/)?\n", body):
            found.setdefault(name[1], body)
    return found


FILES = blocks()


def mended(program: str, rename: str, syncs: str) -> str:
    """A program that syncs what it renames, and the folder."""
    assert rename in program
    return program.replace(rename, syncs)


FLAWED = '#!/bin/sh\nprintf %s "$1" > new && mv new note && echo "saved $1"\n'
SOUND = mended(FLAWED, "mv new note", "sync new && mv new note && sync .")


class Suites(Campaigns):
    """A project in a folder of its own, with the commands on the PATH."""

    def setUp(self):
        super().setUp()
        os.symlink(LOOP, self.here / "bin" / "paklour-loop")
        self.project = self.here / "project"
        self.project.mkdir()

    def write(self, name: str, text: str, mode: int = 0o644):
        path = self.project / name
        path.parent.mkdir(exist_ok=True)
        path.write_text(text)
        path.chmod(mode)

    def called(self, *words, **variables) -> tuple[int, str]:
        done = subprocess.run(words, cwd=self.project, env=self.environment | variables, stdout=subprocess.PIPE, stderr=subprocess.STDOUT, text=True,
            timeout=300, check=False)
        return done.returncode, done.stdout

    def found(self, said: str) -> None:
        """What a test says that found the flaw of the page's programs."""
        self.assertIn(LOST, re.sub("(?m)^ {8}", "", said))
        self.assertIn("again: paklour-loop ", said)


@unittest.skipUnless(PYTHON, "pytest 7 for Python 3.11 is not installed: its plugin isn't tried")
class Pytest(Suites):
    def setUp(self):
        super().setUp()
        self.write("pytest.ini", FILES["pytest.ini"].replace("/usr/lib/paklour/python", str(PLUGIN)))
        self.write("conftest.py", FILES["conftest.py"])

    def pytest(self, *words, **variables) -> tuple[int, str]:
        """The status of pytest, and what it prints, also of tests that pass."""
        return self.called(PYTHON, "-m", "pytest", "-rP", *words, **variables)

    def saves(self, program: str, more: str = "") -> tuple[int, str]:
        self.write("save", program, 0o755)
        self.write("test_saves.py", TEST.replace("{more}", more))
        return self.pytest()

    def runs(self, said: str) -> int:
        """How many runs a campaign made. Each test makes one."""
        counted = re.search(r"^loop: (\d+) runs? and ", said, re.M)
        self.assertTrue(counted, said)
        return int(counted[1])

    def failed(self, text: str, told: str, **variables) -> None:
        """A test with this body fails with these words and nothing else of the plugin."""
        self.write("test_it.py", f"def test_it(paklour):\n    {text}\n")
        status, said = self.pytest(**variables)
        self.assertEqual(status, 1, said)
        self.assertRegex(said, rf"(?s)_ test_it _+\n(?:loop: wrote the settings [^\n]*\n)?{told}\n")
        self.assertNotIn("paklour_pytest.py", said)

    def test_the_page(self):
        (self.here / "bin" / "pytest").write_text(f'#!/bin/sh\nexec {PYTHON} -m pytest "$@"\n')
        (self.here / "bin" / "pytest").chmod(0o755)
        self.write("save.py", FILES["save.py"])
        self.write("test_saves.py", FILES["test_saves.py"])
        (commands, shown), = re.findall(r"^```sh\n(.*?)^```\n\n[^`]*\n\n```\n(.*?)^```", PAGE.read_text("utf-8"), re.M | re.S)
        status, said = self.called("sh", "-eu", "-c", commands)
        self.assertEqual(status, 1, said)
        lines = "".join("(?:.*\n)*?" if line == ".." else re.escape(line) + "\n" for line in shown.splitlines())
        self.assertRegex(said.replace(str(self.project), "/srv/saving"), lines)
        self.write("save.py", mended(FILES["save.py"], '    os.rename("new", "note")\n', """        file.flush()
        os.fsync(file)
    os.rename("new", "note")
    os.fsync(os.open(".", os.O_RDONLY))
"""), 0o755)
        self.assertEqual(self.pytest()[0], 0)

    def test_a_sound_program_passes(self):
        status, said = self.saves(SOUND)
        self.assertEqual(status, 0, said)
        self.assertIn("\ncauses 0\n", said)

    def test_a_finding_fails_with_its_words(self):
        status, said = self.saves(FLAWED)
        self.assertEqual(status, 1, said)
        self.found(said)
        self.assertNotIn("Traceback", said)
        self.assertNotIn("paklour_pytest.py", said)
        command = re.search("^again: (.*)", said, re.M)[1]
        status, said = self.called("sh", "-c", command)
        self.assertEqual(status, 1, said)
        self.assertIn(LOST.splitlines()[0], said)

    def test_a_run_without_faults_that_fails(self):
        self.failed('paklour.campaign(run="echo new > note; echo no room >&2; exit 3", judge="true")',
            "loop: the run without faults is refused: `run` ended with 3. The last lines on standard error:\n.*no room")

    def test_words_that_are_refused(self):
        self.failed('paklour.campaign(run="true")', "loop: [^\n]*: `judge` is missing: [^\n]*")
        self.failed('paklour.campaign("saving")', "loop: [^\n]*/saving: there is no such harness; [^\n]*")
        self.failed('paklour.campaign(run="true", judge="true", program=["save"])', "[^\n]*/project/save: there is no such file or folder")
        self.failed('paklour.campaign("saving", judge="true")', "saving has its own judge")
        self.failed('paklour.campaign("saving", into="here")', "into: [^\n]*")

    def test_a_path_is_a_script(self):
        self.write("save", SOUND, 0o755)
        self.write("judge", "#!/bin/sh\nexit 0\n", 0o755)
        self.write("test_it.py", """from pathlib import Path


def test_it(paklour):
    paklour.campaign(run=[Path("save"), "young"], judge=Path("judge"), program="save", again=None, failures=1)
""")
        status, said = self.pytest()
        self.assertEqual(status, 0, said)

    def test_paklour_is_missing(self):
        self.write("test_it.py", "def test_it(paklour):\n    paklour.campaign(run='true', judge='true')\n")
        for name in ("paklour", "paklour-loop"):
            (self.here / "bin" / name).unlink()
            status, said = self.pytest(PATH=str(self.here / "bin"))
            self.assertEqual(status, 1, said)
            self.assertRegex(said, rf"\n_+ ERROR at setup of test_it _+\n(paklour-loop and )?paklour can't be found by the PATH: install Paklour, .*\n=")
            self.assertIn("1 error in", said)

    def test_each_campaign_begins_anew(self):
        first, second = self.saves(SOUND), self.saves(SOUND)
        self.assertEqual(self.runs(first[1]), self.runs(second[1]))

    def test_answers_are_kept(self):
        more = ', program=["save", "more"]'
        self.write("more/other.py", "1")
        all_runs = self.runs(self.saves(SOUND, more)[1])
        self.assertGreater(all_runs, 1)
        self.assertEqual(self.runs(self.saves(SOUND, more)[1]), 1)
        self.write("more/__pycache__/other.pyc", "what Python leaves")
        self.assertEqual(self.runs(self.saves(SOUND, more)[1]), 1)
        self.write("more/other.py", "2")
        self.assertEqual(self.runs(self.saves(SOUND, more)[1]), all_runs)
        (self.here / "bin" / "paklour").unlink()
        (self.here / "bin" / "paklour").write_bytes(PROGRAM.read_bytes() + b"another version")
        (self.here / "bin" / "paklour").chmod(0o755)
        self.assertEqual(self.runs(self.saves(SOUND, more)[1]), all_runs)

    def test_answers_of_another_program_or_harness(self):
        """All are deleted: the plugin sees another program and another function, and the loop another command or variable."""
        more = ', program=["save"], environment={"WORD": os.environ.get("WORD", "1")}'
        all_runs = self.runs(self.saves(SOUND, more)[1])
        self.assertEqual([self.runs(self.pytest(WORD="2")[1]), self.runs(self.pytest(WORD="2")[1])], [all_runs, 1])
        self.write("test_saves.py", TEST.replace("{more}", more).replace('"lost"', '"gone"'))
        self.assertEqual(self.runs(self.pytest(WORD="2")[1]), all_runs)
        (self.here / "link").symlink_to(self.project)
        linked = ["-o", f"cache_dir={self.here}/link/cache"]
        self.assertEqual([self.runs(self.pytest(*linked, WORD=word)[1]) for word in "34"], [all_runs, all_runs])
        status, said = self.saves(FLAWED, more)
        self.assertEqual(status, 1, said)
        self.found(said)

    def test_a_harness_that_is_there(self):
        """Its folder stays as it is, and its answers are kept until it changes."""
        for name, text in (("run", SAVES), ("judge", JUDGES)):
            self.write(f"saving/{name}", text, 0o755)
        self.write("test_saves.py", """def test_saves(paklour):
    folder = paklour.campaign("saving", program=[], jobs=1)
    assert {"answers", "report", "page.html"} <= {path.name for path in folder.iterdir()}
""")
        first, second = self.pytest(), self.pytest()
        self.assertEqual(sorted(os.listdir(self.project / "saving")), ["judge", "run"])
        self.write("saving/judge", JUDGES + "# changed\n", 0o755)
        third, fourth = self.pytest(), self.pytest()
        self.assertEqual([done[0] for done in (first, second, third, fourth)], [0] * 4, first[1] + second[1] + third[1] + fourth[1])
        self.assertGreater(self.runs(first[1]), 1)
        self.assertEqual([self.runs(done[1]) for done in (second, third, fourth)], [1, self.runs(first[1]), 1])
        self.assertIn("so it is now", third[1])
        self.assertEqual(list(self.project.rglob("answers.1")), [])

    def test_options(self):
        status, said = self.saves(SOUND, ", depth=2, kinds=False, strict=None, failures=1, whole=True")
        self.assertEqual(status, 0, said)
        self.assertIn("\ndepth 2\n", said)
        self.assertNotIn("half writes;", said)
        self.failed('paklour.campaign("saving", every_word=True)', r"loop: --every-word: there is no such option \(.*\)")

    def test_functions(self):
        """Any part may be one, of the test's module or of another. It finds what the tests find, in their Python, and not modules of the loop."""
        self.write("words.py", 'OLD = "old"\n')
        self.write("helping.py", 'from words import OLD\n\n\ndef prepare():\n    with open("old", "w") as file:\n        file.write(OLD)\n')
        self.write("test_saves.py", JUDGE + """import sys

import helping

assert sys.executable == os.environ["PYTHON_OF_TESTS"]


def run():
    with open("old") as old, open("new", "w") as file:
        file.write(WORD)
        file.flush()
        os.fsync(file)
    os.rename("new", "note")
    print("saved", WORD, flush=True)


def test_saves(paklour):
    paklour.campaign(prepare=helping.prepare, run=run, judge=judge)
""")
        status, said = self.pytest(PYTHON_OF_TESTS=PYTHON)
        self.assertEqual(status, 1, said)
        self.assertIn("fail lost: without any fault\npending: ", said)
        (self.project / "test_saves.py").unlink()
        self.failed('paklour.campaign(run="true", judge=lambda said: None)', "<function .*> is no function by itself: [^\n]*")

    def test_two_campaigns_of_a_test(self):
        """Each has a folder of its own, whatever the test is called."""
        self.write("bin/paklour-loop", "#!/bin/sh\nexit 0\n", 0o755)
        self.write("test_it.py", """import pytest


@pytest.mark.parametrize("word", ["a/../b", "a-b", "x" * 300])
def test_it(paklour, word):
    first, second = paklour.campaign(run="true", judge="true"), paklour.campaign(run="true", judge="true")
    assert first != second and first.parent == second.parent
""")
        path = f"{self.project}/bin:{self.environment['PATH']}"
        self.assertEqual(self.pytest(PATH=path)[0], 0)
        self.assertEqual(len(list((self.project / ".pytest_cache" / "d" / "paklour").iterdir())), 6)
        status, said = self.pytest("-p", "no:cacheprovider", PATH=path)
        self.assertEqual(status, 0, said)

    def test_each_other_status_fails(self):
        self.write("bin/paklour-loop", '#!/bin/sh\n[ -z "$WORDS" ] || echo "$WORDS" >&2\n[ "$STATUS" != 9 ] || kill -9 $$\nexit $STATUS\n', 0o755)
        path = f"{self.project}/bin:{self.environment['PATH']}"
        for status in ("1", "2", "3", "4", "5", "143"):
            self.failed('paklour.campaign("saving")', f"loop: as of {status}", PATH=path, STATUS=status, WORDS=f"loop: as of {status}")
        self.failed('paklour.campaign("saving")', "paklour-loop ended with -9 and printed nothing on standard error", PATH=path, STATUS="9", WORDS="")

    def waiting(self, is_ended) -> None:
        until = time.monotonic() + 30
        while not is_ended():
            self.assertLess(time.monotonic(), until)
            time.sleep(0.05)

    def patient(self) -> subprocess.Popen:
        """A pytest whose loop ends only by a signal."""
        self.write("bin/paklour-loop", PATIENT, 0o755)
        self.write("test_it.py", 'def test_it(paklour):\n    paklour.campaign("saving")\n')
        process = subprocess.Popen([PYTHON, "-m", "pytest"], cwd=self.project, stdout=subprocess.PIPE, stderr=subprocess.STDOUT, start_new_session=True,
            env=self.environment | {"PATH": f"{self.project}/bin:{self.environment['PATH']}"})
        self.addCleanup(process.stdout.close)
        return process

    def test_an_interrupt_ends_the_loop_first(self):
        process = self.patient()
        self.waiting((self.here / "begun").exists)
        process.send_signal(signal.SIGINT)
        self.assertEqual(process.wait(30), 2)
        self.assertEqual((self.here / "ended").read_text(), "ended\n")

    def test_another_call_waits(self):
        """Two calls of pytest have the same folder."""
        self.failed('paklour.campaign("saving")', "loop: [^\n]*: there is no such harness; [^\n]*")
        folder, = (self.project / ".pytest_cache" / "d" / "paklour").iterdir()
        with open(folder / ".lock", "w") as lock:
            fcntl.flock(lock, fcntl.LOCK_EX)
            process = self.patient()
            time.sleep(2)
            self.assertFalse((self.here / "begun").exists())
        self.waiting((self.here / "begun").exists)
        process.send_signal(signal.SIGINT)
        self.assertEqual(process.wait(30), 2)


class Others(Suites):
    """The page's tests of other languages, of its programs and of mended ones."""

    def holds(self, name: str, program: str, *words) -> None:
        self.write(name, program)
        status, said = self.called(*words)
        self.assertEqual(status, 0, said)

    def fails(self, name: str, *words) -> None:
        self.write("saving/harness.py", FILES["saving/harness.py"])
        self.write(name, FILES[name])
        status, said = self.called(*words)
        self.assertNotEqual(status, 0, said)
        self.found(said)
        self.assertEqual(os.listdir(self.project / "saving"), ["harness.py"])

    @unittest.skipUnless(shutil.which("cargo"), "cargo is not installed: its test isn't tried")
    def test_cargo(self):
        self.called("cargo", "init", "--offline", "--vcs", "none", "--name", "save")
        self.write("tests/saves.rs", FILES["tests/saves.rs"])
        self.fails("src/main.rs", "cargo", "test", "--offline")
        self.holds("src/main.rs", mended(FILES["src/main.rs"], 'fs::rename("new", "note")?;',
            'fs::File::open("new")?.sync_all()?; fs::rename("new", "note")?; fs::File::open(".")?.sync_all()?;'), "cargo", "test", "--offline")

    @unittest.skipUnless(shutil.which("go"), "go is not installed: its test isn't tried")
    def test_go(self):
        self.called("go", "mod", "init", "save")
        self.write("save_test.go", FILES["save_test.go"])
        self.fails("save.go", "go", "test")
        program = mended(FILES["save.go"], 'os.Rename("new", "note")', "renamed()") + """
func synced(name string) error {
	file, err := os.Open(name)
	if err != nil {
		return err
	}
	return file.Sync()
}

func renamed() error {
	if err := synced("new"); err != nil {
		return err
	}
	if err := os.Rename("new", "note"); err != nil {
		return err
	}
	return synced(".")
}
"""
        self.holds("save.go", program, "go", "test")

    @unittest.skipUnless(shutil.which("ctest"), "cmake is not installed: the test of CTest isn't tried")
    def test_ctest(self):
        commands, = re.findall(r"^```text\n(.*?)^```", PAGE.read_text("utf-8"), re.M | re.S)
        self.write("CMakeLists.txt", FILES["CMakeLists.txt"])
        self.fails("save.c", "sh", "-eu", "-c", commands)
        program = mended(FILES["save.c"], 'rename("new", "note")', 'synced("new") || rename("new", "note") || synced(".")')
        self.holds("save.c", "#include <fcntl.h>\n#include <unistd.h>\n\nstatic int synced(const char *name) { return fsync(open(name, O_RDONLY)); }\n\n"
            + program, "sh", "-eu", "-c", commands)


if __name__ == "__main__":
    unittest.main()
