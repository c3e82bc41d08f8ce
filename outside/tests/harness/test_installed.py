"""Installed somewhere, and used from an empty folder: with no checkout and no variable, as docs/TUTORIAL.md begins."""

import os
import re
import shutil
import subprocess
import sys
import tempfile
import unittest
from pathlib import Path

from .base import OUTSIDE, PROGRAM

sys.path.insert(0, str(OUTSIDE))

from harness.command import FLAGS, LISTING, WITH_VALUE  # noqa: E402

TOP = OUTSIDE.parent
COMMANDS = ["paklour-census", "paklour-faults", "paklour-loop", "paklour-new", "paklour-powercut"]


def steps() -> list[tuple[str, str]]:
    """The first two steps of the tutorial: languages and texts of their blocks."""
    page = (TOP / "docs" / "TUTORIAL.md").read_text("utf-8")
    return re.findall(r"^```(\w*)\n(.*?)^```", re.search(r"^## 1\. .*?(?=^## 3\. )", page, re.M | re.S)[0], re.M | re.S)


class Installed(unittest.TestCase):
    @classmethod
    def setUpClass(cls):
        cls.here = Path(tempfile.mkdtemp(dir="/dev/shm" if os.access("/dev/shm", os.W_OK) else None))
        cls.addClassCleanup(shutil.rmtree, cls.here)
        cls.there = cls.here / "installed"
        cls.prefix = cls.there / "usr" / "local"
        cls.environment = {"PATH": f"{cls.prefix}/bin:/usr/bin:/bin", "TMPDIR": str(cls.here), "LC_ALL": "C"}
        cls.make("install", f"PROGRAM={PROGRAM}")

    @classmethod
    def make(cls, *words):
        subprocess.run(["make", "-s", "-C", TOP, "--no-print-directory", *words, f"DESTDIR={cls.there}"], env=cls.environment, check=True)

    def run_in(self, folder, text) -> subprocess.CompletedProcess:
        return subprocess.run(["sh", "-eu", "-c", text], cwd=folder, env=self.environment, capture_output=True, text=True, check=False)

    def test_the_tutorial_begins(self):
        (_, program), (_, commands), (_, told) = steps()
        folder = Path(tempfile.mkdtemp(dir=self.here))
        (folder / "save.py").write_text(program)
        done = self.run_in(folder, commands)
        self.assertEqual(done.returncode, 1, done.stderr)
        self.assertEqual(done.stdout, f"paklour-loop {folder}/saving\n")
        self.assertIn(told, done.stderr)
        self.assertIn("\nagain: paklour-loop saving --try none\n", done.stderr)

    def test_a_link_leads_to_a_command(self):
        for name in COMMANDS:
            with self.subTest(name):
                command = (self.prefix / "bin" / name).resolve()
                self.assertTrue(command.is_relative_to(self.prefix / "lib" / "paklour"), command)
                done = self.run_in(self.here, f"{name} --help")
                self.assertEqual((done.returncode, done.stderr), (0, ""))
                self.assertIn(f"Usage: {name} ", done.stdout)

    def test_the_plugin_of_pytest_is_there(self):
        """In the folder that docs/TEST_SUITES.md names."""
        place = "lib/paklour/python"
        self.assertEqual(os.listdir(self.prefix / place), ["paklour_pytest.py"])
        self.assertIn(f"\npythonpath = /usr/{place}\n", (TOP / "docs" / "TEST_SUITES.md").read_text("utf-8"))

    def test_each_has_a_page_and_completions(self):
        share = self.prefix / "share"
        for place in ("man/man1/{}.1", "bash-completion/completions/{}", "zsh/site-functions/_{}", "fish/vendor_completions.d/{}.fish"):
            for name in ["paklour", *COMMANDS]:
                self.assertTrue((share / place.format(name)).exists(), place.format(name))

    def files(self, folder: Path) -> set[str]:
        return {str(path.relative_to(folder)) for path in folder.rglob("*") if path.is_symlink() or not path.is_dir()}

    def test_a_package_has_the_same(self):
        version = subprocess.run([PROGRAM, "--version"], capture_output=True, text=True, check=True).stdout.split()[1]
        sources = (TOP / "crates" / "command_words" / "src" / "words.rt").read_text("utf-8")
        if not shutil.which("dpkg-deb") or f'VERSION: &str = "{version}"' not in sources:
            self.skipTest("no dpkg-deb, or a program of another version than that of the sources")
        package = subprocess.run([TOP / "tools" / "deb", PROGRAM, self.here], capture_output=True, text=True, check=True).stdout.strip()
        subprocess.run(["dpkg-deb", "--extract", package, self.here / "extracted"], check=True)
        fields = subprocess.run(["dpkg-deb", "--field", package, "Version", "Depends"], capture_output=True, text=True, check=True).stdout
        self.assertRegex(fields, rf"\AVersion: {re.escape(version)}\nDepends: libc6 \(>= 2\.\d+\), python3 \(>= 3\.11\)\n\Z")
        there = {re.sub(r"(man1/.*)", r"\1.gz", name.replace("zsh/site-functions", "zsh/vendor-completions"))
            for name in self.files(self.prefix) if "__pycache__" not in name}
        self.assertEqual(self.files(self.here / "extracted" / "usr"), there | {"share/doc/paklour/copyright", "share/doc/paklour/changelog.gz"})

    def test_all_is_taken_away(self):
        self.run_in(self.here, "paklour-new --help")
        self.assertTrue((self.prefix / "lib" / "paklour" / "harness" / "__pycache__").exists(), "Python keeps what it has compiled")
        other = self.prefix / "share" / "man" / "man7"
        other.mkdir()
        self.make("uninstall")
        left = {str(path.relative_to(self.prefix)) for path in self.prefix.rglob("*")}
        other.rmdir()
        self.make("install", f"PROGRAM={PROGRAM}")
        self.assertEqual(left, {"share", "share/man", "share/man/man7"}, "what is empty and not of others is gone too")


class Pages(unittest.TestCase):
    def test_they_are_what_the_help_gives(self):
        done = subprocess.run([TOP / "tools" / "pages", "--check"], capture_output=True, text=True, check=False)
        self.assertEqual((done.returncode, done.stderr), (0, ""))

    def test_the_help_of_the_loop_has_its_options(self):
        said = subprocess.run([OUTSIDE / "loop", "--help"], capture_output=True, text=True, check=True).stdout
        self.assertEqual({word for item in re.findall(r"^  (-.*?)(?:  |$)", said, re.M) for word in re.findall(r"(?<![\w-])--?\w[\w-]*", item)},
            FLAGS | WITH_VALUE | LISTING.keys())

    def completed(self, *words):
        """What bash offers for the last of these words."""
        script = '. "$1"; shift; COMP_WORDS=("$@") COMP_CWORD=$(($# - 1)); "_${1//-/_}"; echo "${COMPREPLY[*]}"'
        file = TOP / "share" / "bash-completion" / "completions" / words[0]
        done = subprocess.run(["bash", "-c", script, "bash", file, *words], cwd=OUTSIDE / "flaws", capture_output=True, text=True, check=True)
        return sorted(done.stdout.split())

    def test_bash_completes(self):
        self.assertEqual(self.completed("paklour-loop", "--de"), ["--depth"])
        self.assertEqual(self.completed("paklour-loop", "--depth", ""), [])
        self.assertEqual(self.completed("paklour-loop", "--into", "no"), ["note", "note.c", "note.go", "note.py"])
        self.assertEqual(self.completed("paklour-loop", "--engine", ""), ["parallel"])
        self.assertEqual(self.completed("paklour-powercut", "re"), ["recover"])
        self.assertEqual(self.completed("paklour-powercut", "cut", "log"), ["log", "log.c", "log.go", "log.py"])
        self.assertEqual(self.completed("paklour-faults", "--order", "n"), ["next"])

    def test_manuals_format_without_a_warning(self):
        if not shutil.which("groff"):
            self.skipTest("groff is not installed")
        for name in COMMANDS:
            done = subprocess.run(["groff", "-man", "-Tascii", "-ww", TOP / "share" / "man" / "man1" / f"{name}.1"], capture_output=True, check=True)
            self.assertEqual(done.stderr, b"", name)


if __name__ == "__main__":
    unittest.main()
