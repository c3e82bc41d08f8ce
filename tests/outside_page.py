#!/usr/bin/env python3
"""Performs parts of pages as a reader would, and compares what is written with what they show.

    tests/outside_page.py PAGE[#HEADING]..

`paklour` has to be on the PATH, and outside/ built. Of a page the part below HEADING is performed, or, where none is named, all of it.
In one folder for all of them a block that begins with `#!` becomes the file that its second line names, one of `toml` with a name in its first line that file, and each
other block of `sh` is run. Those that run an example of outside/ aren't, which tools/page_rules holds to their reports, nor those that certify findings, which
take minutes and root: the tests of outside/ do that. Behind a command, a comment is a line that the block writes, up to `, and so on`. A block without a language shows how standard output ends that was written last, or lines of standard
error, in any order; and a report's line that the text names, as `beyond 2`, is one that was written last. Prints each difference, and at last how
many things were compared. Fails where something differs.
"""
import os
import re
import subprocess
import sys
import tempfile

TOP = os.path.normpath(os.path.join(os.path.dirname(os.path.abspath(__file__)), ".."))
NAMED = re.compile(r"`((?:clean|counts|first) [^`\n]+|(?:census|depth|level|onward|beyond|reached|plans|causes) [^`\n]*\d)`")
LEFT_OUT = re.compile("outside/examples/|--certify")


class Reader:
    """Someone who follows the page in a folder."""

    def __init__(self, folder):
        self.folder, self.wrote, self.told, self.compared, self.differs = folder, None, "", 0, []

    def expect(self, what, holds):
        self.compared += 1
        if not holds:
            self.differs.append(what)

    def file(self, name, text):
        path = os.path.join(self.folder, name)
        with open(path, "w", encoding="utf-8") as file:
            file.write(text)
        os.chmod(path, 0o755)

    def block(self, language, text):
        """A block of code, by its language."""
        if text.startswith("#!"):
            self.file(re.match(r".*\n# (\S+)", text)[1], text)
        elif language == "toml" and text.startswith("# "):
            self.file(text.split()[1], text)
        elif language == "sh" and LEFT_OUT.search(text):
            self.wrote = None
        elif language == "sh":
            self.run(text)
        elif language == "" and self.wrote is not None:
            shows = ("\n" + self.wrote).endswith("\n" + text) or set(text.splitlines()) <= set(self.told.splitlines())
            self.expect(f"shows otherwise: {text.splitlines()[0]}", shows)

    def run(self, text):
        """Runs commands. What they find is no error, so 1 is none."""
        commands = os.path.join(TOP, "outside", "out", "bin")
        variables = {"PATH": f"{commands}:{os.environ['PATH']}", "TMPDIR": self.folder, "TRACE": ""}
        done = subprocess.run(["sh", "-eu", "-c", text], cwd=self.folder, env={**os.environ, **variables}, stdin=subprocess.DEVNULL,
                              capture_output=True, timeout=120, check=False)
        self.wrote, self.told = done.stdout.decode(), done.stderr.decode()
        self.expect(f"ended with {done.returncode}: {text.splitlines()[-1]}", done.returncode in (0, 1))
        for comment in re.findall(r" {2,}# (.*)$", text, re.M):
            shown = comment.removesuffix(", and so on")
            self.expect(f"no line {shown}", shown in self.wrote.splitlines())

    def text(self, words):
        """What stands between two blocks."""
        for line in NAMED.findall(words) if self.wrote is not None else ():
            self.expect(f"no line {line}", line in self.wrote.splitlines())


def parts_of(page):
    """Words, and the language and text of the block that follows them, where one does."""
    page, _, heading = page.partition("#")
    with open(page, encoding="utf-8") as file:
        part = file.read()
    if heading:
        part = re.search(rf"^## {heading}\n(.*?)(?:^## |\Z)", part, re.M | re.S)[1]
    parts = re.split(r"^```(\w*)\n(.*?)^```\n", part, flags=re.M | re.S)
    return zip(parts[::3], [*parts[1::3], None], [*parts[2::3], None])


def main():
    with tempfile.TemporaryDirectory() as folder:
        reader = Reader(folder)
        for page in sys.argv[1:]:
            for words, language, text in parts_of(page):
                reader.text(words)
                if text is not None:
                    reader.block(language, text)
    for what in reader.differs:
        print(what)
    print(f"{reader.compared} compared, {len(reader.differs)} differ")
    return 1 if reader.differs else 0


sys.exit(main())
