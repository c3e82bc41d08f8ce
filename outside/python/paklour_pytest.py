"""A plugin of pytest: the fixture `paklour` runs campaigns, and a finding is a failing test with the words of `paklour-loop`.

    def test_saves(paklour):
        paklour.campaign(run=["./save.py", "young"], judge=judge)

docs/TEST_SUITES.md says how a project loads it."""

import contextlib
import fcntl
import hashlib
import inspect
import itertools
import os
import re
import shutil
import subprocess
import sys
from pathlib import Path

import pytest

LOOP = "paklour-loop"
OLDEST = (3, 11)  # the Python that the loop needs
STEPS = ("prepare", "run", "again", "judge")
OF_HARNESS = (*STEPS, "environment", "order", "pin", "unjudged", "allowed", "states", "version")  # what a harness.py may define; other words are options
SHORT = {"jobs": "-j"}
HEAD = """import importlib.util as _util
import sys as _sys

_sys.path[:] = {path!r}


def _function(module, file, name):
    if module not in _sys.modules:
        spec = _util.spec_from_file_location(module, file)
        _sys.modules[module] = _util.module_from_spec(spec)
        spec.loader.exec_module(_sys.modules[module])
    return getattr(_sys.modules[module], name)


"""


def fail(words):
    """Lets the test fail with these words, and no traceback of this file."""
    pytest.fail(words, pytrace=False)


@pytest.fixture
def paklour(request):
    """Campaigns of Paklour, by `paklour.campaign(run=.., judge=..)`."""
    missing = [name for name in (LOOP, "paklour") if not shutil.which(name)]
    if missing:
        fail(f"{' and '.join(missing)} can't be found by the PATH: install Paklour, or add the folder of its commands to the PATH")
    return Campaigns(request)


class Campaigns:
    """The campaigns of one test."""

    def __init__(self, request):
        self.request = request
        self.here = request.path.parent  # where the paths begin that a test names
        self.numbers = itertools.count(1)

    def campaign(self, harness=None, /, *, program=None, **words):
        """Runs a campaign of a harness, which is a path, or else consists of words such as `run` and `judge`. Other words are options of the loop. If
        `program` lists the files and folders of the program, answers are kept until one of them changes. Returns the folder of the report."""
        parts = {name: value for name, value in words.items() if name in OF_HARNESS and value is not None}
        if harness and parts:
            fail(f"{harness} has its own {', '.join(parts)}")
        if "into" in words:
            fail("into: each campaign has a folder of its own in pytest's cache")
        functions = [value for name, value in parts.items() if name in STEPS and callable(value)]
        options = words_of({name: value for name, value in words.items() if name not in OF_HARNESS})
        folder = self.folder()
        with alone(folder):
            if not harness:
                (folder / "harness.py").write_text(text_of(parts, functions, self.here), "utf-8")
            files = [Path(shutil.which("paklour")), *map(file_of, functions), *(self.here / path for path in listed(program))]
            keep(folder / "answers", program is not None, files)
            where = ["--into", folder, self.here / harness] if harness else [folder]
            status, told = called([*loop_for(functions), *options, *where], self.here)
        if status:
            fail(told.rstrip("\n") or f"{LOOP} ended with {status} and printed nothing on standard error")
        print(told, end="", file=sys.stderr)
        return folder

    def folder(self):
        """The folder of the next campaign of this test: the same whenever the test is run, unless pytest keeps no cache."""
        name = f"{self.request.node.nodeid} {next(self.numbers)}"
        short = f"{re.sub('[^A-Za-z0-9_.]+', '-', self.request.node.name)[:80]}-{hashlib.sha256(name.encode()).hexdigest()[:8]}"
        cache = getattr(self.request.config, "cache", None)
        folder = (cache.mkdir("paklour") if cache else self.request.getfixturevalue("tmp_path")).resolve() / short
        folder.mkdir(exist_ok=True)
        return folder


def called(words, here):
    """Calls a command there, and prints what it writes to standard output. Its status, and what it wrote to standard error."""
    with subprocess.Popen(words, cwd=here, stdin=subprocess.DEVNULL, stdout=subprocess.PIPE, stderr=subprocess.PIPE, encoding="utf-8",
            errors="backslashreplace") as process:
        try:
            out, told = process.communicate()
        except BaseException:  # such as KeyboardInterrupt: the loop ends what it has started, and says how many answers it keeps
            process.terminate()
            print(process.communicate()[1], end="", file=sys.stderr)
            raise
    print(out, end="")
    return process.returncode, told


def loop_for(functions):
    """The command of the loop. Functions run in its own Python, which is then that of the tests."""
    if functions and sys.version_info < OLDEST:
        fail(f"{functions[0].__name__} is a function, which needs Python {'.'.join(map(str, OLDEST))} or later: this is {sys.version.split()[0]}")
    return [sys.executable, shutil.which(LOOP)] if functions else [LOOP]


def words_of(options):
    """Options of a command line: `depth=2` is `--depth 2`, `strict=True` is `--strict`, `kinds=False` is `--no-kinds`, and a list repeats its option."""
    found = []
    for name, given in options.items():
        word = SHORT.get(name, "--" + name.replace("_", "-"))
        for value in listed(given):
            found += [word] if value is True else [word.replace("--", "--no-", 1)] if value is False else [word, str(value)]
    return found


def listed(value):
    """A list of the one value that stands in place of it, or of none."""
    return value if isinstance(value, (list, tuple)) else [] if value is None else [value]


def text_of(parts, functions, here):
    """The file of a harness with these parts. It stays the same, byte for byte, as long as they do."""
    head = HEAD.format(path=[os.path.abspath(entry) for entry in sys.path]) if functions else ""
    return head + "".join(f"{name} = {step_of(value, here) if name in STEPS else repr(value)}\n" for name, value in parts.items())


def step_of(value, here):
    """A step as a harness.py says it: a function, a script, a command, or a text for the shell."""
    if callable(value):
        if not inspect.isfunction(value) or not value.__qualname__.isidentifier():
            fail(f"{value} is no function by itself: define it in a module, and not in a class or another function")
        return f"_function({value.__module__!r}, {str(file_of(value))!r}, {value.__name__!r})"
    if isinstance(value, str):
        return repr(value)
    first, *others = listed(value)
    is_path = isinstance(first, os.PathLike) or "/" in first
    return repr([str(here / first) if is_path else first, *map(str, others)])


def file_of(function):
    return Path(inspect.unwrap(function).__globals__["__file__"])


def keep(answers, may, paths):
    """Deletes answers that the loop gave another name, and those of an earlier call, unless they may be kept and these paths have the same as then."""
    for other in answers.parent.glob(f"{answers.name}.[0-9]*"):
        other.unlink()
    sums = answers.with_name(".sums")
    now = "".join(f"{hashlib.sha256(file.read_bytes()).hexdigest()}  {file}\n" for path in paths for file in files_in(path))
    if not may or not sums.exists() or sums.read_text("utf-8") != now:
        answers.unlink(missing_ok=True)
    sums.write_text(now, "utf-8")


def files_in(path):
    """A file, or the files of a folder and below, but for hidden ones and what Python leaves."""
    if not path.exists():
        fail(f"{path}: there is no such file or folder")
    if not path.is_dir():
        return [path]
    return sorted(file for file in path.rglob("*") if file.is_file()
        and not any(part.startswith(".") or part == "__pycache__" for part in file.relative_to(path).parts))


@contextlib.contextmanager
def alone(folder):
    """Waits until no other process has a campaign in this folder."""
    with open(folder / ".lock", "w", encoding="utf-8") as lock:
        fcntl.flock(lock, fcntl.LOCK_EX)
        yield
