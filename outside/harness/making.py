"""The command `paklour-new`, which writes a harness for a program that exists."""

import os
import shlex
import shutil
import sys
from dataclasses import dataclass
from pathlib import Path

from . import tree
from .answers import WRITE_FAILED, Stopped, stopped_by
from .identity import WRITTEN, is_passed_over
from .programs import check_built
from .shown import ERRORS, from_here, show, until_nobody_reads, write_out
from .step import STEPS
from .trial import CANNOT, expect, leave, try_alone, try_server
from .words import ASK_HELP, Usage, as_called, refused, write_help

NAMES = {*STEPS, "operations", "workload", "length", "unjudged", "allowed", "quiet", "harness.py", "settings.toml", "message",  # that mean something in a harness
    "expected", "left", "journaled", *WRITTEN}
FORMS = {"--server": "server", "--mail": "mail", "--session": "session"}
FLAGS = {"--mail", "--session", "--expect"}
STANDARD_INPUT = 0
ASKED = {  # the options that a terminal is asked for if they lack, with the question and the answers, of which the first is the default
    "--promises": ("Does the program promise that what it acknowledged is on the disk, or only that a kill loses nothing?", ("sync", "kill")),
    "--file-system": ("Does it rely on what ext4, XFS and Btrfs all keep (linux), on one of them, or on the letter of the standard alone (posix)?",
        ("linux", "ext4", "xfs", "btrfs", "posix")),
    "--abort": ("May an error end it by a signal, such as an abort?", ("no", "yes")),
    "--begins": ("Does a run begin with nothing, or again with what a run before it has left?", ("empty", "again")),
}
SAYS = {  # what an answer other than the default puts into a file of the harness
    ("--promises", "kill"): ("harness.py", 'states = ["live"]  # each run is judged as a kill leaves it: no power cut comes\n'),
    ("--file-system", "ext4"): ("harness.py", 'environment = {"FAULTS_SYNC": "ext4"}  # what a power cut keeps and leaves on ext4\n'),
    ("--file-system", "xfs"): ("harness.py", 'environment = {"FAULTS_SYNC": "xfs"}  # what a power cut keeps and leaves on XFS\n'),
    ("--file-system", "btrfs"): ("harness.py", 'environment = {"FAULTS_SYNC": "btrfs"}  # what a power cut keeps and leaves on Btrfs\n'),
    ("--file-system", "posix"): ("harness.py", 'environment = {"FAULTS_SYNC": "posix"}  # a name lasts with the sync of its folder alone\n'),
    ("--abort", "yes"): ("allowed", "crashed\n"),
}

PREPARE = """#!/bin/sh
# Fills the folder of the data, in which this script starts. What is there when it ends is on the disk, and each run begins with a copy of it.
# For example, a program that changes a note may begin with an old one:
#     printf old > note
# A harness that begins with an empty folder also finds a folder that the program never syncs. One that begins with data finds old data that are
# lost. So have one of each.
"""

PREPARE_AGAIN = """#!/bin/sh
# Fills the folder of the data, in which this script starts. What is there when it ends is on the disk, and each run begins with a copy of it: here with
# what one run without faults has left.
cp -a "$HARNESS/left/." .
"""

RUN = """#!/bin/sh
# Runs the program under faults, in the folder of the data. Each line that is printed here, by the program too, is a promise: from then on it must be
# true, whatever happens. A program that stores several things should print a line for each as soon as it is stored, for example: stored key
{command} || exit
echo done
"""

JUDGE = """#!/bin/sh
# Checks the promises, in the folder as a power cut left it. The file "$SAID" has the lines that `run` printed until then. Exit with 0 if the promises
# were kept. If one was broken, print a code that names it, such as lost, and exit with 1. With any other exit status the run has no verdict.
# Once `run` has printed done, each file has to be as a run without faults leaves it, in the folder `expected`. Until then a file that was there before,
# in "$PREPARED", has its old contents or its new ones, and one that is appended to begins with its old ones. If a journal has what a file lacks for a
# moment, write its name into `journaled`: until then it isn't looked at. Files that `unjudged` names have other contents in each run, so they only have
# to be there. If you change `prepare` or `run`, `paklour-new --expect` with this harness makes `expected` and `unjudged` anew.
there() { [ -e "$1" ] || [ -L "$1" ]; }
is_in() { for pattern in $(cat "$HARNESS/$1" 2> "$TMPDIR/none"); do case $2 in $pattern) return 0 ;; esac; done; return 1; } # LIST FILE
alike() { # FILE FOLDER: whether FOLDER has the same file, or neither has it
    there "$1" && there "$2/$1" || { ! there "$1" && ! there "$2/$1"; return; }
    [ -d "$1" ] && [ -d "$2/$1" ] || is_in unjudged "$1" || diff -q --no-dereference "$1" "$2/$1" > "$TMPDIR/differs"
}
begins() { [ -f "$1" ] && [ -f "$2" ] && cmp -s -n "$(stat -c %s "$2")" "$1" "$2"; } # FILE OLD: whether FILE begins with all that OLD has
broken() { echo "$file: $2" >&2; echo "$1"; exit 1; }

set -f # patterns aren't for names here
promised=$(grep -x done "$SAID")
for folder in "$PREPARED" "$HARNESS/expected"; do (cd "$folder" && find . -mindepth 1); done | LC_ALL=C sort -u > "$TMPDIR/files"
while IFS= read -r file; do
    file=${file#./}
    alike "$file" "$HARNESS/expected" && continue
    if [ -z "$promised" ]; then
        there "$PREPARED/$file" || continue # it is new
        alike "$file" "$PREPARED" && continue
        begins "$HARNESS/expected/$file" "$PREPARED/$file" && begins "$file" "$PREPARED/$file" && continue
        is_in journaled "$file" && continue
    fi
    there "$file" || broken lost "it isn't there"
    alike "$file" "$PREPARED" && broken lost 'it is as it was before'
    broken torn 'it has neither its old nor its new contents'
done < "$TMPDIR/files"
exit 0
"""

SERVER_RUN = """#!/bin/sh
# Runs the server under faults, in the folder of the data. Each line that is printed here is a promise: from then on it must be true, whatever happens.
# Several runs are made at once. So give the server a socket under "$TMPDIR", which each run has for itself. If it needs a fixed port, call
# paklour-loop with -j 1.
fail() {{
    kill -0 "$server" 2> "$TMPDIR/ended" || {{ wait "$server"; echo "the server ended with $?" >&2; }}
    tail -n 5 "$TMPDIR/output" >&2
    exit 1
}}
trap fail TERM # comes if it isn't ready in time
setsid {command} > "$TMPDIR/output" 2>&1 &
server=$!
while kill -0 "$server" 2> "$TMPDIR/ended" && ! {ready}; do sleep 0.05; done
kill -0 "$server" 2> "$TMPDIR/ended" || fail
# Send requests here, and print a line for each that the server acknowledged, for example:
#     redis-cli -s socket set key value && echo 'set key'
echo started
kill -s KILL -- "-$server" # with its children. An orderly shutdown would sync what wasn't synced, and so hide it
wait
exit 0
"""

SERVER_JUDGE = """#!/bin/sh
# Checks the promises, in the folder as a power cut left it. The file "$SAID" has the lines that `run` printed until then. Exit with 0 if the promises
# were kept. If one was broken, print a code that names it, such as lost, and exit with 1. With any other exit status the run has no verdict.
# This judge only checks that the server starts again.
setsid {command} > "$TMPDIR/output" 2>&1 &
server=$!
while kill -0 "$server" 2> "$TMPDIR/ended" && ! {ready}; do sleep 0.05; done
kill -0 "$server" 2> "$TMPDIR/ended" || {{
    wait "$server"
    echo "the server ended with $?" >&2
    tail -n 5 "$TMPDIR/output" >&2
    echo unopenable
    exit 1
}}
# Ask the server here for everything that "$SAID" lists, for example:
#     ! grep -qx 'set key' "$SAID" || [ "$(redis-cli -s socket get key)" = value ] || {{ echo lost; exit 1; }}
kill -s KILL -- "-$server"
exit 0
"""

MAIL_RUN = """#!/bin/sh
# Delivers a message under faults, in the folder of the data. Each line that is printed here is a promise: from then on it must be true, whatever happens.
{command} < "$HARNESS/message" || exit
echo delivered
"""

MAIL_JUDGE = """#!/bin/sh
# Checks the promises, in the folder as a power cut left it. The file "$SAID" has the lines that `run` printed until then. Exit with 0 if the promises
# were kept. If one was broken, print a code that names it, such as lost, and exit with 1. With any other exit status the run has no verdict.
grep -qx delivered "$SAID" || exit 0 # nothing was promised: the sender still has the message
grep -rqxF 'This line is the last.' . && exit 0
grep -rqxF 'This line is the first.' . && { echo torn; exit 1; }
echo lost
exit 1
"""

MESSAGE = """From: sender@example.org
To: receiver@example.org
Subject: A message
Message-ID: <1@example.org>

This line is the first.
This line is the last.
"""


OPERATIONS = "put a 1\nput b 2\n"

SESSION = """#!/bin/sh
# Does what it is asked to do, in the folder of the data: it reads operations, a line each, of those in the file `operations`, and prints each line as soon
# as that is done. From then on it must stay done, whatever happens. A program that reads operations by itself, and prints a line for each, may stand here
# alone, as in: exec program
while read -r operation; do
    {command} $operation < /dev/null >&2 && echo "$operation"
done
exit 0
"""

LOOK = """#!/bin/sh
# Prints what the store holds, in any form, in the folder as a power cut left it, and ends with 0, also if the store is empty. What it prints has to be what
# it prints after a run without faults of all operations that were acknowledged, and of the others each or not. So let it leave out times, and all else
# that two such runs don't have alike.
{command} list
"""


@dataclass(frozen=True)
class Wanted:
    folder: Path
    typed: list[str]  # the command
    options: dict[str, str]

    @property
    def paths(self) -> list[str]:
        """For each word of the command the whole path, if it names the program by a path, or so a file beside the harness, and otherwise an empty text."""
        whole = [os.path.abspath(word) if "/" in word else "" for word in self.typed]
        beside = self.folder.parent
        return [path if not number or Path(path).is_relative_to(beside) and os.path.isfile(path) else "" for number, path in enumerate(whole)]

    @property
    def command(self) -> str:
        """As a script of the harness has it. What has a path is found from the harness's folder, so that a harness that is copied together with its program
        runs the copy."""
        return " ".join('"$HARNESS"/' + shlex.quote(os.path.relpath(path, self.folder)) if path else shlex.quote(word)
            for word, path in zip(self.typed, self.paths))

    @property
    def form(self) -> str:
        return next((form for option, form in FORMS.items() if option in self.options), "command")


def write(path: Path, text: str) -> None:
    tree.write(path, text.encode("utf-8", "surrogateescape"))
    path.chmod(0o755)


def expect_anew(folder: Path) -> None:
    judge = folder / "judge"
    if not judge.exists() or b"$HARNESS/expected" not in judge.read_bytes():
        raise Stopped(f"{judge} doesn't look at `expected`: --expect is for a harness that paklour-new wrote for a command", CANNOT)
    expect(folder)


def link(program: str, folder: Path) -> None:
    """Links a program that was named by its path into the harness, so that answers belong to it too."""
    name = os.path.basename(program)
    if name not in NAMES and not is_passed_over(name) and os.access(program, os.R_OK) and not os.path.lexists(folder / name):
        (folder / name).symlink_to(os.path.relpath(program, folder))


def options_of(words: list[str]) -> tuple[dict[str, str], list[str]]:
    """The options, which stand before the harness's folder, and the other words."""
    options: dict[str, str] = {}
    rest = list(words)
    while rest and rest[0].startswith("-"):
        word = rest.pop(0)
        if word in FLAGS:
            options[word] = "yes"
        elif word not in ASKED and word != "--server":
            raise Usage(f"{word}: there is no such option")
        elif not rest:
            raise Usage(f"{word}: its value is missing")
        else:
            options[word] = rest.pop(0)
            if word in ASKED and options[word] not in ASKED[word][1]:
                raise Usage(f"{word} {options[word]}: the values are {', '.join(ASKED[word][1])}")
    return options, rest


def wanted_of(words: list[str]) -> Wanted:
    options, rest = options_of(words)
    if "--expect" in options:
        if len(rest) != 1 or len(options) > 1:
            raise Usage
        return Wanted(Path(rest[0]).resolve(), [], options)
    if len(rest) < 2 or len(options.keys() & FORMS.keys()) > 1:
        raise Usage
    if "--session" in options and options.setdefault("--begins", "empty") != "empty":
        raise Usage("--begins again: with --session what was there before comes from earlier operations")
    if not shutil.which(rest[1]):
        raise Stopped(f"there is no such program: {rest[1]}", CANNOT)
    return Wanted(Path(rest[0]).resolve(), rest[1:], options)


def ask(question: str, answers: tuple[str, ...]) -> str:
    """What a person answers on the terminal. An empty line, or the end of the input, is the first of the answers."""
    while True:
        show(f"{question} {' or '.join(answers)} [{answers[0]}]")
        answer = sys.stdin.readline().strip() or answers[0]
        if answer in answers:
            return answer


def answered(options: dict[str, str]) -> dict[str, str]:
    """The answer to each question: that of an option, or of a person on a terminal, or the default."""
    asks = os.isatty(STANDARD_INPUT) and os.isatty(ERRORS)
    return {option: options.get(option) or (ask(question, answers) if asks else answers[0]) for option, (question, answers) in ASKED.items()}


def loop_beside(new: str) -> str:
    """The name of the loop: `paklour-loop` beside `paklour-new`, `loop` beside `new`."""
    return as_called(os.path.join(os.path.dirname(new), os.path.basename(new).removesuffix("new") + "loop"))


def make(wanted: Wanted, answers: dict[str, str]) -> None:
    folder = wanted.folder
    try:
        folder.mkdir()
    except FileExistsError as error:
        raise Stopped(f"{folder} exists already: delete it, or give another name", CANNOT) from error
    except OSError as error:
        raise Stopped(f"{folder}: {error.strerror}", CANNOT) from error
    try:
        fill(wanted, answers)
        try_harness(wanted, answers["--begins"] == "again")
    except Stopped as stopped:
        raise Stopped(stopped.line + of_files_here(wanted), stopped.status) from stopped
    except BaseException:  # also if a key ends this program
        tree.remove(folder)
        raise


def of_files_here(wanted: Wanted) -> str:
    """What is said of a failed command that names a file of the current folder: it is run elsewhere, a slip that is easily made."""
    names = [word for word in wanted.typed[1:] if "/" not in word and os.path.isfile(word)]
    return f". The command is run in the folder of its data: name {', '.join(names)} by its path, such as ./{names[0]}" if names else ""


def try_harness(wanted: Wanted, begins_again: bool) -> None:
    folder = wanted.folder
    if wanted.form == "server":
        try_server(folder, wanted.options["--server"], lambda ready: write_server(wanted, ready))
    if begins_again:
        leave(folder)
        write(folder / "prepare", PREPARE_AGAIN)
    if wanted.form == "command":
        expect(folder)
    elif begins_again or wanted.form == "mail":
        try_alone(folder)


def write_server(wanted: Wanted, ready: str) -> None:
    """The scripts of a server, with the command that finds out whether it is ready."""
    for name, text in (("run", SERVER_RUN), ("judge", SERVER_JUDGE)):
        write(wanted.folder / name, text.format(command=wanted.command, ready=ready))


def fill(wanted: Wanted, answers: dict[str, str]) -> None:
    """Writes all but the scripts of a server, which depend on what it prints."""
    folder = wanted.folder
    write(folder / "prepare", PREPARE)
    if wanted.form == "command":
        write(folder / "run", RUN.format(command=wanted.command))
        write(folder / "judge", JUDGE)
    elif wanted.form == "mail":
        write(folder / "run", MAIL_RUN.format(command=wanted.command))
        write(folder / "judge", MAIL_JUDGE)
        tree.write(folder / "message", MESSAGE.encode())
    elif wanted.form == "session":
        write(folder / "session", SESSION.format(command=wanted.command))
        write(folder / "look", LOOK.format(command=wanted.command))
        tree.write(folder / "operations", OPERATIONS.encode())
    for path in filter(None, wanted.paths):
        link(path, folder)
    said: dict[str, str] = {}
    for answer in answers.items():
        if answer in SAYS:
            name, text = SAYS[answer]
            said[name] = said.get(name, "") + text
    for name, text in said.items():
        tree.write(folder / name, text.encode())


def tell_next(wanted: Wanted, answers: dict[str, str], new: str) -> None:
    """Says what is still to be written by a person, and which other harness finds more."""
    folder = from_here(wanted.folder)
    if wanted.form == "session":
        return show(f"new: now let {folder}/operations list what the program may be asked to do, in place of the two lines there, {folder}/session do it, and "
            f"{folder}/look print what the store holds")
    show(f"new: now let {folder}/prepare make what is there before, {folder}/run print a line for each promise, and {folder}/judge check these lines")
    if wanted.form == "command" and answers["--begins"] != "again":
        said = [word for option, answer in answers.items() if answer != ASKED[option][1][0] for word in (option, answer)]
        words = [as_called(new), *said, "--begins", "again", f"{folder}-again", *wanted.typed]
        show(f"new: a harness that begins with what a run has left also finds old data that are lost: {shlex.join(words)}")


def main(new: str, words: list[str]) -> int:
    return until_nobody_reads(lambda: perform(new, words))


def perform(new: str, words: list[str]) -> int:
    try:
        if words[:1] and words[0] in ASK_HELP:
            return write_help(new)
        wanted = wanted_of(words)
        check_built()
        if "--expect" in wanted.options:
            expect_anew(wanted.folder)
        else:
            answers = answered(wanted.options)
            make(wanted, answers)
            tell_next(wanted, answers, new)
        write_out(f"{shlex.join([loop_beside(new), str(wanted.folder)])}\n".encode("utf-8", "surrogateescape"))
    except Usage as usage:
        return refused(new, usage)
    except Stopped as stopped:
        show(f"new: {stopped.line}")
        return stopped.status
    except OSError as error:
        show(f"new: {stopped_by(error).line}")
        return WRITE_FAILED
    return 0
