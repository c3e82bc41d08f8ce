"""The file of answers, which has a line for each run and so all that is known of a campaign."""

import errno
import fcntl
import itertools
import os
from pathlib import Path

MOST = 1048576  # bytes of an answer, with the end of its line
WRITE_FAILED = 4  # the exit status if something can't be written
DIFFERS = 5  # the exit status if a second run came out otherwise than the first
NO_ROOM = {errno.ENOSPC, errno.EDQUOT, errno.EFBIG, errno.EIO}


class Stopped(Exception):
    """Ends a campaign, with a line for a person and an exit status."""

    def __init__(self, line: str, status: int = 2):
        super().__init__(line)
        self.line = line
        self.status = status


def stopped_by(error: OSError) -> Stopped:
    """The end of a campaign after a call on one of its files failed."""
    return Stopped(f"{error.filename or 'a file'}: {error.strerror}", WRITE_FAILED if error.errno in NO_ROOM else 2)


def changed(what: str, first: str, then: str, scenario: str) -> str:
    """The line for a scenario whose second run gave another verdict than the first, or other hits."""
    return f"the {what} changed from {first or 'none'} to {then or 'none'}: {scenario}"


def whole_lines(text: bytes) -> list[str]:
    return text.decode("utf-8", "surrogateescape").split("\n")[:-1]


class Answers:
    """The answers of a campaign. Only one loop at a time has them open; if it is stopped, a later one goes on from them."""

    def __init__(self, path: str):
        self.path = path
        self.open()

    def open(self) -> None:
        try:
            self.file = os.open(self.path, os.O_WRONLY | os.O_APPEND | os.O_CREAT | os.O_CLOEXEC, 0o666)
        except OSError as error:
            raise Stopped(f"{self.path}: {error.strerror}") from error
        try:
            fcntl.flock(self.file, fcntl.LOCK_EX | fcntl.LOCK_NB)
        except BlockingIOError as error:
            raise Stopped(f"another loop is writing to {self.path}: wait until it has ended, or stop it") from error
        lines = self.lines()
        self.count = len(lines)
        self.failing = sum(line.startswith("fail") for line in lines)
        self.unresolved = sum(line.startswith("unresolved") for line in lines)

    def set_aside(self) -> str:
        """Gives the file another name, which is returned, and begins a new one. Nothing is deleted."""
        aside = next(name for number in itertools.count(1) if not os.path.lexists(name := f"{self.path}.{number}"))
        os.rename(self.path, aside)
        os.close(self.file)
        self.open()
        return aside

    def text(self) -> bytes:
        return Path(self.path).read_bytes()

    def lines(self) -> list[str]:
        """The lines that have an end. If a writer was killed in the last line, that line isn't among them."""
        return whole_lines(self.text())

    def cut_torn(self) -> None:
        """Cuts off what is behind the last whole line."""
        os.truncate(self.path, self.text().rfind(b"\n") + 1)

    def keep(self, answer: str) -> None:
        line = (answer + "\n").encode("utf-8", "surrogateescape")
        try:
            written = os.write(self.file, line)
            while written < len(line):
                written += os.write(self.file, line[written:])
        except OSError as error:
            self.cut_torn()
            raise Stopped(f"{self.path}: an answer can't be written: {error.strerror}") from error
        self.count += 1
        self.failing += answer.startswith("fail")
        self.unresolved += answer.startswith("unresolved")
