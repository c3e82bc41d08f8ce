"""Writes lines for a person to standard error, and texts to standard output."""

import contextlib
import os
import re
import signal
from collections.abc import Callable
from pathlib import Path

from .answers import WRITE_FAILED, Stopped

OUTPUT, ERRORS = 1, 2
RED, GREEN, YELLOW = "31", "32", "33"  # as a terminal has them
CLEAR = "\r\x1b[K"  # makes a terminal's line empty
COLUMNS = 80  # of a terminal that doesn't know its size
CONTROL = re.compile(r"[\x00-\x1f\x7f-\x9f\udc80-\udc9f]")  # those of Unicode, as which a terminal may also take bytes that are no UTF-8
LAST_LINES, LAST_BYTES = 5, 65536  # of what a program wrote, at most so much is shown


class NobodyReads(Exception):
    """Nobody reads any more what is written, for example behind `head`."""


def until_nobody_reads(perform: Callable[[], int]) -> int:
    """The status of `perform`. If nobody reads the output any more, this program ends by SIGPIPE and without a message, as others do."""
    try:
        return perform()
    except NobodyReads:
        signal.signal(signal.SIGPIPE, signal.SIG_DFL)
        signal.raise_signal(signal.SIGPIPE)
        raise


def write_whole(file: int, text: bytes) -> None:
    """Writes without a buffer, so that what can't be written isn't tried again at the end."""
    rest = memoryview(text)
    try:
        while rest:
            rest = rest[os.write(file, rest):]
    except BrokenPipeError as error:
        raise NobodyReads from error


def write_out(text: bytes) -> None:
    try:
        write_whole(OUTPUT, text)
    except OSError as error:
        raise Stopped(f"standard output: {error.strerror}", WRITE_FAILED) from error


def escaped(text: str) -> str:
    """The text with each control character as \\x1b."""
    return CONTROL.sub(lambda found: f"\\x{ord(found[0]) & 0xff:02x}", text)


def plain(text: bytes, most: int) -> str:
    """The text as settings may have it: without control characters, and of at most so many bytes."""
    letters = text[:most].decode("utf-8", "ignore")
    return "".join(letter if letter.isprintable() else "?" for letter in letters)


def so_many(count: int, what: str) -> str:
    """So many of them, in words."""
    return f"{count} {what}{'s' * (count != 1)}"


def last_lines(path: Path, begin: int = 0, end: int | None = None) -> str:
    """The last lines that were written to a file between two places."""
    if not path.exists():
        return ""
    with open(path, "rb") as file:
        end = file.seek(0, os.SEEK_END) if end is None else end
        begin = max(begin, end - LAST_BYTES)
        file.seek(begin)
        return last_of(file.read(end - begin))


def last_of(text: bytes) -> str:
    """The last lines of a text."""
    return "\n".join(text[-LAST_BYTES:].decode("utf-8", "surrogateescape").strip().splitlines()[-LAST_LINES:])


def from_here(path: Path) -> Path:
    """The path as a person would name it."""
    here = Path.cwd()
    return path.resolve().relative_to(here) if path.resolve().is_relative_to(here) else path


def is_terminal() -> bool:
    """Whether standard error is a terminal on which a line can be written over."""
    return os.isatty(ERRORS) and os.environ.get("TERM", "dumb") != "dumb"


def coloured(line: str, colour: str) -> str:
    return f"\x1b[{colour}m{line}\x1b[0m" if colour and is_terminal() and not os.environ.get("NO_COLOR") else line


def show(text: str, colour: str = "") -> None:
    """Writes lines to standard error, above the one that is written over. If that fails, only the exit status is left."""
    with contextlib.suppress(OSError):
        for line in text.splitlines():
            write_whole(ERRORS, f"{status.cleared()}{coloured(escaped(line), colour)}\n".encode("utf-8", "surrogateescape"))
        status.write()


class Status:
    """The last line of a terminal, which is written over."""

    def __init__(self) -> None:
        self.text = ""

    def cleared(self) -> str:
        return CLEAR if self.text else ""

    def write(self) -> None:
        if self.text:
            write_whole(ERRORS, (CLEAR + self.text).encode())

    def show(self, text: str) -> None:
        """Shows this text in place of the one before. An empty one leaves the line empty."""
        with contextlib.suppress(OSError):
            before, self.text = self.cleared(), text and text[:(os.get_terminal_size(ERRORS).columns or COLUMNS) - 1]
            write_whole(ERRORS, (before + self.text).encode())


status = Status()


told: set[str] = set()


def show_once(text: str) -> None:
    """Writes each line only once, though each run has it again."""
    for line in text.splitlines():
        if line not in told:
            show(line)
        told.add(line)
