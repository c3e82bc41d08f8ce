"""Whether a process of a run crashed: it ended by a signal that no fault sent, or a sanitizer found an error in it."""

import mmap
import re
import signal
from pathlib import Path

CRASHES = "crashes"  # in the folder of a run's notes. The supervisor writes a line for each crash: after how many hits it was seen, signal, program
BY_SHELL = 128  # and the number of the signal: so a shell has the status of a program that ended by one
SIGNALS = {signal.SIGILL, signal.SIGTRAP, signal.SIGABRT, signal.SIGBUS, signal.SIGFPE, signal.SIGSEGV, signal.SIGSYS}
SANITIZER = re.compile(rb"(?:ERROR: (?:Address|Leak)Sanitizer|WARNING: (?:Thread|Memory)Sanitizer|\S+:[0-9]+: runtime error: ).*")


def noted_crash(run: Path, hit: int | None = None) -> str:
    """The signal and the program of the first crash that was noted before this hit, or in the whole run, or an empty text."""
    path = run / CRASHES
    for line in path.read_text("utf-8", "surrogateescape").splitlines() if path.exists() else []:
        hits, name, program = line.split("\t", 2)
        if hit is None or int(hits) < hit:
            return f"{name}, {program}"
    return ""


def told_crash(step: str, status: int, errors: Path, begin: int, end: int) -> str:
    """The crash that a step's status tells, or what it wrote to standard error between two places, or an empty text."""
    if status - BY_SHELL in SIGNALS:
        return f"{signal.Signals(status - BY_SHELL).name}, {step}"
    if begin == end:
        return ""
    with open(errors, "rb") as file, mmap.mmap(file.fileno(), end, access=mmap.ACCESS_READ) as text:
        found = SANITIZER.search(text, begin)
        return found[0].decode("utf-8", "surrogateescape") if found else ""
