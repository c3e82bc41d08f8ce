"""The programs that the loop starts. Each ends with the loop, with all that it started, in any session."""

import copy
import os
import subprocess
import threading
from pathlib import Path

OUTSIDE = Path(__file__).resolve().parent.parent
WITHIN = OUTSIDE / "out" / "within"
LASTS = 3  # the descriptor of a pipe whose other end closes when the loop ends, so that each run ends too


class Ended(Exception):
    """The loop ends, and starts nothing more."""


class Processes:
    """The programs that run now. It must be made before any other file is opened, since it takes descriptor 3."""

    def __init__(self) -> None:
        while (number := os.open(os.devnull, os.O_RDWR)) < LASTS:
            pass  # so that no file of the campaign gets the number of a standard stream that is closed
        os.close(number)
        reader, writer = os.pipe()
        self.reader = os.dup(reader) if reader == LASTS else reader
        os.dup2(writer, LASTS, inheritable=True)
        self.begin()

    def begin(self) -> None:
        self.lock = threading.Lock()
        self.running: set[subprocess.Popen] = set()
        self.is_ended = False

    def of_another(self) -> "Processes":
        """Those of another campaign, which end with the loop too, and go on when these are ended."""
        other = copy.copy(self)
        other.begin()
        return other

    def start(self, words: list[str], **options) -> subprocess.Popen:
        with self.lock:
            if self.is_ended:
                raise Ended
            process = subprocess.Popen(words, pass_fds=(LASTS,), **options)
            self.running.add(process)
        return process

    def ended(self, process: subprocess.Popen) -> None:
        with self.lock:
            if process.poll() is not None:  # a signal may have ended the wait for it
                self.running.discard(process)

    def end(self) -> None:
        """Asks each program to end, and waits for it. What runs by `within` has then ended too."""
        with self.lock:
            self.is_ended = True
            running = list(self.running)
        for process in running:
            process.terminate()
        for process in running:
            try:
                process.wait(7)
            except subprocess.TimeoutExpired:
                process.kill()
