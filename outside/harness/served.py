"""Calls functions of a harness, each in a process that is forked from a waiting Python, which has read the harness and needs no start. One such
program serves one call at a time."""

import json
import subprocess
import sys
import threading
from pathlib import Path

from .answers import Stopped
from .definition import STEP
from .processes import WITHIN, Processes
from .room import Room
from .step import LATE

FOR_EVER = 1 << 30  # seconds


class Served:
    def __init__(self, file: Path, processes: Processes):
        self.file = file
        self.processes = processes
        self.lock = threading.Lock()
        self.free: list[subprocess.Popen] = []

    def take(self) -> subprocess.Popen:
        with self.lock:
            if self.free:
                return self.free.pop()
        words = [str(WITHIN), str(FOR_EVER), "-", sys.executable, str(STEP), str(self.file), "--serve"]
        return self.processes.start(words, stdin=subprocess.PIPE, stdout=subprocess.PIPE)

    def call(self, step: str, folder: Path, output: Path, environment: dict[str, str], room: Room) -> tuple[int, str]:
        """Calls a function. Returns its status, and why it was ended, or an empty text."""
        server = self.take()
        files = {"folder": str(folder / "data"), "output": str(output), "errors": str(folder / "errors")}
        asked = {"step": step, "environment": environment, "seconds": room.bounds.seconds} | files
        with room.watched(server, folder):
            told = ask(server, json.dumps(asked))
        if why := room.why_ended(folder):
            return 0, why
        if not told:
            raise Stopped(f"{self.file}: the Python process that calls its functions has ended")
        with self.lock:
            self.free.append(server)
        return (0, f"it was ended after {room.bounds.seconds} seconds (--seconds)") if told == LATE else (int(told), "")


def ask(server: subprocess.Popen, line: str) -> str:
    """The server's line for this request, or an empty text if the server has ended."""
    try:
        server.stdin.write(line.encode() + b"\n")
        server.stdin.flush()
        return server.stdout.readline().decode().strip()
    except BrokenPipeError:
        return ""
