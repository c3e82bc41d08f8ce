"""Scenarios as soon as they are known: what `paklour asks --follow` asks for while answers are recorded."""

import contextlib
import queue
import subprocess
import threading
from collections.abc import Iterator

from .answers import Answers
from .shard import scenario_in

SHARE = 8  # answers are kept back until they have grown by one part in so many
AT_ONCE = 65536  # bytes

Batch = list[str]


class Following:
    """The program that follows the answers. What it asks for at first is passed over, as it was asked for before or is answered."""

    def __init__(self, settings: str, answers: Answers, asked: Batch):
        self.known = {scenario_in(line) for line in answers.lines()} | set(asked)
        self.todo: queue.SimpleQueue[bytes | None] = queue.SimpleQueue()
        self.kept = b""  # answers that aren't passed on yet
        self.passed = 0  # bytes
        self.process = subprocess.Popen(["paklour", "asks", "--follow", settings], stdin=subprocess.PIPE, stdout=subprocess.PIPE, stderr=subprocess.DEVNULL)
        self.pass_on(answers.text())
        threading.Thread(target=self.write, daemon=True).start()

    def write(self) -> None:
        """Writes what is passed on, in a thread of its own, since the program reads nothing while it looks at the answers."""
        with contextlib.suppress(BrokenPipeError), self.process.stdin as answers:
            while (text := self.todo.get()) is not None:
                answers.write(text)
                answers.flush()

    def pass_on(self, text: bytes) -> None:
        self.passed += len(text)
        self.todo.put(text)

    def tell(self, answer: str, at_once: bool) -> None:
        """Passes on an answer, at once or when enough have come. The program looks at all answers each time, so it isn't to look too often."""
        self.kept += (answer + "\n").encode("utf-8", "surrogateescape")
        if at_once or len(self.kept) * SHARE >= self.passed:
            self.pass_on(self.kept)
            self.kept = b""

    def finish(self) -> None:
        """Passes on all answers. The program ends once it has looked at them."""
        self.pass_on(self.kept)
        self.kept = b""
        self.todo.put(None)

    def batches(self) -> Iterator[Batch]:
        """The scenarios that are asked for, until the program ends. Those of one look come together, or in a few batches if they are many."""
        rest = b""
        while read := self.process.stdout.read1(AT_ONCE):
            *lines, rest = (rest + read).split(b"\n")
            asked = [scenario for line in lines if (scenario := line.decode("utf-8", "surrogateescape")) not in self.known]
            self.known.update(asked)
            if asked:
                yield asked

    def has_failed(self) -> bool:
        return bool(self.process.poll())

    def end(self) -> None:
        self.process.kill()
        self.todo.put(None)
        self.process.wait()
