"""Which line of a server's output says that the server is ready.

A server that prints `not ready yet` and then `ready` is ready at the line that is `ready` as a whole. One that puts the time before its words has no
such line. So what it prints in a first run decides how the scripts of the harness look for that line: as strictly as it can be found."""

import re
import shlex
import subprocess
from dataclasses import dataclass
from pathlib import Path

OUTPUT = '"$TMPDIR/output"'
WAITS = 2  # seconds in which a first run waits for a line that is taken by a stricter way than the one that is there
SPECIAL = re.compile(r"[][\\.*^$]")  # in a basic regular expression


@dataclass(frozen=True)
class Way:
    words: tuple[str, ...]  # for `grep`
    says: str  # which line it takes

    @property
    def command(self) -> str:
        """As a script looks for the line."""
        return f"grep -sq {shlex.join(self.words)} {OUTPUT}"

    def line_in(self, output: Path) -> str:
        """The first line that is taken, or an empty text."""
        found = subprocess.run(["grep", "-s", "-a", "-m", "1", *self.words, output], capture_output=True, check=False).stdout
        return found.decode("utf-8", "surrogateescape").rstrip("\n")


def ways_for(line: str) -> list[Way]:
    """The strictest first."""
    ends = SPECIAL.sub(lambda found: f"\\{found[0]}", line) + "$"
    return [Way(("-xF", "-e", line), "is that line"), Way(("-w", "-e", ends), "ends with it"), Way(("-wF", "-e", line), "has its words")]


def at_first(line: str) -> str:
    """As a script looks for the line while nobody knows how the server puts it: what comes behind a line that only has the words is waited for."""
    strictest, *_, loosest = ways_for(line)
    return f"{{ {strictest.command} || {{ {loosest.command} && sleep {WAITS}; }}; }}"
