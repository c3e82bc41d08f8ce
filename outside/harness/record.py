"""A run that was made, from which others can be derived."""

from dataclasses import dataclass
from pathlib import Path

from .trace import MARKS


@dataclass
class Record:
    folder: Path
    scenario: str
    status: int
    why: str  # why the run has no verdict, or an empty text
    points: list[str]
    wrote: int = 0  # the bytes that `run` wrote to standard error
    is_cut: bool = False

    @property
    def data(self) -> Path:
        return self.folder / "data"

    @property
    def run(self) -> Path:
        return self.folder / "run"

    @property
    def rewound(self) -> Path:
        """The run's folder as it was at a hit. It is continued or cut."""
        return self.folder / "rewound"

    @property
    def killed(self) -> Path:
        """The run's folder as it was at a hit, after which recovery began with all that had been done."""
        return self.folder / "killed"

    @property
    def said_again(self) -> Path:
        """The file of what `again` prints after the cut."""
        return self.folder / "said_again"

    def place(self, hit: int) -> tuple[str, ...]:
        """How long the notes and the output were when that hit began."""
        return tuple((self.run / MARKS).read_text().splitlines()[hit - 1].split("\t")[1:])

    def said(self) -> bytes:
        return (self.folder / "said").read_bytes()
