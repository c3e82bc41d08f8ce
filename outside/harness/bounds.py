"""The limits of one run: time, bytes and hits."""

from dataclasses import dataclass
from pathlib import Path

from . import tree
from .trace import MOST_HITS, hits_too_often, length_of

TEXTS = ("said", "said_again", "said_killed", "errors", "judged")
NOTES = ("run", "rewound", "killed")  # the folders of the notes of a run. The others have those of `again`, and before it the hits of `run`


@dataclass
class Bounds:
    seconds: int  # that each program of the run may take
    most: int  # bytes that the run may write

    def passed(self, folder: Path) -> str:
        """The limit that a run has passed, as a text, or an empty text."""
        noted = max(length_of(folder / notes / "changes") for notes in NOTES)
        written = tree.size(folder / "data") + tree.size(folder / "tmp") + sum(length_of(folder / name) for name in TEXTS) + noted
        if written > self.most:
            return f"it wrote more than {self.most} bytes (--bytes)"
        if any(hits_too_often(folder / notes) for notes in NOTES):
            return f"it hit more than {MOST_HITS} points"
        return ""
