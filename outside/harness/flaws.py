"""The five commonest flaws: for each the sentence on its mend, with the section of docs/FLAWS.md that has an example."""

from enum import Enum


class Flaw(Enum):
    """The name of its section, as a link has it, and its mend."""

    NOT_LOOKED_AT = ("a-result-that-isnt-looked-at", "look at what each call returns, and if one fails, keep the old data and end with another status than 0")
    RENAMED_FIRST = ("a-rename-before-the-sync", "sync the new file, and rename it only if that has succeeded")
    FOLDER_NOT_SYNCED = ("a-folder-that-is-never-synced", "open the folder and sync it after the last change of a name in it, before the promise")
    TAIL_TAKEN = ("a-tail-that-is-taken", "give each record its length and a checksum, and at the start cut off what doesn't fit")
    OLD_GONE_FIRST = ("old-data-go-before-the-new-ones-last", "write the new data beside the old, sync them, and only then cut or remove the old")

    def said(self, guess: str) -> list[str]:
        """The guess, and below it the mend."""
        section, mend = self.value
        return [guess, f"mend: {mend} (docs/FLAWS.md#{section})"]
