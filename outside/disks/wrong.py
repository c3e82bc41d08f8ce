"""Wrong models of a disk, each of which somebody has believed in: the comparison has to find each of them."""

import copy
import itertools
from collections.abc import Callable, Iterator
from dataclasses import dataclass

from .comparison import Run, missing
from .disk import BLOCK
from .model import Model, Part, Way, block_of
from .profile import Profile, Rule
from .steps import Mode, Names, Step, Sync

NAMING = ("fsync", "fdatasync", "dsync", "msync")


@dataclass
class Wrong:
    """A profile's edit, and the model that takes it."""

    name: str
    edit: Callable[[Profile], None] = lambda profile: None
    model: type[Model] = Model

    def is_found(self, profile: Profile, run: Run) -> bool:
        edited = copy.deepcopy(profile)
        self.edit(edited)
        return any(missing(edited, run, self.model))


def saving_names(*syncs: str) -> Callable[[Profile], None]:
    """Each of these syncs, of any file, saves all earlier changes of names."""
    return lambda profile: profile.rules.extend(Rule(sync, "file", ["always"], ["names-all"], []) for sync in syncs)


def with_rename(profile: Profile) -> None:
    profile.rules.append(Rule("fdatasync", "file", ["always"], ["names"], []))


def with_bytes(profile: Profile) -> None:
    profile.leaves |= {"zeros": "never"}


class WholeWrites(Model):
    """Each write is there or not, in all its blocks."""

    def way(self, there: set[Part], free: set[Part]) -> Way:
        return WayOfWholeWrites(self, there, free)


class WayOfWholeWrites(Way):
    def bytes_of(self, number: int) -> list[tuple[int, list[set[bytes]]]]:
        moments = self.model.moments[number]
        last = self.model.length_since.get(number, 0)
        pending = range(last + 1, len(moments))
        found = []
        for chosen in itertools.product((False, True), repeat=len(pending)):
            contents = moments[last].contents
            for moment in itertools.compress(pending, chosen):
                contents = moments[moment].made_in(contents)
            found.append((len(contents), [{block_of(contents, block, len(contents))} for block in range((len(contents) + BLOCK - 1) // BLOCK)]))
        return found


class LastingModes(Model):
    """A file's mode lasts at once."""

    def take(self, step: Step, number: int, returned: bool = True) -> None:
        super().take(step, number, returned)
        self.lasting |= {(at, 0) for at, change in enumerate(self.sequence) if isinstance(change, Mode)}


class WholeMoves(Model):
    """The sync of a folder makes a move into it last whole."""

    def parts_of(self, word: str, sync: Sync, condition: list[str]) -> set[Part]:
        found = super().parts_of(word, sync, condition)
        if word != "entries":
            return found
        moved = {at for at, _ in found if isinstance(self.sequence[at], Names) and self.sequence[at].moves}
        return found | {(at, part) for at in moved for part in range(2)}


WRONG = [
    Wrong("each sync of a file saves all names before it", saving_names(*NAMING)),
    Wrong("the fsync of an unchanged file saves names", saving_names("fsync")),
    Wrong("a write is one change", model=WholeWrites),
    Wrong("a length comes with its bytes", with_bytes),
    Wrong("a mode lasts at once", model=LastingModes),
    Wrong("fdatasync saves a rename", with_rename),
    Wrong("a move is whole by the sync of its new folder", model=WholeMoves),
]


def found_wrong(profile: Profile, runs: Iterator[Run]) -> dict[str, int]:
    """For each wrong model how many workloads were needed to find it; 0 if it wasn't found."""
    needed = {wrong.name: 0 for wrong in WRONG}
    for count, run in enumerate(runs, 1):
        for wrong in WRONG:
            if not needed[wrong.name] and wrong.is_found(profile, run):
                needed[wrong.name] = count
        if all(needed.values()):
            break
    return needed
