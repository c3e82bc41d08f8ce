"""The states that a profile has: what may be there after steps and a power cut.

All changes of names and attributes and all shortenings are in one sequence, in the order in which they were made. Of each file there are moments: one for
each change of its bytes. A state has some changes of the sequence, and of each file a length and blocks that are each as of a moment of its own.
"""

import itertools
from collections.abc import Iterator
from dataclasses import dataclass, field

from .disk import BLOCK, Entry
from .profile import Profile
from .steps import ROOT, Contents, Live, Mode, Names, Step, Sync, based

Part = tuple[int, int]  # the number of a change in the sequence, and of a part of it


@dataclass
class Moment:
    """A file's bytes after one of its changes. `touched` are the blocks that the change was of."""

    contents: bytes
    touched: set[int] = field(default_factory=set)
    shortening: Part | None = None
    position: int = 0  # how many changes the sequence had then
    begin: int = 0  # where the bytes begin and end that changed
    end: int = 0
    is_written: bool = True  # by bytes, and not by a new length alone

    def made_in(self, contents: bytes) -> bytes:
        """Other contents after the same change."""
        if self.shortening:
            return contents[:len(self.contents)]
        return contents.ljust(self.begin, b"\0")[:self.begin] + self.contents[self.begin:self.end] + contents[self.end:]


@dataclass
class Version:
    """What was at a place after a change; the first has none."""

    part: Part | None
    value: object
    is_aside: bool = False  # it isn't what its change did
    is_unsure: bool = False  # though it lasts, what was there before may be back
    is_committed: bool = False  # it was there when all was synced


def blocks(begin: int, end: int) -> set[int]:
    return set(range(begin // BLOCK, (end + BLOCK - 1) // BLOCK))


def block_of(contents: bytes, block: int, length: int) -> bytes:
    """A block of a file of this length: zeros where these contents have no bytes."""
    size = min(BLOCK, length - block * BLOCK)
    return contents[block * BLOCK:block * BLOCK + size].ljust(size, b"\0")


class Model:
    def __init__(self, profile: Profile) -> None:
        self.profile = profile
        self.live: Live = based()
        self.sequence: list[object] = []
        self.entries = {place: [Version(None, number)] for place, number in self.live.entries.items()}
        self.modes = {number: [Version(None, mode)] for number, mode in enumerate(self.live.modes)}
        self.moments = {number: [Moment(self.live.contents[number])] for number, kind in enumerate(self.live.kinds) if kind == "file"}
        self.lasting: set[Part] = set()
        self.may_last: set[Part] = set()
        self.synced: set[int] = set()  # what was synced itself since all was
        self.synced_folders: set[int] = set()  # those whose later moves, links and unlinks may come to last by a sync of anything
        self.length_since: dict[int, int] = {}  # of each file the moment since which its length lasts,
        self.block_since: dict[tuple[int, int], int] = {}  # of each block of it,
        self.length_alone: dict[int, int] = {}  # up to which moment it may have come to last while its bytes and shortenings didn't,
        self.least: dict[int, list[tuple[int, int]]] = {}  # and lengths that it has at least, each with the moment since which

    # ---- taking steps

    def take(self, step: Step, number: int, returned: bool = True) -> None:
        """Takes a step. A sync that hasn't returned has promised nothing, but may have made anything last."""
        for change in self.live.changes(step, number):
            if isinstance(change, Names):
                self.take_names(change)
            elif isinstance(change, Mode):
                self.modes[change.number].append(Version(self.next_parts(change, 1)[0], change.mode))
            elif isinstance(change, Contents):
                self.take_contents(change)
            else:
                self.sync(change, returned)

    def next_parts(self, change: object, count: int) -> list[Part]:
        self.sequence.append(change)
        return [(len(self.sequence) - 1, part) for part in range(count)]

    def take_names(self, change: Names) -> None:
        if change.makes is not None:
            self.modes[change.makes] = [Version(None, self.live.modes[change.makes])]
            if self.live.kinds[change.makes] == "file":
                self.moments[change.makes] = [Moment(b"", position=len(self.sequence) + 1)]
        subjects = self.synced.intersection(change.subjects if change.exchanges else change.subjects[:1])
        is_of_synced = bool(subjects)
        if change.makes is None and change.parts[0][2] is not None:  # the name of a synced file may come to last with its length
            self.length_alone |= {number: len(self.moments[number]) - 1 for number in subjects if number in self.moments}
        for part, (folder, name, number) in zip(self.next_parts(change, len(change.parts)), change.parts):
            versions = self.entries.setdefault((folder, name), [Version(None, None)])
            if change.makes is None and (folder in self.synced_folders or is_of_synced or self.profile.leaves["names"] == "any"):
                self.may_last.add(part)
                may_be_gone = self.may_be_gone(versions[-1].value, number)
                versions[-1].is_unsure |= may_be_gone
                if number is not None and may_be_gone:  # what was there is taken away, and what takes its place isn't there
                    gone = (part[0], part[1] + len(change.parts))
                    versions.append(Version(gone, None, is_aside=True))
                    self.may_last.add(gone)
            versions.append(Version(part, number))

    def may_be_gone(self, loser: int | None, taker: int | None) -> bool:
        """Whether a file may have lost its name while what takes it isn't there."""
        return loser is not None and (self.profile.leaves["names"] == "any" or (loser in self.synced and taker not in self.synced))

    def take_contents(self, change: Contents) -> None:
        moments = self.moments[change.number]
        if change.shortens:
            part = self.next_parts(change, 1)[0]
            length = len(change.contents)
            border = {length // BLOCK} if length % BLOCK else set()
            moments.append(Moment(change.contents, border, part, len(self.sequence), change.begin, change.end))
        else:
            moments.append(Moment(change.contents, blocks(change.begin, change.end), None, len(self.sequence), change.begin, change.end, change.is_written))

    # ---- syncs

    def sync(self, sync: Sync, returned: bool) -> None:
        of = "all" if sync.number is None else self.live.kinds[sync.number]
        rules = [rule for rule in self.profile.rules_of(sync.kind, of) if self.is_so(rule.condition, sync.number)]
        for word in (word for rule in rules for word in rule.may):
            if word == "later":
                self.synced.add(sync.number)
                self.synced_folders |= self.near(sync.number)[0]
            elif word == "lengths":
                self.length_alone |= {number: len(self.moments[number]) - 1 for number in self.near(sync.number)[1] if number in self.moments}
            else:
                self.may_last |= self.parts_of(word, sync, [])
        if not returned:
            for rule in rules:
                for word in rule.lasts:
                    self.may_last |= self.parts_of(word, sync, rule.condition)
            return
        found = [self.parts_of(word, sync, rule.condition) for rule in rules for word in rule.lasts]
        for rule in rules:
            for word in rule.lasts:
                self.keep_bytes(word, sync)
        self.lasting.update(*found)

    def is_so(self, condition: list[str], number: int | None) -> bool:
        return condition == ["always"] or any(self.latest(kind, number) for kind in condition)

    def latest(self, kind: str, number: int) -> int:
        """How many changes the sequence had when the latest pending one of this kind was made, or 0 if none is pending."""
        if kind == "length":
            return self.latest_length(number)
        found = [part[0] + 1 for part in self.parts_of({"new": "creation"}.get(kind, kind), Sync("", number), []) - self.lasting]
        return max(found, default=0)

    def latest_length(self, number: int) -> int:
        """The same of a file's length."""
        since, found = self.length_since.get(number, 0), 0
        moments = self.moments[number]
        for moment in range(since + 1, len(moments)):
            if len(moments[moment].contents) != len(moments[moment - 1].contents) and moments[moment].shortening not in self.lasting:
                found = moments[moment].position
        return found

    def all_parts(self, end: int) -> set[Part]:
        return {(number, part) for number in range(end) for part in range(len(parts_in(self.sequence[number])))}

    def parts_of(self, word: str, sync: Sync, condition: list[str]) -> set[Part]:
        """The changes of the sequence that a word of the table speaks of."""
        number = sync.number
        if word in ("names-all", "all", "grown"):
            return self.all_parts(len(self.sequence))
        if word == "earlier":
            return self.all_parts(max(self.latest(kind, number) for kind in condition))
        if word in ("contents", "range"):
            return set()
        if word == "length":
            return {moment.shortening for moment in self.moments.get(number, []) if moment.shortening}
        if word == "above":
            return {part for folder in self.above(number) for part in self.parts_of("creation", Sync("", folder), [])}
        if word == "place":
            left = {(folder, name) for folder, name, there in self.pending_places(number) if there == number} - self.live.places_of(number)
            return {(at, part) for at, part in self.parts_of("names", sync, condition) if self.sequence[at].parts[part][:2] not in left}
        if word == "near":
            folders, files = self.near(number)
            return {(at, part) for at, change in enumerate(self.sequence) for part in range(len(parts_in(change)))
                    if ((change.parts[part][0] in folders) if isinstance(change, Names) else change.number in files | folders)}
        return {(at, part) for at, change in enumerate(self.sequence) for part in range(len(parts_in(change)))
                if is_meant(word, change, part, number)}

    def pending_places(self, number: int) -> list[tuple[int, str, int | None]]:
        """The entries that pending changes of a file's names set."""
        return [self.sequence[at].parts[part] for at, part in self.parts_of("names", Sync("", number), []) - self.lasting]

    def above(self, number: int) -> set[int]:
        """The folders above a file."""
        found: set[int] = set()
        look = [number]
        while look:
            one = look.pop()
            for (folder, _), there in self.live.entries.items():
                if there == one and folder not in found:
                    found.add(folder)
                    look.append(folder)
        return found

    def near(self, number: int) -> tuple[set[int], set[int]]:
        """The folders in which a file's names are or were, with all folders that have names in them, and the files of these names."""
        def named_in(folders: set[int]) -> set[int]:
            return {version.value for place, versions in self.entries.items() if place[0] in folders for version in versions if version.value is not None}

        folders = {place[0] for place, versions in self.entries.items() if any(version.value == number for version in versions)} | {number}
        while below := {there for there in named_in(folders) if self.live.kinds[there] == "folder"} - folders:
            folders |= below
        return folders, named_in(folders)

    def keep_bytes(self, word: str, sync: Sync) -> None:
        """What a word of the table says of the bytes of a file."""
        if word in ("all", "grown"):
            self.synced_folders.clear()
            self.synced.clear()
            for versions in self.entries.values():
                versions[-1].is_committed = True
            for number in self.moments:
                self.keep_bytes("length", Sync("", number))
                if word == "all":
                    self.keep_bytes("contents", Sync("", number))
                else:
                    self.keep_grown(number)
        last = len(self.moments.get(sync.number, [])) - 1
        if word == "contents":
            for block in blocks(0, max(len(moment.contents) for moment in self.moments[sync.number])):
                self.block_since[sync.number, block] = last
        elif word == "range":
            for block in blocks(sync.begin, sync.end):
                self.block_since[sync.number, block] = last
            self.least.setdefault(sync.number, []).append((sync.end, last))
        elif word == "length" and last >= 0:
            self.length_since[sync.number] = last

    def keep_grown(self, number: int) -> None:
        """Of each block what was there when bytes in it last made the file longer."""
        moments = self.moments[number]
        for at, (before, after) in enumerate(zip(moments, moments[1:]), 1):
            length = len(before.contents)
            if after.is_written and len(after.contents) > length:
                for block in after.touched & blocks(length, len(after.contents)):
                    self.block_since[number, block] = max(at, self.block_since.get((number, block), 0))

    # ---- states

    def ways(self) -> Iterator[tuple[set[Part], set[Part]]]:
        """The changes of the sequence that are there, and those that are there or not, each for itself."""
        every = self.all_parts(len(self.sequence))
        if self.profile.leaves["names"] == "any":
            yield self.lasting, (every | self.may_last) - self.lasting
            return
        first = next((part[0] for part in sorted(every) if part not in self.lasting), len(self.sequence))
        for count in range(first, len(self.sequence) + 1):
            there = self.all_parts(count) | self.lasting
            yield there, self.may_last - there

    def has(self, tree: Entry) -> bool:
        """Whether a tree is one of the states."""
        return any(self.way(there, free).has(tree) for there, free in self.ways())

    def way(self, there: set[Part], free: set[Part]) -> "Way":
        return Way(self, there, free)

    def states(self, most: int) -> set:
        """The states, at most so many."""
        found: set = set()
        for there, free in self.ways():
            for state in self.way(there, free).folder_states(ROOT):
                if is_consistent(state, {}):
                    found.add(without_numbers(state))
                if len(found) >= most:
                    return found
        return found


def is_consistent(state: tuple, files: dict[int, tuple]) -> bool:
    """Whether a file is the same at each of its names."""
    if state[0] == "folder":
        return all(is_consistent(below, files) for _, below in state[2])
    return state[0] == "link" or files.setdefault(state[3], state) == state


def without_numbers(state: tuple) -> tuple:
    return ("folder", state[1], tuple((name, without_numbers(below)) for name, below in state[2])) if state[0] == "folder" else state[:3]


def parts_in(change: object) -> list:
    return change.parts if isinstance(change, Names) else [change]


def is_meant(word: str, change: object, part: int, number: int) -> bool:
    """Whether a word of the table, of a file or folder, means this part of a change."""
    if isinstance(change, Mode):
        return word == "attributes" and change.number == number
    if isinstance(change, Contents):
        return False
    match word:
        case "creation":
            return change.makes == number
        case "names":
            return number in change.subjects
        case "moves":
            return number in change.subjects and not change.exchanges
        case "entries":
            return change.parts[part][0] == number
        case "taken":
            return change.moves and not change.exchanges and change.parts[1][0] == number
        case "attributes":
            return False
    raise ValueError(f"profiles: {word}")


class Way:
    """The states in which these changes of the sequence are there, and of these others any."""

    def __init__(self, model: Model, there: set[Part], free: set[Part]) -> None:
        self.model, self.there, self.free = model, there, free
        self.known: dict[int, list] = {}

    def values(self, versions: list[Version]) -> list:
        found, is_undone = [], False
        for version in reversed(versions):
            is_there = version.part is None or version.part in self.there or (is_undone and not version.is_aside)
            if is_there or version.part in self.free:
                found.append(version.value)
            is_undone |= is_there and version.is_unsure
            if is_there and (not is_undone or version.is_committed):
                break
        return found

    def names_in(self, folder: int) -> list[str]:
        return sorted(name for above, name in self.model.entries if above == folder)

    # Whether a tree is one of them

    def has(self, tree: Entry) -> bool:
        self.files: dict[int, set[int]] = {}
        return self.fits(ROOT, tree) and all(self.files.values())

    def fits(self, number: int, entry: Entry) -> bool:
        kind = self.model.live.kinds[number]
        if kind != entry.kind:
            return False
        if kind == "link":
            return entry.contents == self.model.live.contents[number]
        if entry.mode not in self.values(self.model.modes[number]):
            return False
        if kind == "file":
            return any(len(entry.contents) == length and all(block_of(entry.contents, block, length) in allowed for block, allowed in enumerate(each))
                       for length, each in self.bytes_of(number))
        for name in {*self.names_in(number), *entry.contents}:
            values = self.values(self.model.entries.get((number, name), [Version(None, None)]))
            below = entry.contents.get(name)
            if below is None:
                if None not in values:
                    return False
                continue
            fitting = {value for value in values if value is not None and self.fits(value, below)}
            if not fitting:
                return False
            if below.kind == "file":
                self.files[below.number] = self.files.get(below.number, fitting) & fitting
        return True

    # A file's bytes

    def bytes_of(self, number: int) -> list[tuple[int, list[set[bytes]]]]:
        """Each length that a file may have, with what each block may be then."""
        if number not in self.known:
            moments = self.model.moments[number]
            free = [moment.shortening for moment in moments if moment.shortening in self.free - self.there]
            self.known[number] = []
            for chosen in itertools.product((False, True), repeat=len(free)):
                there = self.there | {part for part, is_there in zip(free, chosen) if is_there}
                self.known[number] += self.bytes_if(number, there)
            self.known[number] += self.bytes_alone(number)
        return self.known[number]

    def bytes_alone(self, number: int) -> list[tuple[int, list[set[bytes]]]]:
        """The same where a length came to last by itself, and the bytes below it are older."""
        moments = self.model.moments[number]
        alone = len(moments) - 1 if self.model.profile.leaves["lengths"] == "alone" else self.model.length_alone.get(number, 0)
        shortened = [at for at, moment in enumerate(moments) if moment.shortening in self.model.lasting]
        first = max([self.model.length_since.get(number, 0), *shortened])
        if alone <= first:
            return []
        return [(length, [self.block_if(number, block, length, 0, shortened) for block in range((length + BLOCK - 1) // BLOCK)])
                for length, _ in lengths(moments, first, alone + 1) if length >= self.least(number, max([0, *shortened]))]

    def bytes_if(self, number: int, there: set[Part]) -> list[tuple[int, list[set[bytes]]]]:
        """The same where just these shortenings are there."""
        moments = self.model.moments[number]
        shortened = [at for at, moment in enumerate(moments) if moment.shortening in there]
        first = max([0, *shortened])
        end = next((at for at in range(first + 1, len(moments)) if moments[at].shortening), len(moments))
        since = max(first, self.model.length_since.get(number, 0), self.full_since(number, there))
        least = self.least(number, first)
        found = []
        for length, moment in lengths(moments, min(since, end - 1), end):
            if length < least:
                continue
            found.append((length, [self.block_if(number, block, length, moment, shortened) for block in range((length + BLOCK - 1) // BLOCK)]))
        return found

    def least(self, number: int, shortened: int) -> int:
        """The length that a file has at least, by what lasts of it since its last shortening."""
        return max([length for length, moment in self.model.least.get(number, []) if moment >= shortened], default=0)

    def full_since(self, number: int, there: set[Part]) -> int:
        """The moment since which a file has its length because it took the place of another."""
        if self.model.profile.leaves["replacing"] != "full":
            return 0
        since = 0
        for at, change in enumerate(self.model.sequence):
            if isinstance(change, Names) and change.replacing == number and (at, 0) in there:
                since = max(moment for moment, told in enumerate(self.model.moments[number]) if told.position <= at)
        return since

    def block_if(self, number: int, block: int, length: int, moment: int, shortened: list[int]) -> set[bytes]:
        """What a block may be in a file of this length, which it has had since that moment, where these moments are shortenings that are there."""
        moments, leaves = self.model.moments[number], self.model.profile.leaves
        since = self.model.block_since.get((number, block), 0)
        grown = not moments[moment].shortening and block in moments[moment].touched
        is_alone = not moments[moment].is_written or moment <= self.model.length_alone.get(number, 0)
        has_bytes = leaves["zeros"] == "before" or (leaves["zeros"] == "written" and not is_alone)
        if leaves["zeros"] == "never" or (has_bytes and block == (length - 1) // BLOCK and grown):
            since = max(since, moment)
        versions = [at for at in range(self.end_of(number, block, shortened)) if at == 0 or block in moments[at].touched]
        oldest = max(at for at in versions if at <= since)
        found = set()
        for at in (at for at in versions if at >= oldest):
            contents = moments[at].contents
            kept = min([len(moments[later].contents) for later in shortened if later > at], default=len(contents))
            found.add(block_of(contents[:kept], block, length))
            if leaves["cleared"] == "apart" and kept % BLOCK and kept // BLOCK == block:
                found.add(block_of(contents, block, length))
        return found

    def end_of(self, number: int, block: int, shortened: list[int]) -> int:
        """The moment from which on a block can't be seen: what is written behind a shortening is elsewhere, where the shortening isn't there."""
        moments = self.model.moments[number]
        if self.model.profile.leaves["lengths"] == "alone":
            return len(moments)
        return next((at for at, moment in enumerate(moments) if moment.shortening and at not in shortened and block * BLOCK >= len(moment.contents)),
                    len(moments))

    # All of them

    def folder_states(self, folder: int, above: tuple[int, ...] = ()) -> Iterator[tuple]:
        """Each state of a folder: its mode, its entries, and what they are."""
        names = self.names_in(folder)
        choices = [[state for value in dict.fromkeys(self.values(self.model.entries[folder, name])) for state in self.states_of(value, above + (folder,))]
                   for name in names]
        for mode in dict.fromkeys(self.values(self.model.modes[folder])):
            for chosen in itertools.product(*choices):
                yield ("folder", mode, tuple((name, state) for name, state in zip(names, chosen) if state is not None))

    def states_of(self, number: int | None, above: tuple[int, ...]) -> list:
        if number is None or number in above:
            return [None]
        kind = self.model.live.kinds[number]
        if kind == "folder":
            return list(self.folder_states(number, above))
        if kind == "link":
            return [("link", self.model.live.contents[number])]
        return [("file", mode, b"".join(chosen), number) for mode in dict.fromkeys(self.values(self.model.modes[number]))
                for length, each in self.bytes_of(number) for chosen in itertools.product(*each)]


def lengths(moments: list[Moment], first: int, end: int) -> list[tuple[int, int]]:
    """The lengths of a file from one moment on, each with the moment that it is of, and the borders of blocks among the bytes by which it grows."""
    found = [(len(moments[first].contents), first)]
    for at in range(first + 1, end):
        before, after = len(moments[at - 1].contents), len(moments[at].contents)
        begin = max(before, moments[at].begin) if moments[at].is_written else after
        found += [(border, at) for border in range((begin // BLOCK + 1) * BLOCK, after, BLOCK)]
        if after != before:
            found.append((after, at))
    return found


def state_of(entry: Entry) -> tuple:
    """A tree in the form of the states."""
    if entry.kind == "folder":
        return ("folder", entry.mode, tuple((name, state_of(below)) for name, below in sorted(entry.contents.items())))
    return ("link", entry.contents) if entry.kind == "link" else ("file", entry.mode, entry.contents)
