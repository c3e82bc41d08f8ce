"""The table of profiles, which the power cut reads too: cut/profiles."""

from dataclasses import dataclass, field
from pathlib import Path

TABLE = Path(__file__).resolve().parent.parent / "cut" / "profiles"


@dataclass
class Rule:
    """What a sync makes last, on a condition, and what it may make last besides."""

    sync: str
    of: str
    condition: list[str]
    lasts: list[str]
    may: list[str]


@dataclass
class Profile:
    name: str
    rules: list[Rule] = field(default_factory=list)
    leaves: dict[str, str] = field(default_factory=dict)

    def rules_of(self, sync: str, of: str) -> list[Rule]:
        return [rule for rule in self.rules if (rule.sync, rule.of) == (sync, of)]


def words(text: str) -> list[str]:
    return [] if text == "-" else text.split(",")


def profiles(path: Path = TABLE) -> dict[str, Profile]:
    known: dict[str, Profile] = {}
    for line in path.read_text(encoding="ascii").splitlines():
        match line.split("#")[0].split():
            case ["keeps", name, sync, of, condition, lasts, may]:
                known.setdefault(name, Profile(name)).rules.append(Rule(sync, of, words(condition), words(lasts), words(may)))
            case ["leaves", name, what, how]:
                known.setdefault(name, Profile(name)).leaves[what] = how
            case []:
                pass
            case _:
                raise ValueError(f"{path.name}: {line}")
    return known
