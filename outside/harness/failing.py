"""The scenarios that failed once, which are kept in a file beside the harness: a program that was mended isn't to fail in them again."""

from pathlib import Path

from . import tree
from .definition import Harness
from .identity import FAILING
from .outcome import Outcome
from .scenario import Scenario, Unreadable
from .telling import acts

HEAD = "# Scenarios that failed once. paklour-loop --failing tries them first, and adds others to them. Keep this file with the harness.\n"


def path_of(harness: Harness) -> Path:
    """The file of a harness: in its folder, or beside it if it is a file of Python alone."""
    return harness.folder / (FAILING if harness.is_folder else f"{harness.name}.{FAILING}")


def scenarios_in(path: Path) -> list[str]:
    lines = path.read_text("utf-8", "surrogateescape").splitlines() if path.exists() else []
    return [line for line in lines if line and not line.startswith("#")]


def add(path: Path, scenarios: list[str]) -> int:
    """Adds those that the file doesn't have yet, and returns how many these are. That of a run without faults is told in any case."""
    known = scenarios_in(path)
    new = [scenario for scenario in dict.fromkeys(scenarios) if scenario not in (*known, "none")]
    if new:
        tree.write(path, (HEAD + "".join(f"{scenario}\n" for scenario in [*known, *new])).encode("utf-8", "surrogateescape"))
    return len(new)


def meets_all(outcome: Outcome) -> bool:
    """Whether the run met a fault at each point that its scenario names. A program that has changed may make other calls, so that it doesn't."""
    try:
        points = {point for point, chain in Scenario(outcome.scenario).chains.items() if any(term.task != "off" for term in chain)}
    except Unreadable:
        return True
    return points <= {hit[1] for hit in outcome.trace if acts(hit) or hit[3] != "go"}
