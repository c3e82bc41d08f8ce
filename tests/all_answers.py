#!/usr/bin/env python3
"""Small texts of answers, over two points with depth 1: those that `paklour asks` takes are compared with those with which some component agrees.

    all_answers.py EVERY

`paklour` has to be on the PATH. EVERY says which texts are tried: 1 is each text of the families at the end, 97 each 97th. Prints how many texts came to
what, with the shortest of each, and fails where the program and the search differ in a way that isn't listed in KNOWN.

How it is decided whether a component agrees. A component is a function: after the answers to its earlier hits it hits a point, or it ends, with a verdict or
in a way that nobody knows, which is unresolved. The answers to the hits of a line follow from its scenario and the hits alone. So a line with hits says of a
component what it does after no answer, after the first answer, and so on up to the end; and a line says nothing else of it. If two lines say different things
after the same answers, no component agrees. Otherwise what they say is a function, and where they say nothing let it end in the unknown way. Each line with
hits is a run of that one. A line without hits only says that the run of its scenario is unresolved. This component ends unresolved wherever it may, so if its
run passes or fails, the lines with hits say so, and the run of every component that agrees with them does.

Nothing more has to be thought of. A panic is an answer as any other, since a component may go on after it: to a restart, or to the cut of power. A pause ends
the run, which then is unresolved whatever the component would have done. A component has a limit of hits, and a run that goes past it is unresolved, with the
hits up to there. The component that ends in the unknown way where this one would go past the limit has the same runs, so limits let nobody agree with more.

Each component that is found is played over all lines. If there is none, then two of the lines have none: a run without hits that comes to a recorded end goes
the way of the line that recorded it. So what is refused or taken is known by pairs of lines. A refusal has to name one.
"""
import os
import re
import sys
import tempfile
from collections import Counter
from concurrent.futures import ProcessPoolExecutor
from functools import lru_cache
from itertools import combinations, combinations_with_replacement, groupby, islice, product
from typing import NamedTuple, Optional

SETTINGS = 'target = "outside"\ndepth = 1\n[outside]\nlabel = "two points"\ncodes = ["bad"]\npoints = ["a", "b"]\n'
POINTS = "ab"
PASS, FAIL, UNRESOLVED = VERDICTS = ("pass", "fail bad", "unresolved")
GO, PAUSE = "off", "pause"

# One fault at one of its hits, or from one on. At most three hits are made, so some never act.
FAULTS = ["a=1*return", "a=1*panic", "a=1*off->1*return", "a=1*off->1*panic", "a=2*off->1*return", "b=1*return", "b=1*panic", "b=1*off->1*return"]
ONWARD = ["a=return", "a=1*off->return", "b=return"]
# Several faults, each at one hit or from one on, and one that isn't among the usual kinds.
SEVERAL = ["a=1*return->1*return", "a=1*return->return", "a=1*return->1*panic", "a=1*panic->1*return", "a=1*return;b=1*return", "a=1*panic;b=return",
           "a=3*off->1*return", "a=1*return(text)"]
# Other spellings of scenarios.
OTHER_FORMS = ["a=2*return", "a=panic", "a=1*pause", "b=1*return;a=1*return", "stranger=1*return"]
SCENARIOS = ["none", *FAULTS, *ONWARD, *SEVERAL, *OTHER_FORMS]

AGREED, REFUSED = "taken, and some component agrees", "refused, and none does"
TWICE = "refused, though one does: one scenario, with hits and without"
KNOWN = [AGREED, REFUSED, TWICE]


class Line(NamedTuple):
    """One answer. Its hits are the letters of their points, or nothing is known of them."""
    verdict: str
    scenario: str
    hits: Optional[str]


# ---- which components agree

@lru_cache(maxsize=None)
def chains_of(scenario):
    """The terms of each point: a count, if there is one, and a task."""
    chains = {}
    for entry in scenario.split(";") if scenario != "none" else []:
        point, terms = entry.split("=")
        split = [term.rpartition("*") for term in terms.split("->")]
        chains[point] = [(int(count) if star else None, task) for count, star, task in split]
    return chains


@lru_cache(maxsize=None)
def answer_to(scenario, point, ordinal):
    """What a scenario answers to the hit of a point that has this number among those of the point."""
    for count, task in chains_of(scenario).get(point, []):
        if count is None or ordinal <= count:
            return task
        ordinal -= count
    return GO


@lru_cache(maxsize=None)
def answers_along(scenario, hits):
    return tuple(answer_to(scenario, point, hits[:at + 1].count(point)) for at, point in enumerate(hits))


@lru_cache(maxsize=None)
def moves_of(line):
    """What a line with hits says that a component does after which answers. After a pause nothing can be said."""
    answers = answers_along(line.scenario, line.hits)
    end = answers.index(PAUSE) + 1 if PAUSE in answers else None
    moves = {answers[:at]: point for at, point in enumerate(line.hits[:end])}
    return moves if end else {**moves, answers: line.verdict}


@lru_cache(maxsize=None)
def said(line):
    """The same, or None if no component has such a run: it goes on after a pause, or passes or fails with it."""
    answers = answers_along(line.scenario, line.hits)
    goes_on = PAUSE in answers and (answers.index(PAUSE) < len(answers) - 1 or line.verdict != UNRESOLVED)
    return None if goes_on else moves_of(line)


def play(component, scenario):
    """The hits and the verdict of a run. Where nothing is said of the component, it ends in the unknown way."""
    hits, answers = "", ()
    while PAUSE not in answers and component.get(answers, UNRESOLVED) in POINTS:
        hits += component[answers]
        answers = answers_along(scenario, hits)
    return hits, UNRESOLVED if PAUSE in answers else component.get(answers, UNRESOLVED)


def agrees(component, line):
    hits, verdict = play(component, line.scenario)
    return verdict == line.verdict and line.hits in (None, hits)


def component_of(lines):
    """A component that agrees with all lines, or None if there is none."""
    component = {}
    for line in lines:
        if line.hits is not None:
            moves = said(line)
            if moves is None or any(component.setdefault(answers, move) != move for answers, move in moves.items()):
                return None
    return component if all(agrees(component, line) for line in lines if line.hits is None) else None


@lru_cache(maxsize=None)
def clash(line, other):
    """Whether no component agrees with two lines."""
    return component_of([line, other]) is None


def clash_at(line, other):
    """The first move, from 1, of which two lines say different things, if both have hits."""
    if None in (line.hits, other.hits):
        return None
    places = [len(answers) + 1 for answers, move in moves_of(line).items() if moves_of(other).get(answers, move) != move]
    return min(places, default=None)


# ---- what the program makes of it

def plan_at(point, ordinal, terms):
    return f"{point}={ordinal - 1}*off->{terms}" if ordinal > 1 else f"{point}={terms}"


def known_plans(lines):
    """The scenarios that plans of depth 1 have, as far as lines tell them."""
    told = {line.scenario: line.hits or "" for line in lines}
    plans, clean = ["none"], told.get("none", "")
    for at, point in enumerate(clean):
        ordinal = clean[:at + 1].count(point)
        once = plan_at(point, ordinal, "1*return")
        plans += [once, plan_at(point, ordinal, "1*panic")]
        if told.get(once, "").count(point) > ordinal:
            plans.append(plan_at(point, ordinal, "return"))
    return plans


def names_a_clash(lines, told):
    """Whether a refusal tells of two lines that no component agrees with, and where they differ; or of two that answer one scenario otherwise."""
    found = re.fullmatch(r"answers: line (\d+): (\D+?)(?: from)?(?: line (\d+)(?: at hit (\d+)|, .*)?)?\n", told)
    if not found or not all(int(number) in range(1, len(lines) + 1) for number in found.group(1, 3) if number):
        return False
    line, other = lines[int(found[1]) - 1], lines[int(found[3] or found[1]) - 1]
    end, place = len(line.hits or "") + 1, clash_at(line, other)
    if found[2] == "goes on after a pause":
        return clash(line, line)
    if found[2] == "contradicts":
        return line.scenario == other.scenario and line != other
    if found[2] == "verdict differs":
        return clash(line, other) and (None in (line.hits, other.hits) or place == end)
    return found[2] == "hits differ" and place == int(found[4])


def judged(lines, status, told):
    """What a text came to, in the words of KNOWN, or how it differs otherwise."""
    component = component_of(lines)
    pairs = [pair for pair in combinations_with_replacement(lines, 2) if clash(*pair)]
    if (component is None) != bool(pairs) or (component is not None and not all(agrees(component, line) for line in lines)):
        return "the search is wrong"
    twice = any(line.scenario == other.scenario and line != other for line, other in combinations(lines, 2))
    if status == 2 and told.startswith("answers: line "):
        if not names_a_clash(lines, told):
            return "refused for two lines with which some component agrees, or at another place"
        return REFUSED if pairs else TWICE if twice else "refused, though some component agrees"
    if status != 0 or re.sub(r"answers: line \d+: no point is named stranger\n", "", told):
        return f"ended with {status}"
    return "taken, though it has to be refused" if pairs or twice else AGREED


def written(line):
    rows = [(point, len(list(row))) for point, row in groupby(line.hits or "")]
    hits = ";".join(point if count == 1 else f"{count}*{point}" for point, count in rows)
    return f"{line.verdict}\t{line.scenario}\t{'-' if line.hits is None else hits}\n"


def perform(texts):
    """For each text what it came to, and whether something is left to be asked."""
    with tempfile.NamedTemporaryFile("w", suffix=".toml") as settings, tempfile.TemporaryFile() as given, tempfile.TemporaryFile() as out, \
            tempfile.TemporaryFile() as err:
        settings.write(SETTINGS)
        settings.flush()
        streams = [(os.POSIX_SPAWN_DUP2, file.fileno(), number) for number, file in enumerate((given, out, err))]
        for lines in texts:
            for file, text in ((given, "".join(map(written, lines))), (out, ""), (err, "")):
                file.seek(0)
                file.truncate()
                file.write(text.encode())
                file.flush()
                file.seek(0)
            process = os.posix_spawnp("paklour", ["paklour", "asks", settings.name], os.environ, file_actions=streams)
            status = os.waitstatus_to_exitcode(os.waitpid(process, 0)[1])
            out.seek(0)
            err.seek(0)
            yield lines, judged(lines, status, err.read().decode()), bool(out.read())


# ---- the texts

def hits_to(longest):
    return ["".join(hits) for length in range(longest + 1) for hits in product(POINTS, repeat=length)]


def lines_of(scenarios, longest, verdicts=VERDICTS):
    """All lines with these scenarios and hits up to a length, and those without hits."""
    for scenario in scenarios:
        yield from (Line(verdict, scenario, hits) for verdict in verdicts for hits in hits_to(longest))
        yield Line(UNRESOLVED, scenario, None)


def clean_runs(longest, verdicts):
    """The lines of the run without faults. Those that hit `b` first are left out."""
    return [line for line in lines_of(["none"], longest, verdicts) if not (line.hits or "").startswith("b")]


def grown(clean, *more):
    """Lines that agree: one of a run without faults, then one of each of these lists in which a fault acts."""
    texts = [(line,) for line in clean]
    for lines in more:
        acting = [line for line in lines if line.hits is not None and set(answers_along(line.scenario, line.hits)) != {GO} and line.hits]
        texts = [(*text, line) for text in texts for line in acting if line.scenario not in [one.scenario for one in text] and component_of((*text, line))]
    return texts


def families():
    """Whole families of texts."""
    passing, faults = [PASS], lambda longest: list(lines_of(FAULTS, longest, [PASS]))
    # Each line alone.
    yield from ((line,) for line in lines_of(SCENARIOS, 3))
    # The run without faults, and each line.
    yield from product(clean_runs(3, VERDICTS), lines_of(SCENARIOS, 3))
    # The run without faults, that of one fault, whose hits nobody knows, and each line, with two hits at most.
    unknown = [Line(UNRESOLVED, scenario, None) for scenario in FAULTS]
    yield from product(clean_runs(2, passing), unknown, lines_of(SCENARIOS, 2))
    # Each two lines with one hit at most.
    yield from combinations_with_replacement(lines_of(SCENARIOS, 1), 2)
    # The run without faults and that of one fault, which agree, and each line.
    yield from ((*text, line) for text, line in product(grown(clean_runs(3, passing), faults(3)), lines_of(SCENARIOS, 3)))
    # The run without faults and those of two faults, with two hits at most, and each line.
    yield from ((*text, line) for text, line in product(grown(clean_runs(2, passing), faults(2), faults(2)), lines_of(SCENARIOS, 2)))
    # The run without faults, that of a fault, and that of this fault from then on, and each line.
    runs = [text for text in grown(clean_runs(3, passing), faults(3), list(lines_of(ONWARD, 3, passing))) if text[2].scenario in known_plans(text)]
    yield from ((*text, line) for text, line in product(runs, lines_of(SCENARIOS, 3)))


def tried(first, every):
    """How many of each `every`-th text from this one came to what; of how many of these nothing is left to ask; and the shortest of them."""
    texts = islice(families(), first, None, every)
    counts, idle, shortest = Counter(), Counter(), {}
    for lines, what, is_left in perform(lines[::-1] if number % 2 else lines for number, lines in enumerate(texts)):
        counts[what] += 1
        idle[what] += not is_left
        text = " / ".join(written(line).replace("\t", " ").strip() for line in lines)
        shortest[what] = min(shortest.get(what, (len(text), text)), (len(text), text))
    return counts, idle, shortest


def main():
    every = int(sys.argv[1])
    with ProcessPoolExecutor(2) as workers:
        parts = list(workers.map(tried, [0, every], [2 * every] * 2))
    counts, idle = (sum((part[which] for part in parts), Counter()) for which in (0, 1))
    print(f"{counts.total()} texts, {counts[REFUSED] + counts[TWICE]} refused")
    for what in sorted(counts, key=lambda what: KNOWN.index(what) if what in KNOWN else -1):
        print(f"{counts[what]} {what}" + (f", {idle[what]} of them with nothing left to ask" if what.startswith("taken") else ""))
        print("  " + min(part[2][what] for part in parts if what in part[2])[1])
    return 1 if set(counts) - set(KNOWN) else 0


if __name__ == "__main__":
    sys.exit(main())
