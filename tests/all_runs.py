#!/usr/bin/env python3
"""Counts the runs that returns and panics can bring about in a bundled target, and tells them as a report of plans that grow does.

    all_runs.py replace|maildir|commit VARIANT SIZES DEPTH..

SIZES are the chunks of each replacement or message, or the participants of each transaction, who all wish yes: `2,1`. What is asked follows
the tables of docs/TARGETS.md, for the variants whose numbers of plans stand there. Each list of answers is tried that a run can be given, so
no plan and no scenario is known here.
"""
import sys
from collections import Counter

GO, RETURN, HALT = range(3)


def replacement(variant, chunks, left):
    """Replaces a file where the temporary one may be left of an earlier replacement. Returns whether it is left now."""
    if left and (yield "clear") == RETURN:
        return True
    if (yield "create") == RETURN:
        return False
    for step in ["write"] * chunks + ["sync"] * (variant != "late_sync") + ["rename"]:
        if (yield step) == RETURN and (variant, step) != ("ignore_sync", "sync"):
            return (yield "unlink") == RETURN
    if (yield "sync_dir") == GO and variant == "late_sync":
        yield "sync"
    return False


def replace(variant, sizes):
    left = False
    for chunks in sizes:
        left = yield from replacement(variant, chunks, left)


def attempt(variant, chunks):
    """Tries to deliver a message. Returns whether another attempt follows."""
    for step in ["stat"] * (variant != "append_tmp") + ["create"]:
        if (yield step) == RETURN:
            return True
    for step in ["write"] * chunks + ["sync", "link"]:
        if (yield step) == RETURN:
            yield "unlink"
            return True
    yield "unlink"
    yield "sync_dir"
    return False


def maildir(variant, sizes):
    for chunks in sizes:
        if (yield from attempt(variant, chunks)):
            yield from attempt(variant, chunks)


def vote():
    """Prepares a participant. Returns whether its yes arrives."""
    if (yield "send_prepare") == RETURN:
        return False
    is_forced = (yield "force_prepare") == GO
    return (yield "send_vote") == GO and is_forced


def decide(variant):
    """Forces the commit record. Returns whether the decision is commit."""
    if (yield "force_commit") == GO:
        return True
    if variant == "two_tries":
        yield "force_commit"
    return variant == "two_tries"


def commit(variant, sizes):
    for participants in sizes:
        arrived = 0
        for _ in range(participants):
            arrived += yield from vote()
        if arrived == participants and (yield from decide(variant)):
            for _ in range(participants):
                if (yield "send_outcome") == GO and (yield "force_outcome") == GO:
                    yield "send_ack"
        else:
            for _ in range(arrived):
                yield "send_outcome"


def run(steps, answers):
    """The steps that are asked, with their answers. Where these answers end, each further step goes."""
    hits, answer = [], None
    try:
        while answer != HALT:
            step = steps.send(answer)
            answer = answers[len(hits)] if len(hits) < len(answers) else GO
            hits.append((step, answer))
    except StopIteration:
        pass
    return hits


def runs(target, variant, sizes):
    """Each run that there is: the last answer that isn't a halt takes the next one, and those after it are left to the run."""
    answers = []
    while True:
        hits = run(target(variant, sizes), answers)
        yield hits
        answers = [answer for _, answer in hits]
        while answers and answers[-1] == HALT:
            answers.pop()
        if not answers:
            return
        answers[-1] += 1


def main():
    target, variant = globals()[sys.argv[1]], sys.argv[2]
    sizes, depths = [int(size) for size in sys.argv[3].split(",")], [int(depth) for depth in sys.argv[4:]]
    levels, onward = Counter(), Counter()
    for hits in runs(target, variant, sizes):
        faults = [number for number, (_, answer) in enumerate(hits) if answer != GO]
        levels[len(faults)] += 1
        if faults and hits[faults[-1]][1] == RETURN:
            step = hits[faults[-1]][0]
            onward[len(faults)] += step in [later for later, _ in hits[faults[-1] + 1 :]]
    for depth in depths:
        print(f"depth {depth}")
        for level in range(depth + 1):
            print(f"level {level} {levels[level]}")
        print(f"onward {onward[depth]}")
        print(f"beyond {levels[depth + 1]}")
        print(f"plans {sum(levels[level] for level in range(depth + 1)) + onward[depth]}")


main()
