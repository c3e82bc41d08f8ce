#!/usr/bin/env python3
"""grown.py [--report] [keep] DEPTH HARNESS [POINT=KIND,KIND..]..: a grown campaign over a harness, level by level: each plan with one more fault, at
each hit of its own run after its last fault; with keep, of what a power cut keeps too. Each is run by itself (tried.py). Kinds of
faults are return and panic where a point isn't named, and return at power::keep. Writes the sizes of the levels, onward, how
many plans there are, the first failure of each code, and the causes; with --report lines as a report of `paklour` has them: the sizes, what
is beyond, each point that is reached, the verdict of each plan, and the causes."""
import sys
from tried import tries_of

words = [word for word in sys.argv[1:] if word not in ("--report", "keep")]
depth, harness = int(words[0]), words[1]
kinds = {"power::keep": ["return"], **{word.split("=")[0]: word.split("=")[1].split(",") for word in words[2:]}}
catalogue = "open read write fsync ftruncate rename link unlink mkdir rmdir symlink".split()
order = ["sys::" + name for name in catalogue] + ["power::keep"]
tried = tries_of(harness, asks="keep" in sys.argv)
runs = {}


def scenario(plan):
    """A plan is a tuple of (point, ordinal, fault, endless); an entry for each point as it comes first in the catalogue."""
    entries = []
    for point in sorted({fault[0] for fault in plan}, key=order.index):
        terms, at = [], 0
        for _, ordinal, fault, endless in [fault for fault in plan if fault[0] == point]:
            if ordinal - at > 1:
                terms.append(f"{ordinal - at - 1}*off")
            while endless and terms and terms[-1] == "1*" + fault:
                terms.pop()
            terms.append(fault if endless else "1*" + fault)
            at = ordinal
        entries.append(point + "=" + "->".join(terms))
    return ";".join(entries) or "none"


def run(plan):
    """The verdict, and the hits: point, ordinal, whether it was answered go."""
    text = scenario(plan)
    if text not in runs:
        outcome = tried(text)
        runs[text] = outcome.verdict, [(hit[1], int(hit[2]), hit[3] == "go") for hit in outcome.trace]
    return runs[text]


def hits_after(plan):
    """The hits after the last fault, which has to be among them."""
    hits = run(plan)[1]
    acted = [at for at, hit in enumerate(hits) if not hit[2]]
    assert len(acted) == len(plan), f"not met: {scenario(plan)}"
    return hits[acted[-1] + 1:] if acted else hits


def children(plan):
    return [plan + ((point, ordinal, fault, False),) for point, ordinal, _ in hits_after(plan)
            for fault in kinds.get(point, ["return", "panic"])]


def made_endless(plan):
    point, ordinal, fault, _ = plan[-1]
    goes_on = fault.startswith("return") and any(hit[0] == point for hit in hits_after(plan))
    return [plan[:-1] + ((point, ordinal, fault, True),)] if goes_on else []


def is_cause(plan):
    verdict = run(plan)[0]
    return all(run(plan[:at] + plan[at + 1:])[0] != verdict for at in range(len(plan)))


levels = [[()]]
while len(levels) <= depth:
    levels.append([child for plan in levels[-1] for child in children(plan)])
onward = [endless for plan in levels[-1] for endless in made_endless(plan)] if depth else []
plans = sum(levels, []) + onward
told = "--report" in sys.argv
if told:
    for number, level in enumerate(levels):
        print("level", number, len(level))
    print("onward", len(onward))
    print("beyond", sum(len(children(plan)) for plan in levels[-1]))
    for point in order:
        most = max(sum(hit[0] == point for hit in run(plan)[1]) for plan in plans)
        if most:
            print("reached", point, most)
    for number, plan in enumerate(plans):
        print("verdict", number, run(plan)[0])
else:
    print("levels", *map(len, levels), "onward", len(onward), "plans", len(plans))
failing = [(number, plan) for number, plan in enumerate(plans) if run(plan)[0].startswith("fail ")]
for code in [] if told else sorted({run(plan)[0] for _, plan in failing}):
    number, plan = next((number, plan) for number, plan in failing if run(plan)[0] == code)
    print("first", number, code.split()[1], scenario(plan))
for number, plan in failing:
    if is_cause(plan):
        print("cause", number, run(plan)[0].split()[1], scenario(plan))
