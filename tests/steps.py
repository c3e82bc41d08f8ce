#!/usr/bin/env python3
"""Prints what a run comes to and the steps that it asks, in their order. A step that fails has a mark of exclamation.

    steps.py SETTINGS [STEP:HIT..]

Each STEP:HIT is a hit that fails, counted from 1. Where a step is asked is seen by a pause there: the run ends at once, unresolved, and
`try` tells how many steps were asked.
"""
import itertools
import re
import subprocess
import sys


def paklour(*words):
    done = subprocess.run(["paklour", *words], stdout=subprocess.PIPE, text=True, check=False)
    return [line.split(" ") for line in done.stdout.splitlines()]


def main():
    settings = sys.argv[1]
    failing = {tuple(word.split(":")) for word in sys.argv[2:]}
    points = [line[1] for line in paklour("run", settings) if line[0] == "census"]

    def chain(point, hits, end):
        """The point's hits up to this one, and then this task."""
        step = re.sub("^.*::", "", point)
        tasks = ["1*return" if (step, str(hit)) in failing else "1*off" for hit in range(1, hits + 1)]
        return f"{point}={'->'.join([*tasks, end])}"

    def tried(*chains):
        """The verdict, and how many steps are asked, where these chains take the place of faults."""
        last = {point: max((int(hit) for step, hit in failing if point.endswith(f"::{step}")), default=0) for point in points}
        scenario = ";".join([*(chain(point, last[point], "off") for point in points), *chains])
        told = paklour("try", "--scenario", scenario, settings)
        return told[0][-1], int(told[1][1])

    steps = {}
    for point in points:
        for hit in itertools.count(1):
            verdict, place = tried(chain(point, hit - 1, "pause"))
            if verdict != "unresolved":
                break
            step = re.sub("^.*::", "", point)
            steps[place] = step + "!" * ((step, str(hit)) in failing)
    verdict, asked = tried()
    print(f"{verdict}:", *(steps[place] for place in range(1, asked + 1)))


main()
