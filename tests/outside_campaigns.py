#!/usr/bin/env python3
"""Runs whole campaigns of bundled targets as if somebody else ran them: one call of `try` is the component. However the answers come, the
report is that of `run`, in each form; before that each scenario that is asked has no answer and is asked once, and `report` waits for the first.

    tests/outside_campaigns.py

`paklour` has to be on the PATH. Prints each difference, and fails where there is one.
"""
import itertools
import json
import os
import random
import re
import subprocess
import sys
import tempfile
from concurrent.futures import ThreadPoolExecutor

EXAMPLES = os.path.join(os.path.dirname(os.path.abspath(__file__)), "..", "examples")
CODES = {"replace": ["torn", "stale"], "maildir": ["torn", "lost"], "commit": ["split", "lost", "phantom"]}
# the example of each target and variant
VARIANTS = {
    "replace": ["sound", "late_sync", "ignore_sync", "retry_write", "rename_first", "in_place"],
    "maildir": ["sound", "link_first", "ignore_write", "append_tmp", "deliver_in_new"],
    "commit": ["sound", "lazy_prepare", "early_end", "two_tries", "end_first"],
}
# the forms of a report by answers that `run` writes of a bundled target too
FORMS = ("--brief", "--json", "--junit")


class Campaigns:
    """A folder for the program's runs, with the count of checks and of those that differed."""

    def __init__(self, folder):
        self.folder, self.checks, self.failed = folder, 0, 0

    def file(self, name, contents):
        path = os.path.join(self.folder, name)
        with open(path, "w", encoding="utf-8", newline="") as file:
            file.write(contents)
        return path

    def run(self, words, given=b""):
        """Its status and what it wrote on standard output and standard error."""
        done = subprocess.run(["paklour", *words], input=given, cwd=self.folder, capture_output=True, timeout=20, check=False)
        return done.returncode, done.stdout, done.stderr

    def expect(self, what, wanted, found):
        self.checks += 1
        if wanted == found:
            return
        self.failed += 1
        print(f"campaigns: {what}:", file=sys.stderr)
        for name, value in (("wanted", wanted), ("found ", found)):
            print(f"  {name} {str(value)[:600]}", file=sys.stderr)


def outside_settings(report, own, depth=None):
    """Settings of a component from outside whose report is this, with the campaign's own numbers and scenarios. With a depth nobody tells a census."""
    text = report.decode()
    census = re.findall(r"^census (\S+) (\d+)$", text, re.M)
    label = re.search(r"^target (.*)$", text, re.M)[1]
    target = label.split()[0]
    top = re.split(r"^\[", own, flags=re.M)[0]
    kept = [line for line in top.splitlines() if re.match(r"(seed|pairs|storms|rate|scenarios) =", line)]
    names = ", ".join(f'"{name}"' for name, _ in census)
    hits = ", ".join(count for _, count in census)
    codes = ", ".join(f'"{code}"' for code in codes_of(text, target))
    told = [f"hits = [{hits}]"] if depth is None else []
    grows = [] if depth is None else [f"depth = {depth}"]
    return "\n".join(['target = "outside"', *kept, *grows, "[outside]", f'label = "{label}"', f"codes = [{codes}]", f"points = [{names}]", *told, ""])


def codes_of(text, target):
    """The codes that a report names, and more, in another order than the target has them."""
    return sorted(set(re.findall(r"^verdict \d+ fail (\S+)$", text, re.M)) | set(CODES[target]))


def answer(campaigns, own, scenario, known):
    """One run of the bundled target."""
    if scenario not in known:
        text = "" if scenario == b"none" else scenario.decode()
        _, said, _ = campaigns.run(["try", f"--scenario={text}", own])
        known[scenario] = re.match(rb"verdict (.*)\n", said)[1] + b"\t" + scenario + b"\n"
    return known[scenario]


def answer_with_hits(campaigns, own, scenario, known):
    """One run of the bundled target with its hits, hits of one point in a row as their number and the point."""
    if scenario not in known:
        text = "" if scenario == b"none" else scenario.decode()
        _, said, _ = campaigns.run(["explain", f"--scenario={text}", own])
        points = re.findall(rb"^hit \d+ (\S+) ", said, re.M)
        rows = [(point, len(list(row))) for point, row in itertools.groupby(points)]
        hits = b";".join(point if count == 1 else b"%d*%s" % (count, point) for point, count in rows)
        known[scenario] = re.match(rb"verdict (.*)\n", said)[1] + b"\t" + scenario + b"\t" + hits + b"\n"
    return known[scenario]


NOBODY = b"nobody::asked=return"


def alike(form, text):
    """What a form tells of the same campaign, whoever ran it: a document without the settings, the command, and the runs."""
    if form != "--json":
        return text
    document = json.loads(text)
    document["about"] = {name: document["about"][name] for name in ("program_version", "storms", "listed", "grown")}
    return document


def told(given):
    """What the commands note of these answers: the lines whose scenario names a point that nobody has."""
    lines = enumerate(given.splitlines(), 1)
    return b"".join(b"answers: line %d: no point is named nobody::asked\n" % number for number, line in lines if line.split(b"\t")[1] == NOBODY)


def grown(campaigns, name, depth, known, more=""):
    """The same with a depth: answers tell the hits of runs, and no line of the settings tells a census. `known` has runs of this target that were
    tried before."""
    with open(os.path.join(EXAMPLES, name), encoding="utf-8") as file:
        own_text = f"{more}depth = {depth}\n" + re.sub(r"^(depth|pairs) = .*\n", "", file.read(), flags=re.M)
    own = campaigns.file("own.toml", own_text)
    status, wanted, _ = campaigns.run(["run", own])
    settings = campaigns.file("outside.toml", outside_settings(wanted, own_text, depth))
    draw, answers, answered = random.Random(depth), [answer_with_hits(campaigns, own, NOBODY, known)], set()
    while True:
        given = b"".join(answers)
        asked = campaigns.run(["asks", settings], given)
        campaigns.expect(f"{name} to {depth}: asks", (0, told(given)), (asked[0], asked[2]))
        lines = asked[1].splitlines()
        campaigns.expect(f"{name} to {depth}: each once", len(lines), len(set(lines)))
        campaigns.expect(f"{name} to {depth}: none that is answered", set(), set(lines) & answered)
        if not lines or asked[0] != 0:
            break
        refused = campaigns.run(["report", settings], given)
        campaigns.expect(f"{name} to {depth}: report waits", (2, b""), refused[:2])
        waits = refused[2].removeprefix(b"not answered ").removesuffix(b"\n")
        campaigns.expect(f"{name} to {depth}: it waits for what is asked", True, waits in lines)
        part = draw.sample(lines, max(1, len(lines) // 2))
        answers += [answer_with_hits(campaigns, own, line, known) for line in part]
        answered |= set(part)
        answers += draw.sample(answers, 1)
        draw.shuffle(answers)
    given = b"".join(answers)
    campaigns.expect(f"{name} to {depth}: report", (status, wanted, told(given)), campaigns.run(["report", settings], given))
    for form in FORMS:
        status, wanted, _ = campaigns.run(["run", form, own])
        found = campaigns.run(["report", form, settings], given)
        campaigns.expect(f"{name} to {depth}: {form}", (status, alike(form, wanted), told(given)), (found[0], alike(form, found[1]), found[2]))


def grown_to_three(target, variant):
    """To each depth, in a folder of its own: how many checks there were, and how many of them differed."""
    with tempfile.TemporaryDirectory() as folder:
        campaigns, known = Campaigns(folder), {}
        for depth in (1, 2, 3):
            grown(campaigns, f"{target}_{variant}.toml", depth, known)
        return campaigns.checks, campaigns.failed


def bundled(campaigns, name, more=""):
    """A bundled target as a component from outside: any part of what is asked, in any order, repeated, with answers that nobody asked."""
    with open(os.path.join(EXAMPLES, name), encoding="utf-8") as file:
        own_text = more + file.read()
    own = campaigns.file("own.toml", own_text)
    status, wanted, _ = campaigns.run(["run", own])
    settings = campaigns.file("outside.toml", outside_settings(wanted, own_text))
    plans = campaigns.run(["plans", own])
    campaigns.expect(f"{name}: plans", plans, campaigns.run(["plans", settings]))
    draw, known, answers, rounds = random.Random(7), {}, [], 0
    if b"%" not in own_text.encode():
        answers.append(answer(campaigns, own, NOBODY, known))
    while True:
        given = b"".join(answers)
        asked = campaigns.run(["asks", settings], given)
        campaigns.expect(f"{name}: asks", (0, told(given)), (asked[0], asked[2]))
        lines = asked[1].splitlines()
        campaigns.expect(f"{name}: each once", len(lines), len(set(lines)))
        campaigns.expect(f"{name}: none that is answered", set(), set(lines) & set(known) - {NOBODY})
        if not lines or asked[0] != 0:
            break
        refused = campaigns.run(["report", settings], given)
        campaigns.expect(f"{name}: report waits", (2, b"", b"not answered " + lines[0] + b"\n"), refused)
        part = draw.sample(lines, max(1, len(lines) // 2))
        answers += [answer(campaigns, own, line, known) for line in part]
        answers += draw.sample(answers, 1)
        draw.shuffle(answers)
        rounds += 1
    given = b"".join(answers)
    campaigns.expect(f"{name}: report", (status, wanted, told(given)), campaigns.run(["report", settings], given))
    for form in FORMS:
        status, wanted, _ = campaigns.run(["run", form, own])
        found = campaigns.run(["report", form, settings], given)
        campaigns.expect(f"{name}: {form}", (status, alike(form, wanted), told(given)), (found[0], alike(form, found[1]), found[2]))


def size(campaigns):
    """The most plans, all answered. Each command takes a few tenths of a second; a search of a list for each plan would take minutes."""
    settings = campaigns.file("size.toml", 'target = "outside"\n[outside]\nlabel = "x"\ncodes = []\npoints = ["p"]\nhits = [21845]\n')
    status, asked, _ = campaigns.run(["asks", settings])
    lines = asked.splitlines()
    campaigns.expect("the most plans", (0, 65536), (status, len(lines)))
    given = b"".join(b"pass\t" + line + b"\n" for line in lines)
    for command, wanted in (("asks", 0), ("report", 65536 + 6)):
        status, text, _ = campaigns.run([command, settings], given)
        campaigns.expect(command, (0, wanted), (status, len(text.splitlines())))


def size_to_a_depth(campaigns):
    """Many with a depth: 23,857 plans of 90 hits each, where runs go on after a panic too. Each command takes some seconds; a search of a list for each plan
    would take minutes."""
    settings = campaigns.file("deep.toml", 'target = "outside"\ndepth = 2\n[outside]\nlabel = "x"\ncodes = []\npoints = ["p", "q"]\n')
    hits = b";".join([b"p;q"] * 45)
    answers = {b"none": b"pass\tnone\t%s\n" % hits}
    while True:
        status, asked, _ = campaigns.run(["asks", settings], b"".join(answers.values()))
        campaigns.expect("asks of many", 0, status)
        if not asked or status != 0:
            break
        answers.update((line, b"pass\t%s\t%s\n" % (line, hits)) for line in asked.splitlines())
    status, text, _ = campaigns.run(["report", settings], b"".join(answers.values()))
    # 180 plans have one fault, and 4 for each two of the 90 hits have two; 7,656 go onward: 2 for each two of the first 88 hits, whose points are hit again
    campaigns.expect("a report of many", (0, [b"level 1 180", b"level 2 16020", b"plans 23857"]),
                     (status, [line for line in text.splitlines() if line.startswith((b"level 1", b"level 2", b"plans"))]))


def main():
    with tempfile.TemporaryDirectory() as folder:
        campaigns = Campaigns(folder)
        for name in ("replace_late_sync.toml", "replace_retry_write.toml", "maildir_append_tmp.toml", "commit_early_end.toml"):
            bundled(campaigns, name)
        bundled(campaigns, "replace_ignore_sync.toml", "pairs = true\nstorms = 20\nrate = 300\n")
        with ThreadPoolExecutor(4) as workers:
            for checks, failed in workers.map(lambda each: grown_to_three(*each), [(target, variant) for target in VARIANTS for variant in VARIANTS[target]]):
                campaigns.checks += checks
                campaigns.failed += failed
        grown(campaigns, "replace_ignore_sync.toml", 2, {}, "storms = 20\nrate = 300\n")
        size(campaigns)
        size_to_a_depth(campaigns)
        print(f"{campaigns.failed} checks failed")
    return 1 if campaigns.failed else 0


sys.exit(main())
