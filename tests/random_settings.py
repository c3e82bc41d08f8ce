#!/usr/bin/env python3
"""Writes settings of campaigns that are drawn at random, for one target, to files 0.toml and on in the current folder.

    random_settings.py replace|maildir|commit SEED COUNT

The same words write the same settings.
"""
import sys

CHUNKS = ['""', '"a"', '"bc"', r'"\u00e9"', '"defg"']
WISHES = ['"yes"', '"yes"', '"no"']
CHAINS = ["return", "1*return", "2*off->1*return", "1*off->panic", "50%return", "20%2*return->10%panic", "30%pause",
          "99.9%yield->3*print(x)->delay(7)"]
VARIANTS = {
    "replace": ["sound", "late_sync", "ignore_sync", "retry_write", "rename_first", "in_place"],
    "maildir": ["sound", "link_first", "ignore_write", "append_tmp", "deliver_in_new"],
    "commit": ["sound", "lazy_prepare", "early_end", "two_tries", "end_first"],
}
POINTS = {
    "replace": ["replace::write", "replace::sync", "replace::rename", "replace::unlink", "power::keep"],
    "maildir": ["maildir::write", "maildir::sync", "maildir::link", "maildir::unlink", "power::keep"],
    "commit": ["commit::force_prepare", "commit::force_commit", "commit::send_outcome", "power::keep", "elsewhere"],
}


class Numbers:
    """Numbers that look random, one after the other: Knuth's multiplier for 64 bits, and its upper half."""

    def __init__(self, state):
        self.state = state

    def below(self, bound):
        self.state = (self.state * 6364136223846793005 + 1442695040888963407) % 2**64
        return (self.state >> 32) % bound

    def among(self, texts):
        return texts[self.below(len(texts))]

    def lists(self, most, members, texts):
        """Fewer than so many lists, each of fewer than so many of these texts."""
        return [self.members(self.below(members), texts) for _ in range(self.below(most))]

    def members(self, count, texts):
        return "[" + ", ".join(self.among(texts) for _ in range(count)) + "]"


def keys(numbers, points):
    """The keys that each target has, with these points in listed scenarios."""
    yield f"seed = {numbers.below(1000)}"
    yield f"max_hits = {numbers.below(20) + 1 if numbers.below(4) == 0 else 1000}"
    grows = numbers.below(4) == 0
    yield f"pairs = {'true' if not grows and numbers.below(8) == 0 else 'false'}"
    yield f"storms = {numbers.below(4)}"
    yield f"rate = {numbers.below(1001)}"
    if grows:
        yield f"depth = {numbers.below(2) + 1}"
    yield f"crash_states = {'true' if numbers.below(4) == 0 else 'false'}"
    scenarios = []
    for _ in range(numbers.below(3)):
        scenarios.append('"' + "".join(f"{numbers.among(points)}={numbers.among(CHAINS)};" for _ in range(numbers.below(3))) + '"')
    yield f"scenarios = [{', '.join(scenarios)}]"


def table(numbers, target):
    """The keys of the target's own table."""
    if target == "replace":
        yield f'old = "{numbers.among(["", "a", "abc"])}"'
        yield f"replacements = [{', '.join(numbers.lists(3, 3, CHUNKS))}]"
    elif target == "maildir":
        yield f"messages = [{', '.join(numbers.lists(3, 4, CHUNKS))}]"
    else:
        participants = numbers.below(2) + 1
        yield f"participants = {participants}"
        yield f"transactions = [{', '.join(numbers.members(participants, WISHES) for _ in range(numbers.below(3)))}]"


def main():
    target, seed, count = sys.argv[1], int(sys.argv[2]), int(sys.argv[3])
    numbers = Numbers(seed)
    for number in range(count):
        lines = [f'target = "{target}"', f'variant = "{numbers.among(VARIANTS[target])}"']
        lines += [*keys(numbers, POINTS[target]), f"[{target}]", *table(numbers, target)]
        with open(f"{number}.toml", "w", encoding="utf-8") as file:
            file.write("\n".join(lines) + "\n")


main()
