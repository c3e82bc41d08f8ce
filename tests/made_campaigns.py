#!/usr/bin/env python3
"""Campaigns with a depth over made components: what one hits next, and its verdict, is drawn once for all from its answers so far. The list of plans and the
report are worked out here by the definitions alone; however the answers come, those of the program are the same.

    tests/made_campaigns.py COUNT

`paklour` has to be on the PATH. Of each campaign the answers come in rounds, each a part of what is asked, in any order, some again, some unasked, scenarios
spelled otherwise, hits in a row told as `2*a`. Between rounds it is looked at what is known. Of what a failure is reduced to it is looked at that it fails so, and without any one of its faults doesn't;
how many tests that took isn't. Some components hide the hits of their unresolved runs: nothing grows from these, and the report counts them. Then one answer is changed so that the component isn't one, or one is added that contradicts a plan's: the lines that are told are worked out too. Prints each
difference, and at last how many campaigns there were, with how many plans. Fails where something differs.
"""
import hashlib
import os
import random
import re
import subprocess
import sys
import tempfile
from concurrent.futures import ThreadPoolExecutor
from itertools import groupby

GO, RETURN, PANIC = "g", "r", "p"
ONWARD = "from then on"
CODES = ["lost", "torn in two"]


class Component:
    """What is hit next is a function of the answers so far, and so is the verdict of a run."""

    def __init__(self, number):
        draw = random.Random(number)
        self.number = number
        self.points = draw.sample(["a", "b::c", "d", "e"], draw.randint(1, 4))
        self.longest = draw.randint(0, 8)
        self.survives = draw.random() < 0.3  # a panic ends it, or is followed by a restart
        self.failing = draw.choice([0, 5, 25])
        self.depth = draw.randint(1, 3)
        listed = [f"{draw.choice(self.points)}={draw.choice(['return', '1*off->panic', '2*return'])}" for _ in range(draw.randint(0, 2))]
        self.listed = listed if draw.random() < 0.3 else []
        self.hides = draw.random() < 0.3

    def drawn(self, what, answers):
        """A number below 1000 that goes by these answers."""
        return int.from_bytes(hashlib.blake2b(f"{self.number} {what} {answers}".encode(), digest_size=4).digest(), "big") % 1000

    def play(self, answer):
        """The hits of a run, with their answers: points, and one letter for each. `answer` is asked with a point and the number of the hit of it."""
        hits, answers = [], ""
        while len(hits) < self.longest and self.drawn("end", answers) >= 80 and (self.survives or PANIC not in answers):
            point = self.points[self.drawn("point", answers) % len(self.points)]
            hits.append(point)
            answers += answer(point, hits.count(point))
        return hits, answers

    def verdict(self, answers):
        """By the answers alone, since the hits go by them."""
        drawn = self.drawn("verdict", answers) % 100
        if drawn < self.failing and answers.strip(GO):
            return "fail " + CODES[drawn % 2]
        return "unresolved" if drawn > (90 if self.hides else 97) else "pass"

    def is_hidden(self, answers):
        return self.hides and self.verdict(answers) == "unresolved"


def by_text(scenario):
    """How a scenario answers each hit: terms that are used up, then the next one."""
    chains = {}
    for entry in scenario.split(";") if scenario != "none" else []:
        point, terms = entry.split("=")
        chain = []
        for term in terms.split("->"):
            count, star, task = term.rpartition("*")
            chain.append((int(count) if star else None, {"off": GO, "return": RETURN, "panic": PANIC}[task]))
        chains[point] = chain

    def answer(point, ordinal):
        for count, task in chains.get(point, []):
            if count is None or ordinal <= count:
                return task
            ordinal -= count
        return GO
    return answer


def by_faults(faults):
    """How a plan answers: a list of (point, ordinal, RETURN or PANIC or ONWARD)."""
    def answer(point, ordinal):
        for where, at, fault in faults:
            if (where, at) == (point, ordinal) and fault != ONWARD:
                return fault
            if where == point and fault == ONWARD and ordinal >= at:
                return RETURN
        return GO
    return answer


def text_of(points, faults):
    """The scenario of a plan: an entry for each point in the order of the settings."""
    entries = []
    for point in points:
        terms, before = [], 0
        for _, ordinal, fault in sorted(fault for fault in faults if fault[0] == point):
            if ordinal - before > 1:
                terms.append(f"{ordinal - before - 1}*off")
            terms.append({RETURN: "1*return", PANIC: "1*panic", ONWARD: "return"}[fault])
            before = ordinal
        if terms:
            entries.append(point + "=" + "->".join(terms))
    return ";".join(entries) or "none"


class Expected:
    """The list of a campaign and its report, by the definitions; where only some scenarios are known, the list as far as these tell it."""

    def __init__(self, component, known=None):
        self.component, self.runs, self.known = component, {}, known
        self.levels = [[()]]
        for _ in range(component.depth):
            self.levels.append([child for plan in self.levels[-1] for child in self.children(plan)])
        self.leaves = [(plan, more) for plan in self.levels[-1] for more in self.from_then_on(plan)]
        self.onward = [more for _, more in self.leaves]
        self.plans = sum(self.levels, []) + self.onward

    def run(self, plan):
        if plan not in self.runs:
            self.runs[plan] = self.component.play(by_faults(plan))
        return self.runs[plan]

    def is_hidden(self, plan):
        return self.component.is_hidden(self.run(plan)[1])

    def seen(self, plan):
        """The hits of a run, as far as they are told."""
        return [] if self.is_hidden(plan) else self.run(plan)[0]

    def behind(self, plan):
        """The hits behind the last fault, as point and ordinal."""
        hits, _ = self.run(plan)
        sites = [(point, hits[:at + 1].count(point)) for at, point in enumerate(hits)]
        return sites[sites.index(plan[-1][:2]) + 1:] if plan else sites

    def after(self, plan):
        """The same as far as they are told: none of a run that isn't known, or whose hits aren't."""
        if self.known is not None and text_of(self.component.points, plan) not in self.known:
            return []
        return [] if self.is_hidden(plan) else self.behind(plan)

    def children(self, plan):
        return [plan + ((point, ordinal, fault),) for point, ordinal in self.after(plan) for fault in (RETURN, PANIC)]

    def from_then_on(self, plan):
        point, ordinal, fault = plan[-1]
        again = any(where == point for where, _ in self.after(plan))
        if fault != RETURN or not again:
            return []
        while (point, ordinal - 1, RETURN) in plan:  # one fault with those directly before it
            ordinal -= 1
        return [tuple(one for one in plan if one[0] != point or one[1] < ordinal) + ((point, ordinal, ONWARD),)]

    def verdict(self, plan):
        return self.component.verdict(self.run(plan)[1])

    def is_cause(self, plan):
        verdict = self.verdict(plan)
        return verdict.startswith("fail") and all(self.verdict(plan[:at] + plan[at + 1:]) != verdict for at in range(len(plan)))

    def report(self):
        """Its lines, but for those of what a failure is reduced to."""
        points, depth = self.component.points, self.component.depth
        clean = self.seen(())
        yield from (f"target made {self.component.number}", "seed 0", f"clean {self.verdict(())}")
        yield from (f"census {point} {clean.count(point)}" for point in points)
        yield f"depth {depth}"
        yield from (f"level {number} {len(level)}" for number, level in enumerate(self.levels))
        yield from (f"onward {len(self.onward)}", f"beyond {sum(len(self.children(plan)) for plan in self.levels[-1])}")
        unseen = sum(map(self.is_hidden, self.plans))
        yield from [f"unseen {unseen}"] if unseen else []
        yield from (f"reached {point} {max(self.seen(plan).count(point) for plan in self.plans)}" for point in points)
        texts = [text_of(points, plan) for plan in self.plans] + self.component.listed
        verdicts = [self.component.verdict(self.component.play(by_text(text))[1]) for text in texts]
        yield f"plans {len(texts)}"
        yield from (f"verdict {number} {verdict}" for number, verdict in enumerate(verdicts))
        firsts = {verdict: number for number, verdict in reversed(list(enumerate(verdicts))) if verdict.startswith("fail")}
        for verdict, number in sorted(firsts.items(), key=lambda first: first[1]):
            yield from (f"first {number} {verdict[5:]}", f"scenario {texts[number]}")
        if not firsts:
            yield "first none"
        causes = [(number, plan) for number, plan in enumerate(self.plans) if self.is_cause(plan)]
        yield f"causes {len(causes)}"
        yield from (f"cause {number} {verdicts[number][5:]} {texts[number]}" for number, _ in causes)


def without_each(scenario):
    """A scenario without one of its faults, for each of them: off in its place."""
    entries = [entry.split("=") for entry in scenario.split(";")]
    for at, (point, chain) in enumerate(entries):
        terms = chain.split("->")
        for place, term in enumerate(terms):
            if not term.endswith("off"):
                left = terms[:place] + [term.rpartition("*")[0] + "*off"] * ("*" in term) + terms[place + 1:] * ("*" in term)
                rest = [point + "=" + "->".join(left)] if left else []
                yield ";".join(["=".join(entry) for entry in entries[:at]] + rest + ["=".join(entry) for entry in entries[at + 1:]]) or "none"


def paklour(words, given):
    done = subprocess.run(["paklour", *words], input=given.encode(), capture_output=True, timeout=60, check=False)
    return done.returncode, done.stdout.decode(), done.stderr.decode()


def hits_text(hits):
    rows = [(point, len(list(row))) for point, row in groupby(hits)]
    return ";".join(point if count == 1 else f"{count}*{point}" for point, count in rows)


class Campaign:
    """One campaign: what differs stands in `differs`."""

    def __init__(self, number, folder):
        self.component, self.draw, self.differs = Component(number), random.Random(number + 1), []
        self.settings = os.path.join(folder, f"{number}.toml")
        quoted = {name: ", ".join(f'"{text}"' for text in texts) for name, texts in
                  (("points", self.component.points), ("codes", CODES), ("scenarios", self.component.listed))}
        with open(self.settings, "w", encoding="utf-8") as file:
            file.write(f'target = "outside"\ndepth = {self.component.depth}\nscenarios = [{quoted["scenarios"]}]\n[outside]\n'
                       f'label = "made {number}"\ncodes = [{quoted["codes"]}]\npoints = [{quoted["points"]}]\n')

    def expect(self, what, wanted, found):
        if wanted == found:
            return
        if isinstance(wanted, list) and isinstance(found, list):
            wanted, found = [line for line in wanted if line not in found], [line for line in found if line not in wanted]
        self.differs.append(f"campaign {self.component.number}: {what}\n  wanted {str(wanted)[:600]}\n  found  {str(found)[:600]}")

    def answer(self, scenario):
        hits, answers = self.component.play(by_text(scenario))
        return self.component.verdict(answers), scenario, "-" if self.component.is_hidden(answers) else hits_text(hits)

    def spelled(self, answer):
        verdict, scenario, hits = answer
        return f"{verdict}\t{scenario.replace('->', ' -> ') if self.draw.random() < 0.2 else scenario}\t{hits}\n"

    def perform(self):
        known, lines, unasked, rounds = {}, [], {}, self.draw.random() < 0.5
        while True:
            status, asked, told = paklour(["asks", self.settings], "".join(lines))
            self.expect("asks", (0, ""), (status, told))
            new = asked.splitlines()
            self.expect("asked once, and never what is known", len(new), len(set(new) - set(known)))
            if not new or self.differs:
                break
            if rounds:
                self.look_at_known({**known, **unasked}, "".join(lines))
            part = self.draw.sample(new, self.draw.randint(1, len(new))) if rounds and len(known) < 200 else new
            known.update((scenario, self.answer(scenario)) for scenario in part)
            lines += [self.spelled(known[scenario]) for scenario in part]
            lines += self.draw.sample(lines, 1)
            if self.draw.random() < 0.3:
                more = f"{self.draw.choice(self.component.points)}=3*off->return"
                unasked[more] = self.answer(more)
                lines.append(self.spelled(unasked[more]))
            self.draw.shuffle(lines)
        expected = Expected(self.component)
        self.look_at(expected, lines)
        self.expect("each plan of the levels was asked", set(), {text_of(self.component.points, plan) for plan in sum(expected.levels, [])} - set(known))
        if len(expected.plans) > 1 and not self.differs:
            self.break_one(expected, {**known, **unasked})
            self.contradict_one(expected, {**known, **unasked})
        return len(expected.plans)

    def look_at_known(self, known, given):
        """What is known so far."""
        if self.component.listed:  # what of these is known already is another question
            return
        expected = Expected(self.component, known)
        plans = [text_of(self.component.points, plan) for plan in expected.plans]
        told = [(known[text][0], text) for text in plans if text in known]
        failing = [verdict[5:] + " " + text for verdict, text in told if verdict.startswith("fail")]
        wanted = [f"target made {self.component.number}", "seed 0", f"answered {len(told)} of {len(plans)} known",
                  *(f"known {verdict} {text}" for verdict, text in told if verdict != "pass"), "first so far " + (failing + ["none"])[0]]
        status, text, told = paklour(["report", "--partial", self.settings], given)
        self.expect("what is known", wanted, text.splitlines())
        self.expect("its end", (1 if failing else 0, ""), (status, told))

    def look_at(self, expected, lines):
        status, report, told = paklour(["report", self.settings], "".join(lines))
        found = [line for line in report.splitlines() if not line.startswith(("reduced ", "tests "))]
        wanted = list(expected.report())
        self.expect("report", wanted, found)
        self.expect("its end", (0 if "first none" in wanted else 1, ""), (status, told))
        for code, scenario, reduced in re.findall(r"^first \d+ (.*)\nscenario (.*)\nreduced (.*)\ntests \d+$", report, re.M):
            self.expect("reduced, it fails", "fail " + code, self.answer(reduced)[0])
            self.expect("without one fault it doesn't", [], [text for text in without_each(reduced) if self.answer(text)[0] == "fail " + code])
            if any(scenario == text_of(self.component.points, plan) for level in expected.levels for plan in level):
                self.expect("of the levels, it keeps each", scenario, reduced)

    def shared(self, expected):
        """A plan, and the last place of its hits up to which its run goes as that of an earlier plan: that of its last fault, or of one from then on
        the next hit of its point."""
        if expected.leaves and self.draw.random() < 0.5:
            leaf, plan = self.draw.choice(expected.leaves)
            behind = [point for point, _ in expected.behind(leaf)]
            return plan, len(expected.run(leaf)[0]) - len(behind) + behind.index(leaf[-1][0])
        plan = self.draw.choice(self.draw.choice([level for level in expected.levels[1:] if level]))
        return plan, len(expected.run(plan)[0]) - len(expected.behind(plan)) - 1

    def break_one(self, expected, known):
        """A plan's hits change where they are still those of an earlier plan: another point, or an end."""
        plan, last = self.shared(expected)
        text = text_of(self.component.points, plan)
        hits, answers = expected.run(plan)
        at = self.draw.randint(0, last)
        line = self.first_told(expected, known, hits[:at], answers[:at])
        if self.draw.random() < 0.5 or len(self.component.points) == 1:
            broken = hits[:at]
        else:
            broken = hits[:at] + [self.draw.choice([point for point in self.component.points if point != hits[at]])] + hits[at + 1:]
        given = "".join("\t".join(answer) + "\n" for answer in {**known, text: ("pass", text, hits_text(broken))}.values())
        wanted = (2, "", f"answers: line {list(known).index(text) + 1}: hits differ from line {line} at hit {at + 1}\n")
        for command in ("asks", "report"):
            self.expect(f"{command}: {text} is broken", wanted, paklour([command, self.settings], given))

    def first_told(self, expected, known, hits, answers):
        """The line of the first plan that has these hits with these answers, and so tells first what comes after them."""
        for plan in expected.plans:
            run = expected.run(plan)
            if not expected.is_hidden(plan) and (run[0][:len(hits)], run[1][:len(hits)]) == (hits, answers):
                return list(known).index(text_of(self.component.points, plan)) + 1
        raise AssertionError("no plan has this run")

    def contradict_one(self, expected, known):
        """With one more fault, which never acts, a scenario has a plan's run: another verdict or other hits contradict it."""
        points = self.component.points
        plan = self.draw.choice([plan for plan in expected.plans if not expected.is_hidden(plan)] or [()])
        hits, answers = expected.run(plan)
        free = [point for point in points if (point, ONWARD) not in [(where, fault) for where, _, fault in plan]]
        if not free or expected.is_hidden(plan):
            return
        point = self.draw.choice(free)
        text = text_of(points, plan + ((point, hits.count(point) + self.draw.randint(1, 3), self.draw.choice([RETURN, PANIC])),))
        if text in known:
            return
        at = self.draw.randint(0, len(hits))
        told = {"verdict differs from line {line}": (len(hits), hits),
                "hits differ from line {line} at hit {hit}": (at, hits[:at] + [self.draw.choice(points)] * (at == len(hits)))}
        why, (shared, other) = self.draw.choice(list(told.items()))
        line = self.first_told(expected, known, hits[:shared], answers[:shared])
        verdict = next(verdict for verdict in ("pass", "fail lost") if verdict != self.component.verdict(answers))
        given = "".join("\t".join(answer) + "\n" for answer in {**known, text: (verdict, text, hits_text(other))}.values())
        wanted = (2, "", f"answers: line {len(known) + 1}: {why.format(line=line, hit=at + 1)}\n")
        words = self.draw.choice([["asks"], ["report"], ["report", "--partial"]])
        self.expect(f"{words}: {text} contradicts a plan", wanted, paklour([*words, self.settings], given))


def perform(number, folder):
    campaign = Campaign(number, folder)
    plans = campaign.perform()
    return plans, campaign.differs


def main():
    count = int(sys.argv[1])
    with tempfile.TemporaryDirectory() as folder, ThreadPoolExecutor(4) as workers:
        results = list(workers.map(lambda number: perform(number, folder), range(count)))
    differs = [what for _, campaign in results for what in campaign]
    for what in differs[:10]:
        print(what)
    print(f"{count} campaigns of {sum(plans for plans, _ in results)} plans, {len(differs)} differ")
    return 1 if differs else 0


if __name__ == "__main__":
    sys.exit(main())
