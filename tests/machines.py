"""Compares the reports of one campaign that programs read with the one that people read.

    python3 machines.py REPORT PLANS DOCUMENT CASES

REPORT is what `run` writes, PLANS what `plans` does, DOCUMENT what `run --json` does, and CASES what `run --junit` does. The last two are read
by the parsers of Python's library, and each member, element and attribute is compared with what the lines of the first two say, as
docs/MACHINES.md tells it; of `about` the plans. Prints each difference, and at last how many plans were compared.
"""
import json
import sys
import xml.etree.ElementTree as xml


def lines_of(name):
    with open(name, encoding="utf-8") as file:
        return file.read().splitlines()


def after(lines, word):
    return [line[len(word) + 1 :] for line in lines if line.startswith(word + " ")]


def scenario(text):
    return "" if text == "none" else text


def verdict_of(text):
    word, _, code = text.partition(" ")
    return {"verdict": word, "code": code if word == "fail" else None}


def points(lines):
    return [{"point": line.rsplit(" ", 1)[0], "hits": int(line.rsplit(" ", 1)[1])} for line in lines]


def findings_of(lines):
    found = zip(after(lines, "first"), after(lines, "scenario"), after(lines, "reduced"), after(lines, "tests"))
    for first, whole, reduced, tests in found:
        number, code = first.split(" ", 1)
        yield {"number": int(number), "code": code, "scenario": scenario(whole), "reduced": scenario(reduced), "tests": int(tests)}


def growth_of(lines):
    if not after(lines, "depth"):
        return None
    causes = [line.split(" ", 2) for line in after(lines, "cause")]
    return {
        "depth": int(after(lines, "depth")[0]),
        "levels": [int(line.split()[1]) for line in after(lines, "level")],
        "onward": int(after(lines, "onward")[0]),
        "beyond": int(after(lines, "beyond")[0]),
        "reached": points(after(lines, "reached")),
        "causes": [{"number": int(number), "code": code, "scenario": scenario(text)} for number, code, text in causes],
    }


def document_of(lines, plans):
    verdicts = [verdict_of(line.split(" ", 1)[1]) for line in after(lines, "verdict")]
    counts = {word: sum(each["verdict"] == word for each in verdicts) for word in ("pass", "fail", "unresolved")}
    numbered = [{"number": n, **each, "scenario": scenario(plan)} for n, (each, plan) in enumerate(zip(verdicts, plans))]
    return {
        "version": 1,
        "label": after(lines, "target")[0],
        "seed": after(lines, "seed")[0],
        "clean": verdict_of(after(lines, "clean")[0]),
        "census": points(after(lines, "census")),
        "counts": {"plans": int(after(lines, "plans")[0]), **counts},
        "not_passed": [each for each in numbered if each["verdict"] != "pass"],
        "findings": list(findings_of(lines)),
        "growth": growth_of(lines),
    }


def spelled(faults, points):
    """The scenario of a plan that grew, by its faults: the place of a point, which hit, and what happens there. A return that only comes before one from then
    on, with the same text, is a part of it."""
    entries = []
    for place, point in enumerate(points):
        terms, done = [], 0
        merged = []
        for hit, kind in sorted(((int(hit), kind) for where, hit, kind in faults if int(where) == place), reverse=True):
            is_part = merged and merged[0][0] == hit + 1 and kind == f"1*{merged[0][1]}"
            merged[: 1 if is_part else 0] = [(hit, merged[0][1] if is_part else kind)]
        for hit, kind in merged:
            terms += [f"{hit - done - 1}*off"] * (hit > done + 1) + [kind]
            done = hit
        entries += [f"{point}={'->'.join(terms)}"] if terms else []
    return ";".join(entries)


def wrong_about(read, plans):
    """What of the member `about` isn't so: of the plans behind those that grew or that the census makes, and of those that grew."""
    about, growth, points = read["about"], read["growth"], [item["point"] for item in read["census"]]
    behind = [scenario(plan) for plan in plans[len(plans) - len(about["storms"] + about["listed"]) :]]
    if about["storms"] + about["listed"] != behind:
        yield f"storms and listed: {about['storms']}, {about['listed']}"
    grown = [[fault.split(" ", 2) for fault in plan.split("; ") if fault] for plan in about["grown"]]
    if len(grown) != (sum(growth["levels"]) + growth["onward"] if growth else 0):
        yield f"{len(grown)} plans that grew"
    for number, (faults, plan) in enumerate(zip(grown, plans)):
        if spelled(faults, points) != scenario(plan):
            yield f"grown {number}: {faults}, not {plan}"


def wrong_runs(read):
    """What isn't so of the runs that are told: how many there are, that none lacks where the program ran a target, and which have a parent's beside them."""
    about, growth = read["about"], read["growth"]
    for name, items in (("finding_runs", read["findings"]), ("cause_runs", growth["causes"][:100] if growth else [])):
        if len(about[name]) != len(items):
            yield f"{name}: {len(about[name])}, not {len(items)}"
        for number, run in zip([item["number"] for item in items], about[name]):
            if run is None and about["told_by"] == "target":
                yield f"{name}: none of {number}"
            has_parent = number < len(about["grown"]) and "; " in about["grown"][number]
            if run and ("parent" in run) != has_parent:
                yield f"{name}: of {number} {sorted(run)}"


def cases_of(document, plans):
    """The suite that a document tells, as nested lists: tag, attributes, text and children."""
    label, counts = document["label"], document["counts"]
    told = {each["number"]: each for each in document["not_passed"]}
    found = {each["number"]: each for each in document["findings"]}
    cases = []
    for number, plan in enumerate(plans):
        children = []
        each = told.get(number)
        if each and each["verdict"] == "unresolved":
            children = [["skipped", {"message": "unresolved"}, "", []]]
        elif each:
            text = f"scenario {plan}\n"
            if number in found:
                text += f"reduced {found[number]['reduced'] or 'none'}\ntests {found[number]['tests']}\n"
            children = [["failure", {"type": each["code"], "message": f"fail {each['code']}"}, text, []]]
        cases.append(["testcase", {"classname": label, "name": f"plan {number} {plan}"}, "", children])
    numbers = {"tests": counts["plans"], "failures": counts["fail"], "errors": 0, "skipped": counts["unresolved"]}
    return ["testsuites", {}, "\n", [["testsuite", {"name": label, **{name: str(n) for name, n in numbers.items()}}, "\n", cases]]]


def tree_of(element):
    return [element.tag, element.attrib, element.text or "", [tree_of(child) for child in element]]


def main():
    report, plans, document, cases = sys.argv[1:]
    plans = [line.split(" ", 2)[2] for line in lines_of(plans)]
    wanted = document_of(lines_of(report), plans)
    with open(document, encoding="utf-8") as file:
        read = json.load(file)
    for line in [*wrong_about(read, plans), *wrong_runs(read)]:
        print(line)
    del read["about"]
    for name in [*wanted, *(name for name in read if name not in wanted)]:
        if wanted.get(name) != read.get(name):
            print(f"{name}: {read.get(name)}, not {wanted.get(name)}")
    if list(read) != list(wanted):
        print(f"members: {list(read)}")
    if tree_of(xml.parse(cases).getroot()) != cases_of(wanted, plans):
        print(f"{cases}: another suite")
    print(f"{len(plans)} plans")


main()
