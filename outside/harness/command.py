"""The command `loop`: its arguments and its exit status."""

import contextlib
import os
import shlex
import signal
from collections.abc import Iterator
from pathlib import Path

from . import definition, programs, script, seeds
from .answers import DIFFERS, Answers, Stopped, stopped_by
from .bounds import Bounds
from .budget import Budget, seconds_of
from .campaign import Campaign
from .certify import FILE_SYSTEMS, MOST, Certifier, Wanted
from .definition import FAILURES, LIVE, VARIABLES, Harness
from .disk import disk_of
from .identity import noted
from .paklour import Paklour
from .processes import OUTSIDE, WITHIN, Processes
from .records import Records
from .room import Room
from .run import Runner
from .settings import NEXT, Settings
from .shard import join, shard_of
from .shown import from_here, show, until_nobody_reads, write_out
from .watching import watched
from .whole import ALWAYS, FORMS, Asked, Whole, decider_of
from .words import ASK_HELP, Usage, as_called, bytes_of, refused, shows_progress, split, whole_number, write_help
from .work import Note, Work

OF_SEEDS = ("--workloads", "--seed")
OF_HARNESS = {"--failing", "--depth", "--no-kinds", "--settings", "--into", "-x", "--failures", "--try", "--whole", "--page", "--junit", "--json",
    "--shard", "--join", "--every-run", "--room", "--bytes", "--kill", "--known", "--certify", "--certificates", "--for", "--plans", *OF_SEEDS}
OF_SCRIPT = {"--script", "--engine", "--brief", "--no-recheck", "--hits"}
WITH_VALUE = {"-j", "--seconds", "--engine", "--script", "--depth", "--try", "--into", "--room", "--bytes", "--failures", "--settings", "--shard",
    "--join", "--known", "--certificates", "--for", "--plans", *OF_SEEDS}
REPEATED = frozenset({"--known"})
LISTING = {"--certify": FILE_SYSTEMS}
FLAGS = {*ASK_HELP, "--strict", "--progress", *(OF_HARNESS | OF_SCRIPT) - WITH_VALUE - LISTING.keys()}


class Interrupted(Stopped):
    """A signal ends the loop."""


def on_signal(number: int, frame: object) -> None:
    raise Interrupted(f"stopped by {signal.Signals(number).name}", 128 + number)


@contextlib.contextmanager
def tells_what_is_kept(answers: Answers) -> Iterator[None]:
    """If a signal ends the loop meanwhile, the line for a person says how many runs needn't be made again."""
    try:
        yield
    except Interrupted as stopped:
        kept = f"{answers.count} answers are kept in {from_here(Path(answers.path))}, of which {answers.failing} fail"
        stopped.line += f": {kept}; the same command goes on from there"
        raise


def tell_unbuilt() -> None:
    if not os.access(WITHIN, os.X_OK):
        show(f"loop: {WITHIN} isn't built, so processes that a run leaves behind aren't ended: call make -C {OUTSIDE}")


def refuse_others(options: dict[str, str], others: set[str], of: str) -> None:
    """Refuses options that have no meaning here."""
    for word in options.keys() & others:
        raise Stopped(f"{word} can be used only with {of}")


def script_words(options: dict[str, str], rest: list[str]) -> tuple[str, str, str, list[str]]:
    """SETTINGS, ANSWERS, TRY and GNU parallel's own arguments. TRY may also be given by `--script TRY`."""
    given, behind = (rest[:rest.index("--")], rest[rest.index("--") + 1:]) if "--" in rest else (rest, [])
    if "--script" in options:
        given = [*given, options["--script"]]
    if behind and options.get("--engine") != "parallel":
        raise Usage("--: words can stand behind it only with --engine parallel")
    if len(given) != 3:
        raise Usage
    return given[0], given[1], given[2], behind


def run_script(options: dict[str, str], rest: list[str], processes: Processes) -> int:
    settings, kept, name, behind = script_words(options, rest)
    refuse_others(options, OF_HARNESS, "a harness")
    jobs, seconds = jobs_of(options), number_of(options, "--seconds", "300")
    if options.get("--engine", "xargs") not in ("xargs", "parallel"):
        raise Usage(f"--engine {options['--engine']}: the only engine is parallel")
    tell_unbuilt()
    answers = Answers(kept)
    paklour = Paklour(settings, answers)
    hits = "told" if paklour.has_depth() else "asked" if "--hits" in options else "untold"
    if options.get("--engine") == "parallel":
        tries = script.Parallel(name, seconds, jobs, hits, options=behind)
    else:
        tries = script.Here(name, seconds, jobs, hits, processes=processes)
    campaign = Campaign(paklour, answers, tries, shows_progress(options))
    try:
        with tells_what_is_kept(answers):
            campaign.grow()
            return script_report(options, campaign, tries)
    finally:
        tries.end()


def script_report(options: dict[str, str], campaign: Campaign, tries: script.Tries) -> int:
    """Prints the report, and runs each failing plan once more."""
    paklour = campaign.paklour
    status, report = paklour.report(*(["--strict"] if "--strict" in options else []))
    write_out(paklour.report("--brief", tells=False)[1] if "--brief" in options else report)
    if status != 1 or "--no-recheck" in options:
        return status
    return status if script.recheck(paklour, tries, report, campaign.shows_progress) else DIFFERS


def asked_of(loop: str, options: dict[str, str], path: str, harness: Harness) -> Asked:
    failures = 1 if "-x" in options else number_of(options, "--failures")
    variables = [f"{name}={shlex.quote(os.environ[name])} " for name in VARIABLES if name in os.environ]
    words = [as_called(loop), path, *[word for name in ("--settings", "--into") if name in options for word in (name, options[name])],
        *["--seed", str(harness.seed)] * bool(harness.seed), *["--kill"] * ("--kill" in options), *[word for code in known_of(options) for word in ("--known", code)]]
    return Asked("".join(variables) + shlex.join(words), jobs_of(options), shows_progress(options),
        "--whole" not in options, "--strict" in options, [form for form in FORMS if form in {ALWAYS, *options}], failures,
        shard_of(options["--shard"]) if "--shard" in options else None, "--failing" in options, budget_of(options))


def run_harness(loop: str, options: dict[str, str], path: str, processes: Processes) -> int:
    """Runs a campaign of a harness. Its files lie beside the harness, or in the folder of `--into`."""
    refuse_others(options, OF_SCRIPT, "a script")
    programs.check_built()
    first = number_of(options, "--seed", "1")
    harness = definition.read(path, first)
    if not harness.seed:
        refuse_others(options, set(OF_SEEDS), "a harness whose `operations` is a function, which draws them from a seed")
        return run_campaign(loop, options, path, harness, processes)
    seeds.refuse(options)
    return seeds.run_each(range(first, first + number_of(options, "--workloads", "1")), "-x" in options,
        lambda seed: run_campaign(loop, options, path, definition.read(path, seed), processes.of_another()))


def run_campaign(loop: str, options: dict[str, str], path: str, harness: Harness, processes: Processes) -> int:
    """Runs the campaign of a harness, or of one workload that it has drawn."""
    judge_less(harness, options)
    folder = seeds.folder_of(harness, Path(options.get("--into", harness.folder)))
    own = harness.identity(folder.resolve())
    folder.mkdir(parents=True, exist_ok=True)
    seeds.write_workload(harness, folder)
    asked = asked_of(loop, options, path, harness)
    answers = Answers(str(folder / "answers"))
    answers.cut_torn()
    note = None if "--try" in options else Note(answers, own, "--every-run" in options)
    if "--join" in options:
        join(Path(options["--join"]), own, answers)
    settings = Settings(harness, folder, answers, options.get("--settings"), number_of(options, "--depth"), "--no-kinds" not in options,
        keeps="--try" in options)
    refuse_settings(settings, harness, options)
    harness.order = "next" if NEXT in settings.points else harness.order
    known = {"needs_disk": note.needs_disk, "begins": note.begins} if note else noted(Path(answers.path))
    work = Work(note, known.get("needs_disk"), known.get("begins"))
    try:
        runner = Runner(harness, work, processes, room_of(options, work.place))
        decider = decider_of(runner, settings, "--every-run" in options, answers)
        certifier = Certifier(runner, folder, certified_of(options)) if "--certify" in options else None
        if "--try" in options:
            runner.prepare()
            return watched(decider, options["--try"], certifier)
        with tells_what_is_kept(answers):
            runner.prepare()
            return Whole(harness, settings, decider, answers, asked, certifier).run()
    finally:
        processes.end()
        work.end()


def refuse_settings(settings: Settings, harness: Harness, options: dict[str, str]) -> None:
    if not settings.depth and {"--for", "--plans"} & options.keys():
        raise Stopped(f"{settings.path} has no depth, and a budget is for plans that grow: give it one")
    if "--kill" in options and not settings.is_made:
        raise Stopped(f"{settings.path} has settings of your own: leave out power::keep there, and let a harness.py define states = ['live'], "
            "in place of --kill")
    if settings.is_made and "--try" not in options and (os.environ | harness.variables).get("FAULTS_POINTS") == "file":
        raise Stopped("FAULTS_POINTS=file gives points the names of files, which settings of your own have to list (--settings); `--try none` shows them. "
            "What the loop prints, and its page, name the files without it")


def certified_of(options: dict[str, str]) -> Wanted:
    """What is to be certified, on which file systems."""
    return Wanted(tuple(dict.fromkeys(options["--certify"].split())) or FILE_SYSTEMS, number_of(options, "--certificates", str(MOST)))


def known_of(options: dict[str, str]) -> list[str]:
    return options["--known"].split("\n") if "--known" in options else []


def judge_less(harness: Harness, options: dict[str, str]) -> None:
    """Leaves out what these options say: power cuts, and failures that are known."""
    known = known_of(options)
    harness.known = tuple(code for code in known if code not in FAILURES)
    harness.allowed += tuple(code for code in known if code in FAILURES)
    if "--kill" in options:
        if "again" in harness.steps:
            raise Stopped("--kill: `again` of this harness begins after a power cut, so it can't be judged by a killed program alone")
        harness.states = (LIVE,)


def room_of(options: dict[str, str], place: str) -> Room:
    bounds = Bounds(number_of(options, "--seconds", "60"), bytes_of(options.get("--bytes", "1G"), "--bytes"))
    return Room(disk_of(place), bytes_of(options.get("--room", "1G"), "--room"), bounds, Records())


def budget_of(options: dict[str, str]) -> Budget | None:
    seconds = seconds_of(options["--for"], "--for") if "--for" in options else None
    return Budget(seconds, number_of(options, "--plans")) if {"--for", "--plans"} & options.keys() else None


def number_of(options: dict[str, str], name: str, default: str = "") -> int | None:
    text = options.get(name, default)
    return whole_number(text, name) if text or name in options else None


def jobs_of(options: dict[str, str]) -> int:
    name = "-j" if "-j" in options else "PROCESSES"
    return whole_number(options.get("-j") or os.environ.get(name) or "4", name)


def check_numbers(options: dict[str, str]) -> None:
    """Refuses numbers that aren't any, before something is made."""
    jobs_of(options)
    for name in ("--seconds", "--depth", "--failures", "--certificates", *OF_SEEDS):
        number_of(options, name)
    budget_of(options)
    for name in {"--room", "--bytes"} & options.keys():
        bytes_of(options[name], name)
    if "--shard" in options:
        shard_of(options["--shard"])


def main(loop: str, words: list[str]) -> int:
    return until_nobody_reads(lambda: perform(loop, words))


def perform_words(loop: str, words: list[str], processes: Processes) -> int:
    try:
        options, rest = split(words, WITH_VALUE, FLAGS, REPEATED, LISTING)
        if options.keys() & set(ASK_HELP):
            return write_help(loop)
        check_numbers(options)
        if len(rest) == 1 and "--script" not in options:
            return run_harness(loop, options, rest[0], processes)
        return run_script(options, rest, processes)
    except OSError as error:
        raise stopped_by(error) from error


def perform(loop: str, words: list[str]) -> int:
    processes = Processes()
    for number in (signal.SIGHUP, signal.SIGINT, signal.SIGTERM):
        signal.signal(number, on_signal)
    try:
        return perform_words(loop, words, processes)
    except Usage as usage:
        return refused(loop, usage)
    except Stopped as stopped:
        if stopped.line:
            show(f"loop: {stopped.line}")
        return stopped.status
    finally:
        for number in (signal.SIGHUP, signal.SIGINT, signal.SIGTERM):
            signal.signal(number, signal.SIG_IGN)
        processes.end()
