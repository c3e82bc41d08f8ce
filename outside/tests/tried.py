#!/usr/bin/env python3
"""tried.py [keep] HARNESS SCENARIO..: runs each of them, whatever is known of others, and writes its answer: verdict, scenario, hits. In the states of
the harness; or with `keep` in the one that the scenario says. TRACE is a file that takes the trace of the last."""
import atexit, os, sys

sys.path.insert(0, os.path.dirname(os.path.dirname(os.path.abspath(__file__))))
from harness import definition  # noqa: E402
from harness.bounds import Bounds  # noqa: E402
from harness.deciding import Decider  # noqa: E402
from harness.disk import disk_of  # noqa: E402
from harness.judging import LooksUp  # noqa: E402
from harness.processes import Processes  # noqa: E402
from harness.records import Records  # noqa: E402
from harness.room import Room  # noqa: E402
from harness.run import Runner  # noqa: E402
from harness.work import Work  # noqa: E402


def tries_of(path, asks=False):
    """A function from a scenario to its outcome. What it lays out goes with this program."""
    processes, work = Processes(), Work(None, needs_disk=False, begins=[])
    atexit.register(work.end)
    atexit.register(processes.end)
    room = Room(disk_of(str(work.folder)), 1 << 30, Bounds(60, 1 << 30), Records())
    harness = definition.read(path)
    harness.order = "next" if any("order::next" in word for word in sys.argv) else harness.order
    runner = Runner(harness, work, processes, room)
    runner.prepare()
    decider = Decider(runner, asks, 0, every_run=True)
    return lambda text: decider.run_again(text, LooksUp.NONE)


if __name__ == "__main__":
    path, *scenarios = [word for word in sys.argv[1:] if word != "keep"]
    run = tries_of(path, asks="keep" in sys.argv)
    for scenario in scenarios:
        outcome = run(scenario)
        print(outcome.answer())
    if "TRACE" in os.environ:
        with open(os.environ["TRACE"], "w") as trace:
            trace.writelines("\t".join(hit) + "\n" for hit in outcome.trace)
