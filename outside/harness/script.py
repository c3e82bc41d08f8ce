"""Makes runs by a script of the user, TRY, which gets a scenario and prints the answer's line."""

import itertools
import os
import queue
import shutil
import signal
import subprocess
import threading
import time
from collections.abc import Iterable, Iterator

from .answers import MOST, Stopped, changed
from .paklour import Paklour, failing_plans
from .processes import WITHIN, Ended, Processes
from .shown import show

# Makes one run on any machine, in sh, with the arguments SECONDS TRY HITS WITHIN MOST SCENARIO. It prints the seconds that the run took, the number of
# bytes that TRY printed, the scenario, and on the next line these bytes.
REMOTE = """
    seconds=$1 try=$2 hits=$3 within=$4 most=$5 scenario=$6; file=$(mktemp) || exit; begun=$(date +%s);
    unset HITS; [ "$hits" = untold ] || export HITS=yes;
    if [ -x "$within" ]; then "$within" "$seconds" "$most" "$try" "$scenario" 3>&1 > "$file" &
    else timeout -k 5 "$seconds" "$try" "$scenario" > "$file" & fi; run=$!;
    trap "kill $run; rm -f $file; exit 1" HUP INT TERM; wait "$run"; trap "" HUP INT TERM; took=$(($(date +%s) - begun));
    printf "%s %s %s\\n" "$took" "$(head -c "$most" "$file" | wc -c)" "$scenario"; head -c "$most" "$file"; rm -f "$file"
"""


class Tries:
    """The common part of the ways to run TRY. `hits` says whether TRY gets HITS=yes: `untold` if not, `asked`, or `told` if it must print them."""

    def __init__(self, name: str, seconds: int, jobs: int, hits: str):
        self.name = name
        self.seconds = seconds
        self.jobs = jobs
        self.hits = hits
        self.runs = 0

    def answers_of(self, scenario: str, took: float, output: bytes) -> list[str]:
        """The lines that TRY printed, or an `unresolved` answer if it was ended before it printed any."""
        self.runs += 1
        if not output and took >= self.seconds:
            show(f"loop: the run was ended after {self.seconds} seconds (--seconds): {scenario}")
            return [f"unresolved\t{scenario}" + ("\t-" if self.hits == "told" else "")]
        if len(output) > MOST:
            raise Stopped(f"{self.name} printed more than {MOST} bytes for the scenario {scenario}")
        if output and not output.endswith(b"\n"):
            raise Stopped(f"{self.name} printed no line feed at the end of its answer to the scenario {scenario}")
        return output.decode("utf-8", "surrogateescape").split("\n")[:-1]


class Here(Tries):
    """Runs TRY on this machine, several at once."""

    takes_more = True

    def __init__(self, *words, processes: Processes):
        super().__init__(*words)
        self.processes = processes
        self.environment = {name: value for name, value in os.environ.items() if name != "HITS"}
        if self.hits != "untold":
            self.environment["HITS"] = "yes"

    def command(self, scenario: str) -> list[str]:
        if os.access(WITHIN, os.X_OK):
            return [str(WITHIN), str(self.seconds), str(MOST + 1), self.name, scenario]
        return ["timeout", "-k", "5", str(self.seconds), self.name, scenario]

    def run(self, scenario: str) -> tuple[float, bytes]:
        begun = time.monotonic()
        process = self.processes.start(self.command(scenario), stdin=subprocess.DEVNULL, stdout=subprocess.PIPE, env=self.environment)
        with process:
            output = process.stdout.read()
        self.processes.ended(process)
        return time.monotonic() - begun, output

    def work(self, scenarios: queue.SimpleQueue, done: queue.SimpleQueue) -> None:
        while (scenario := scenarios.get()) is not None:
            try:
                done.put((scenario, *self.run(scenario)))
            except Ended:
                return
        done.put(None)

    def hand_out(self, batches: Iterable[list[str]], scenarios: queue.SimpleQueue) -> None:
        for batch in batches:
            for scenario in batch:
                scenarios.put(scenario)
        for _ in range(self.jobs):
            scenarios.put(None)

    def try_all(self, asked: list[str], more: Iterable[list[str]] = ()) -> Iterator[list[str]]:
        scenarios: queue.SimpleQueue = queue.SimpleQueue()
        done: queue.SimpleQueue = queue.SimpleQueue()
        threading.Thread(target=self.hand_out, args=(itertools.chain([asked], more), scenarios), daemon=True).start()
        for _ in range(self.jobs):
            threading.Thread(target=self.work, args=(scenarios, done), daemon=True).start()
        for _ in range(self.jobs):
            while (tried := done.get()) is not None:
                yield self.answers_of(*tried)

    def end(self) -> None:
        self.processes.end()


class Parallel(Tries):
    """Lets GNU parallel run TRY, also on other machines."""

    takes_more = False  # GNU parallel begins nothing before it has read as many scenarios as it runs at once

    def __init__(self, *words, options: list[str]):
        super().__init__(*words)
        if not shutil.which("parallel"):
            raise Stopped("GNU parallel is not installed")
        self.options = options
        self.process: subprocess.Popen | None = None

    def try_all(self, asked: list[str], more: Iterable[list[str]] = ()) -> Iterator[list[str]]:
        words = ["sh", "-c", REMOTE.replace("\n", " "), "one", str(self.seconds), self.name, self.hits, str(WITHIN), str(MOST + 1), "{}"]
        self.process = subprocess.Popen(["parallel", "--will-cite", "-q", "-j", str(self.jobs), *self.options, *words],
            stdin=subprocess.PIPE, stdout=subprocess.PIPE, start_new_session=True)
        threading.Thread(target=self.feed, args=(asked,), daemon=True).start()
        for head in self.process.stdout:
            took, size, scenario = head.decode("utf-8", "surrogateescape").rstrip("\n").split(" ", 2)
            yield self.answers_of(scenario, float(took), self.process.stdout.read(int(size)))
        self.process.wait()

    def feed(self, asked: list[str]) -> None:
        with self.process.stdin:
            self.process.stdin.write("".join(scenario + "\n" for scenario in asked).encode("utf-8", "surrogateescape"))

    def end(self) -> None:
        if self.process and self.process.poll() is None:
            os.killpg(self.process.pid, signal.SIGTERM)


def recheck(paklour: Paklour, tries: Tries, report: bytes, shows_progress: bool) -> bool:
    """Runs failing plans once more. Whether each came out the same again."""
    failing = failing_plans(report, paklour.report("--brief", tells=False)[1])
    if not failing:
        raise Stopped("paklour report ended with 1, but its report has no plan that fails")
    if shows_progress:
        show(f"loop: {len(failing)} failing plans are run once more")
    first = {fields[1]: fields[2:3] for fields in (line.split("\t") for line in paklour.answers.lines()) if len(fields) > 1}
    told = itertools.chain.from_iterable(tries.try_all([scenario for _, scenario in failing]))
    again = {fields[1]: fields for fields in (line.split("\t") for line in told) if len(fields) > 1}
    is_same = True
    for verdict, scenario in failing:
        then = again.get(scenario, ["no answer"])
        if then[0] != verdict:
            show(f"loop: {changed('verdict', verdict, then[0], scenario)}")
        elif scenario in first and first[scenario] != then[2:3]:
            show(f"loop: {changed('hits', ''.join(first[scenario]), ''.join(then[2:3]), scenario)}")
        else:
            continue
        is_same = False
    return is_same
