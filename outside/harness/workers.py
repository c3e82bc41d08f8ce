"""Threads that decide scenarios side by side. Scenarios that can be derived from one run go to one thread."""

import itertools
import queue
import threading
from collections.abc import Callable, Iterable, Iterator

from .deciding import Decider
from .judging import LooksUp
from .outcome import Outcome
from .processes import Ended

Unit = list[str]
Task = tuple[Unit, Callable[[str], Outcome], queue.SimpleQueue]


class Workers:
    """The threads. They last as long as this program, since what a thread starts by `within` ends with the thread."""

    def __init__(self, decider: Decider, jobs: int):
        self.decider = decider
        self.jobs = jobs
        self.todo: queue.SimpleQueue[Task] = queue.SimpleQueue()
        self.awaited: queue.SimpleQueue | None = None  # the queue of the outcomes that somebody waits for
        for _ in range(jobs):
            threading.Thread(target=self.work, daemon=True).start()

    def units(self, asked: list[str]) -> list[Unit]:
        """Divides scenarios into units of work: one for each run to be made, and one for all that can be derived from the same run. Long units come
        first, and none is too long."""
        alone, following = [], {}
        for text in asked:
            base = self.decider.base_of(text)
            if base:
                following.setdefault(base[0], []).append(text)
            else:
                alone.append([text])
        most = -(-len(asked) // self.jobs)
        units = [unit[at:at + most] for unit in following.values() for at in range(0, len(unit), most)]
        return sorted(units, key=len, reverse=True) + alone

    def work(self) -> None:
        while True:
            unit, decide, done = self.todo.get()
            for text in unit:
                if done is not self.awaited:
                    break
                try:
                    done.put(decide(text))
                except Ended:
                    return
                except Exception as error:  # noqa: BLE001 - whoever waits for the outcome has to see it
                    done.put(error)
                    return

    def hand_out(self, batches: Iterable[list[Unit]], decide: Callable[[str], Outcome], done: queue.SimpleQueue) -> None:
        """Hands out units as they come, and says at last how many scenarios there were."""
        count = 0
        for units in batches:
            for unit in units:
                count += len(unit)
                self.todo.put((unit, decide, done))
        done.put(count)

    def side_by_side(self, batches: Iterable[list[Unit]], decide: Callable[[str], Outcome]) -> Iterator[Outcome]:
        """The outcomes, in the order in which they come. Earlier units that nobody waits for any more are dropped."""
        done: queue.SimpleQueue = queue.SimpleQueue()
        self.awaited = done
        threading.Thread(target=self.hand_out, args=(batches, decide, done), daemon=True).start()
        count, wanted = 0, None
        while count != wanted:
            came = done.get()
            if isinstance(came, Exception):
                raise came
            if isinstance(came, Outcome):
                count += 1
                yield came
            else:
                wanted = came

    def decided(self, asked: list[str], more: Iterable[list[str]] = ()) -> Iterator[Outcome]:
        return self.side_by_side(map(self.units, itertools.chain([asked], more)), self.decider.decide)

    def run_again(self, scenarios: list[str]) -> Iterator[Outcome]:
        """Makes a run for each scenario. Failures, and the run without faults, are judged again."""
        def run(text: str) -> Outcome:
            return self.decider.run_again(text, LooksUp.NONE if text == "none" else LooksUp.PASSES)

        return self.side_by_side([[[text] for text in scenarios]], run)
