"""The power cut of campaigns after small workloads: every state that it can lay out."""

import os
import tempfile
import unittest

from disks.comparison import Seen, model_at, told_state
from disks.cutting import Cut, TooMany, difference, small_workload, states_of_cut
from disks.profile import Profile, profiles
from disks.steps import filling, steps_of

from .rows import NAMED, ROWS

PROFILES = profiles()
MOST = 60
OLD_C = filling(-8, 0, 300)

os.umask(0o022)


class Cuts(unittest.TestCase):
    def test_rows(self) -> None:
        for text, names, expected in ROWS:
            for profile in names.split():
                with self.subTest(text=text, profile=profile):
                    self.assertEqual(expected, {told_state(state) for state in states_of_cut(steps_of(text), profile, 4 * MOST)})

    def test_sectors_that_are_torn(self) -> None:
        with tempfile.TemporaryDirectory() as folder:
            cut = Cut(folder)
            cut.run(steps_of("write c 0 300"), "linux", FAULTS_BLOCK="256")
            new = filling(0, 0, 300)
            self.assertEqual({OLD_C, new[:256] + OLD_C[256:], OLD_C[:256] + new[256:], new}, {dict(state[2])["c"][2] for _, state in cut.states(MOST)})

    def test_the_other_states_are_states_of_the_profile(self) -> None:
        text = "chmod c 600; create n; append log 5000; rename n m; truncate a 100; fsync m; write m 0 60"
        for profile in NAMED:
            with tempfile.TemporaryDirectory() as folder:
                cut = Cut(folder)
                cut.run(steps_of(text), profile)
                known = PROFILES[profile]
                for name in ("lasting", "live", "names", "contents"):
                    self.assertTrue(is_state(known, text, cut.lay(name)), f"{profile} {name}")

    def test_the_model(self) -> None:
        for seed in range(20):
            for profile in NAMED:
                with self.subTest(seed=seed, profile=profile):
                    try:
                        found = difference(small_workload(seed), PROFILES[profile], MOST)
                    except TooMany:
                        continue
                    self.assertFalse(found, found)


def is_state(profile: Profile, text: str, state: tuple) -> bool:
    steps = steps_of(text)
    return state in model_at(profile, steps, Seen(len(steps), True, "")).states(100000)
