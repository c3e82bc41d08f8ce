"""The states of the profiles after small workloads."""

import unittest

from disks.comparison import Seen, model_at, told_state
from disks.profile import profiles
from disks.steps import steps_of

from .rows import NAMED, ROWS

PROFILES = profiles()
MOST = 1000


def states(profile: str, text: str) -> set:
    steps = steps_of(text)
    return model_at(PROFILES[profile], steps, Seen(len(steps), True, "")).states(MOST)


class States(unittest.TestCase):
    def test_rows(self) -> None:
        for text, names, expected in ROWS:
            for profile in names.split():
                with self.subTest(text=text, profile=profile):
                    self.assertEqual(expected, {told_state(state) for state in states(profile, text)})

    def test_what_btrfs_took_along(self) -> None:
        """Trees that Btrfs left: a rename takes the length of a synced file along, and a sync that of another file, each without its bytes."""
        for text, tree in (("create m; write m 0 8196; fsync m; rewrite m 8192; rename m n", "n 644, 8192 bytes: 0-8191 step 2"),
                ("fsync b; rewrite b 8192; append b 60; append g/h 8192; rename c g/h; fsync g/h",
                 "b 644, 8252 bytes: 0-8191 step 2, 8192-8251 zeros; g/h 644, 300 bytes: 0-299 old c; no c")):
            for profile in ("btrfs", "linux", "posix"):
                self.assertIn(tree, {told_state(state) for state in states(profile, text)}, profile)

    def test_a_sync_of_everything_keeps_what_was_not_written_over(self) -> None:
        for sync in ("syncfs", "sync"):
            for profile in NAMED:
                text = f"create n; append log 5000; rename c n; truncate a 52; chmod b 600; {sync}"
                self.assertEqual(1, len(states(profile, text)), f"{sync} {profile}")
