"""In place of the toolchain's module for crates: one crate, `toy`, which stands on `low` where that is there."""
import os

RATTLE = os.path.join(os.path.dirname(os.path.dirname(os.path.abspath(__file__))), "rattle")


class Crate:
    def __init__(self, name):
        self.name = name

    def below(self):
        return crates_below(".")[:-1] if self.name == "toy" else []

    def words(self, flags, keeps):
        return flags


def crates_below(_):
    return [Crate(name) for name in ("low", "toy") if os.path.isdir(f"crates/{name}")]
