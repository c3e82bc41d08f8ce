"""Points of a program's own: at a point the step fails if Paklour's scenario says so.

    from paklour_points import hit

    if hit("store::flush") is not None:
        raise OSError(errno.EIO, "store::flush")

Outside Paklour each step goes on: then a hit reads a link that no system has.
"""
import errno
import os

__all__ = ["begin", "end", "hit", "say"]


def hit(point):
    """Returns None if the step goes on. If it fails, it returns the text of the scenario's `return`, '' if that has none."""
    try:
        return os.readlink(f"/.paklour/{point}")
    except OSError as error:
        return "" if error.errno == errno.EIO else None


def begin():
    """From here on faults act, up to `end`. What was done before lasts."""
    hit("=begin")


def end():
    hit("=end")


def say(text):
    """A promise, as a printed line is."""
    hit(f"=say/{text}")
