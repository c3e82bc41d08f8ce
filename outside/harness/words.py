"""The arguments of a command line."""

import itertools
import os
import shutil
from pathlib import Path

from .shown import ERRORS, show, write_out

ASK_HELP = ("-h", "--help")


class Usage(Exception):
    """Arguments that mean nothing. The text says which, or is empty if there are too few or too many."""


def usage_of(command: str) -> str:
    """The usage of a command, which is the head of its file."""
    lines = Path(command).read_text("utf-8").split("\n")[1:]
    head = lines[:next(at for at, line in enumerate(lines) if not line.startswith("#"))]
    return "\n".join(line.removeprefix("#").removeprefix(" ") for line in head)


def refused(command: str, usage: Usage) -> int:
    """Tells what is wrong with the arguments, in a line, or how the command is used. The exit status."""
    if str(usage):
        show(f"{os.path.basename(command).removeprefix('paklour-')}: {usage} ({as_called(command)} --help lists the options)")
    else:
        show(usage_of(command).partition("\n\n")[2].partition("\n\n")[0])
    return 2


def write_help(command: str) -> int:
    """Prints the usage of a command, for `--help`."""
    write_out(f"{usage_of(command)}\n".encode())
    return 0


def as_called(command: str) -> str:
    """How a user calls a command: by its name alone if the PATH leads to it, as to an installed one."""
    name = os.path.basename(command)
    found = shutil.which(name)
    return name if found and os.path.realpath(found) == os.path.realpath(command) else command


def whole_number(text: str, name: str, what: str = "whole number from 1 on") -> int:
    """Reads the number that an option of this name has."""
    if not (text.isascii() and text.isdigit()) or text.startswith("0"):
        raise Usage(f"{name} {text}: this is no {what}")
    return int(text)


def bytes_of(text: str, name: str) -> int:
    """Reads a number of bytes such as 500M or 2G."""
    shift = {"K": 10, "M": 20, "G": 30}.get(text[-1:], 0)
    return whole_number(text[:-1] if shift else text, name, "number of bytes such as 500M") << shift


def split(words: list[str], with_value: set[str], flags: set[str], repeated: frozenset[str] = frozenset(),
        listing: dict[str, tuple[str, ...]] | None = None) -> tuple[dict[str, str], list[str]]:
    """The options and the other arguments. Behind `--` there are no options. `-j4` means `-j 4`. An option that may be repeated has its values as lines,
    and so has one that may have any number of these words behind it."""
    options: dict[str, str] = {}
    others: list[str] = []
    rest = list(words)
    while rest:
        word = rest.pop(0)
        if word == "--":
            return options, [*others, word, *rest]
        if not word.startswith("-"):
            others.append(word)
        elif word.startswith("-j") and word != "-j":
            options["-j"] = word[2:]
        elif word in with_value:
            if not rest:
                raise Usage(f"{word}: its value is missing")
            before = f"{options[word]}\n" if word in repeated & options.keys() else ""
            options[word] = before + rest.pop(0)
        elif word in flags:
            options[word] = "yes"
        elif listing and word in listing:
            behind = itertools.takewhile(lambda value, values=listing[word]: value in values, rest)
            options[word] = "\n".join(values := list(behind))
            del rest[:len(values)]
        else:
            raise Usage(f"{word}: there is no such option")
    return options, others


def shows_progress(options: dict[str, str]) -> bool:
    return "--progress" in options or os.isatty(ERRORS)
