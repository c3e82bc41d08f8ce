"""step.py HARNESS [NAME | --serve | --seed N]: reads a harness that is a file of Python. Without NAME it prints as JSON what the harness defines, with the
operations that it draws from this seed, if `operations` is a function. With NAME it calls that function in the current folder. With --serve it calls a
function in a process of its own for each line of standard input.

`judge` gets the promises, a list of lines. If it returns a text, this program prints the text and ends with 1: a promise is broken, and the text
is the code."""

import ctypes
import itertools
import json
import os
import runpy
import select
import signal
import sys
import traceback

STEPS = ("prepare", "run", "session", "again", "judge", "look")
RAISED, LATE = 2, "late"
MOST_DRAWN = 65  # one more than a workload may have, so that a generator without an end is refused
C_LIBRARY, CLONE_NEWIPC = ctypes.CDLL(None), 0x08000000  # Python itself has `unshare` since 3.12


def defined(path: str) -> dict:
    """The names that a harness defines. It may import modules from its own folder."""
    sys.path.insert(0, os.path.dirname(path))
    return {name: value for name, value in runpy.run_path(path).items() if not name.startswith("_")}


def described(names: dict, path: str, seed: int) -> dict:
    """What the loop uses of these names: functions as null, values as they are, the operations that are drawn from the seed, and the modules in the
    harness's folder or below."""
    functions = {name: None for name in STEPS if callable(names.get(name))}
    values = {name: value for name, value in names.items() if isinstance(value, (str, bool, int, list, tuple, dict))}
    drawn = {"drawn": list(itertools.islice(names["operations"](seed), MOST_DRAWN))} if callable(names.get("operations")) else {}
    files = [getattr(module, "__file__", None) or "" for module in sys.modules.values()]
    beside = os.path.join(os.path.dirname(path), "")
    return functions | values | drawn | {"modules": sorted(file for file in files if file.startswith(beside) and file != __file__)}


def perform(names: dict, name: str) -> int:
    if name != "judge":
        names[name]()
        return 0
    with open(os.environ["SAID"], encoding="utf-8", errors="surrogateescape") as said:
        code = names[name](said.read().splitlines())
    if code:
        print(code)
    return 1 if code else 0


def performed(names: dict, name: str) -> int:
    """Calls a function. If it raises an exception, its status is RAISED, since 1 means that a promise is broken."""
    try:
        status = perform(names, name)
    except BaseException:  # noqa: BLE001
        traceback.print_exc()
        status = RAISED
    sys.stdout.flush()
    return status


def perform_as_asked(names: dict, asked: dict) -> None:
    """Calls a function in this new process, with the folder, environment and files of the request."""
    os.setsid()
    C_LIBRARY.unshare(CLONE_NEWIPC)  # only root may: a call of a function has shared memory of its own, as a program by `within` has
    os.chdir(asked["folder"])
    os.environ.clear()
    os.environ.update(asked["environment"])
    for number, path in ((0, os.devnull), (1, asked["output"]), (2, asked["errors"])):
        file = os.open(path, os.O_RDWR if number == 0 else os.O_WRONLY | os.O_CREAT | os.O_APPEND, 0o666)
        os.dup2(file, number)
    os._exit(performed(names, asked["step"]))


def wait_for(child: int, seconds: int) -> int | str:
    """The status of a child, as a shell has it. If the child takes too long, it is ended with its group."""
    handle = os.pidfd_open(child)
    ended = select.poll()
    ended.register(handle, select.POLLIN)
    is_late = not ended.poll(1000 * seconds)
    if is_late:
        os.killpg(child, signal.SIGKILL)
    code = os.waitstatus_to_exitcode(os.waitpid(child, 0)[1])
    os.close(handle)
    return LATE if is_late else code if code >= 0 else 128 - code


def serve(names: dict) -> None:
    answers = os.fdopen(os.dup(1), "w", buffering=1)
    for line in sys.stdin:
        asked = json.loads(line)
        child = os.fork()
        if child == 0:
            perform_as_asked(names, asked)
        answers.write(f"{wait_for(child, asked['seconds'])}\n")


def main(path: str, name: str = "--seed", seed: str = "1") -> int:
    names = defined(path)
    if name == "--seed":
        print(json.dumps(described(names, path, int(seed))))
    elif name == "--serve":
        serve(names)
    else:
        sys.stdout.reconfigure(line_buffering=True)
        return performed(names, name)
    return 0


if __name__ == "__main__":
    sys.exit(main(*sys.argv[1:]))
