#!/usr/bin/env python3
"""Runs a built program with allocation 1, 2, .. refused until a run meets no refusal.

    tools/refuse.py PROGRAM FILE..

Each FILE is a standard input; FILE.args, if it exists, has the program's words, one a line. Each run has to give the same bytes and
status as an undisturbed one, or no output, `no memory` and status 3.
"""
import os
import subprocess
import sys
import tempfile


def built_shim(folder):
    here = os.path.dirname(os.path.abspath(__file__))
    shim = os.path.join(folder, "refuse.so")
    subprocess.run([os.environ.get("CC", "cc"), "-O1", "-shared", "-fPIC", "-o", shim, os.path.join(here, "refuse.c"), "-ldl"], check=True)
    return shim


def words_of(name):
    try:
        with open(name + ".args", encoding="utf-8") as text:
            return text.read().splitlines()
    except FileNotFoundError:
        return []


def refuse_all(program, name, shim, log):
    words = words_of(name)

    def run(at):
        env = {"LD_PRELOAD": shim, "REFUSE_AT": str(at), "REFUSE_LOG": log}
        with open(name, "rb") as text:
            done = subprocess.run([program] + words, stdin=text, capture_output=True, env=env, timeout=60)
        with open(log, "rb") as count:
            return (done.returncode, done.stdout, done.stderr), int.from_bytes(count.read(), sys.byteorder)

    plain, _ = run(0)
    same = memory = 0
    while True:
        at = same + memory + 1
        result, asked = run(at)
        if asked < at:
            break
        if result == plain:
            same += 1
        elif result == (3, b"", b"no memory\n"):
            memory += 1
        else:
            sys.exit(f"{name}: allocation {at} refused: status {result[0]}, {result[1]!r}, {result[2]!r}")
    print(f"{os.path.basename(program)} on {name}: status {plain[0]}, {at - 1} allocations refused in turn, {memory} ended for want of memory, {same} as without")


def main():
    program, names = sys.argv[1], sys.argv[2:]
    with tempfile.TemporaryDirectory() as folder:
        shim = built_shim(folder)
        for name in names:
            refuse_all(program, name, shim, os.path.join(folder, "log"))


main()
