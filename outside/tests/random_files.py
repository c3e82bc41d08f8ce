#!/usr/bin/env python3
"""random_files.py FOLDER OUT SUPERVISOR PROGRAM FROM TO [killed]: random files under the supervisor, with each seed; then what a power
cut leaves.

Where all was synced, what lasts is the tree as the program left it; whatever was synced, all kept is that tree, and so is `live`. Of a tree the names, kinds, modes, contents, links and targets are compared. With `killed` the supervisor is
killed at some moment: then all of the run ends, `live` is the tree, each line of the trace is whole once it was cut, and where all kept isn't, that is told.
Prints a line for each difference, or how many trees were equal, or kills were.
"""
import hashlib
import os
import shutil
import subprocess
import sys
import time


def tree(root):
    """Each name with what it is; names of one file have one number, but for links, of which a cut makes each by itself."""
    numbers, lines = {}, []
    for folder, folders, files in os.walk(root):
        for name in folders + files:
            path = os.path.join(folder, name)
            told = os.lstat(path)
            if os.path.islink(path):
                what = os.readlink(path)
            elif os.path.isdir(path):
                what = "folder"
            else:
                with open(path, "rb") as file:
                    what = hashlib.sha256(file.read()).hexdigest()[:16]
            lines.append((os.path.relpath(path, root), told.st_mode, 0 if os.path.islink(path) else told.st_ino, what))
    lines.sort()
    return [(name, mode, numbers.setdefault(number, len(numbers)), what) for name, mode, number, what in lines]


def differences(before, after):
    return [line for line in before if line not in after] + [line for line in after if line not in before]


def made(folder, powercut):
    """New files, and a run over them."""
    data, run = os.path.join(folder, "data"), os.path.join(folder, "run")
    for path in (data, run):
        shutil.rmtree(path, ignore_errors=True)
    if os.path.lexists(os.path.join(folder, "outside")):
        os.unlink(os.path.join(folder, "outside"))
    os.makedirs(data)
    with open(os.path.join(data, "a"), "wb") as file:
        file.write(b"0123456789" * 900)
    subprocess.run([powercut, "begin", run, data], check=True)
    return data, run


def killed(folder, out, supervisor, program, seed):
    """What is wrong where the supervisor is killed while the program goes on, and that it was killed once."""
    powercut = os.path.join(out, "powercut")
    data, run = made(folder, powercut)
    settings = dict(os.environ, FAULTS_ROOT=data, FAULTS_RUN=run)
    with subprocess.Popen([supervisor, program, str(seed), "20000", str(1 + seed % 6)], cwd=data, env=settings, stdout=subprocess.PIPE,
                          stderr=subprocess.STDOUT) as running:
        time.sleep(seed % 37 / 500)
        running.kill()
        running.stdout.read()  # each process of the run has it, so its end is that of all
    as_left, found = tree(data), []
    for state in (["keep", "power::keep=return"], ["live"]):
        cut = subprocess.run([powercut, "cut", run, data, *state], stderr=subprocess.PIPE, text=True, check=False)
        if "nothing ran under the supervisor" in cut.stderr:
            return found, 1  # it was killed before its program began
        told = "changed, and" in cut.stderr  # where that is all that is known of a store into a mapping, the cut is refused
        if cut.returncode != 0 and not (told and cut.returncode == 2) or (not told and differences(as_left, tree(data))):
            found.append(f"seed {seed}: {state[0]}: {cut.returncode} {cut.stderr} {differences(as_left, tree(data))}")
    with open(os.path.join(run, "trace"), encoding="utf-8") as trace:
        found += [f"seed {seed}: {line}" for line in trace if line.count("\t") != 7 or not line.endswith("\n")]
    return found, 1


def tried(folder, out, supervisor, program, seed):
    """What differs of one seed, and how many trees were equal."""
    powercut = os.path.join(out, "powercut")
    data, run = made(folder, powercut)
    ending = ("none", "sync", "each")[seed % 3]
    settings = dict(os.environ, FAULTS_ROOT=data, FAULTS_RUN=run, FAULTS_BLOCK=("4096", "512")[seed // 3 % 2],
                    FAULTS_SYNC="ext4" if ending == "sync" else "linux")  # on ext4 a sync of everything keeps everything
    ended = subprocess.run([supervisor, program, str(seed), str(40 + seed % 5 * 40), str(1 + seed % 6), ending], cwd=data, env=settings,
                           stderr=subprocess.PIPE, text=True, timeout=60, check=False)
    if ended.returncode:
        return [f"seed {seed}: ended with {ended.returncode}: {ended.stderr}"], 0
    as_left, found, equal = tree(data), [], 0
    states = [["keep", "power::keep=return"], ["live"]] + ([["lasting"]] if ending != "none" else [])
    for state in states:
        cut = subprocess.run([powercut, "cut", run, data, *state], stderr=subprocess.PIPE, text=True, check=True)
        for difference in differences(as_left, tree(data)):
            found.append(f"seed {seed}: {' '.join(state)}: {difference}")
        if "changed, and" in cut.stderr:
            found.append(f"seed {seed}: {cut.stderr.strip()}")
        equal += 1
    return found, equal


def main():
    folder, out, supervisor, program = sys.argv[1:5]
    count, found = 0, []
    kills = sys.argv[7:] == ["killed"]
    for seed in range(int(sys.argv[5]), int(sys.argv[6])):
        differing, done = (killed if kills else tried)(folder, out, supervisor, program, seed)
        count += done
        found += differing
    print("\n".join(found) if found else f"{count} {'kills, nothing torn or silent' if kills else 'trees equal'}")


main()
