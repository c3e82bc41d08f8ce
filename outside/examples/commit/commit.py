"""commit.py TRANSACTIONS: two-phase commit with presumed abort, by a coordinator and two participants. Each is a process with a log in the current folder. It
prints `done N` or `aborted N` for each transaction when its client gets that result.

Messages are points of its own (`commit::send_..`), and a message that fails is lost. The receiver then gets an empty line, and doesn't wait.
Logs are files, so their writes and syncs are points of the supervisor. FLAW names one of these:
  sound            the default: there is no flaw
  lazy_prepare     a prepare record is written, but not synced before the vote
  early_end        the coordinator forgets a transaction even if not all participants have acknowledged it
  abort_on_doubt   a coordinator whose commit record failed sends an abort to the participants, though the record may be on the disk
With TOGETHER messages aren't points, the participants are asked at once, and have one log, which each of them opens for each of its records:
  looks_for_end    a participant looks for the log's end and writes there, without O_APPEND"""
import os
import socket
import sys

from paklour_points import hit

FLAW = os.environ.get("FLAW", "sound")
TOGETHER = bool(os.environ.get("TOGETHER"))
NAMES = ("a", "b")
GONE = 3  # another process is gone, or the outcome is in doubt: recovery decides


def log_name(folder, name):
    return os.path.join(folder, f"{name}.log")


class Log:
    def __init__(self, folder, name):
        try:
            self.file = os.open(log_name(folder, name), os.O_WRONLY | os.O_APPEND)
        except OSError:
            sys.exit(GONE)
        self.is_whole = True

    def append(self, record, is_forced):
        """Whether the record is there, and lasts if it is forced. After a failure no record follows, since half of one may stand."""
        line = record.encode() + b"\n"
        try:
            self.is_whole = self.is_whole and os.write(self.file, line) == len(line)
            if self.is_whole and is_forced:
                os.fsync(self.file)
        except OSError:
            self.is_whole = False
        return self.is_whole


class SharedLog:
    """The log of both participants. A record has a line feed before it and a mark behind it, since the other's may stand there by half."""

    def __init__(self, folder, name):
        self.path, self.name = log_name(folder, "participants"), name
        self.is_whole = True

    def append(self, record, is_forced):
        line = f"\n{self.name} {record};".encode()
        try:
            file = os.open(self.path, os.O_WRONLY | (0 if FLAW == "looks_for_end" else os.O_APPEND))
            end = os.lseek(file, 0, os.SEEK_END)
            self.is_whole = self.is_whole and (os.pwrite(file, line, end) if FLAW == "looks_for_end" else os.write(file, line)) == len(line)
            if self.is_whole and is_forced:
                os.fsync(file)
            os.close(file)
        except OSError:
            self.is_whole = False
        return self.is_whole


class Peer:
    """The other end of a socket."""

    def __init__(self, end):
        self.end, self.lines = end, end.makefile("r")

    def send(self, point, text):
        message = "" if not TOGETHER and hit(point) is not None else text
        try:
            self.end.sendall(f"{message}\n".encode())
        except OSError:
            sys.exit(GONE)
        return message != ""

    def hear(self):
        """A message without its line feed, empty where it was lost."""
        line = self.lines.readline()
        if not line.endswith("\n"):
            sys.exit(GONE)
        return line[:-1]


def participant(folder, name, coordinator):
    log = (SharedLog if TOGETHER else Log)(folder, name)
    coordinator.end.sendall(b"ready\n")
    while True:
        what, _, number = coordinator.hear().partition(" ")
        if what == "prepare":
            is_prepared = log.append(f"prepare {number}", FLAW != "lazy_prepare")
            coordinator.send("commit::send_vote", "yes" if is_prepared else "no")
        if what == "commit":
            # Without its record it can't acknowledge, and asks again when it starts anew.
            if not log.append(f"commit {number}", True):
                sys.exit(GONE)
            coordinator.send("commit::send_ack", "ack")
        if what == "abort":
            log.append(f"abort {number}", False)


def tell(text):
    os.write(1, f"{text}\n".encode())


def asked(participants, point, text, answer):
    """Those that give that answer: asked in turn, or all at once."""
    if TOGETHER:
        sent = [each for each in participants if each.send(point, text)]
        return [each for each in sent if each.hear() == answer]
    return [each for each in participants if each.send(point, text) and each.hear() == answer]


def transact(log, participants, number):
    voted = asked(participants, "commit::send_prepare", f"prepare {number}", "yes")
    decides = len(voted) == len(participants)
    is_kept = decides and log.append(f"commit {number}", True)
    if decides and not is_kept and FLAW != "abort_on_doubt":
        sys.exit(GONE)  # whether the record lasts isn't known
    if not is_kept:
        tell(f"aborted {number}")
        for each in voted:
            each.send("commit::send_outcome", f"abort {number}")
        return
    tell(f"done {number}")
    heard = asked(participants, "commit::send_outcome", f"commit {number}", "ack")
    if len(heard) == len(participants) or FLAW == "early_end":
        log.append(f"end {number}", FLAW == "early_end")


def started(folder, name, before):
    """A participant that is ready, so that each run has its hits in one order."""
    mine, theirs = socket.socketpair()
    if os.fork() == 0:
        for each in before:
            each.lines.close()
            each.end.close()
        mine.close()
        participant(folder, name, Peer(theirs))
    theirs.close()
    peer = Peer(mine)
    peer.hear()
    return peer


def run(folder, transactions):
    participants = []
    for name in NAMES:
        participants.append(started(folder, name, participants))
    try:
        log = Log(folder, "coordinator")
        for number in range(1, transactions + 1):
            transact(log, participants, number)
    finally:
        for each in participants:
            each.end.shutdown(socket.SHUT_RDWR)
        for each in participants:
            os.wait()


def records(folder, name):
    """The whole records of a log."""
    if TOGETHER and name in NAMES:
        with open(log_name(folder, "participants"), encoding="utf-8", errors="replace") as log:
            whole = [line.strip() for line in log]
        return set(line[2:-1] for line in whole if line.startswith(name) and line.endswith(";"))
    with open(log_name(folder, name), encoding="utf-8", errors="replace") as log:
        return set(line[:-1] for line in log if line.endswith("\n"))


def commits(folder, name, number):
    """What a participant comes to when it starts anew: prepared and told nothing, it asks the coordinator, who knows no aborts."""
    own, coordinators = records(folder, name), records(folder, "coordinator")
    if f"commit {number}" in own:
        return True
    if f"abort {number}" in own or f"prepare {number}" not in own:
        return False
    return f"commit {number}" in coordinators and f"end {number}" not in coordinators


def judged(folder, told, transactions):
    """What recovery makes of the logs, None where it is right."""
    for number in range(1, transactions + 1):
        ends = {commits(folder, name, number) for name in NAMES}
        if len(ends) > 1:
            return "split"
        if f"done {number}" in told and ends == {False}:
            return "lost"
        if f"aborted {number}" in told and ends == {True}:
            return "phantom"
    return None


if __name__ == "__main__":
    run(".", int(sys.argv[1]))
