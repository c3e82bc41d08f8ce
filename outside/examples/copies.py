"""copies.py FOLDER NAME..: prints how many whole copies of FOLDER's message0, message1 and message2 the NAMEs hold. A NAME is an mbox, or
a folder with a file for each message. If something there is no whole message, it says where, and ends with 1."""
import os
import re
import sys

ADDED = (b"Return-Path:", b"Delivered-To:", b"Received:", b"Status:", b"X-")


def pieces(name):
    if os.path.isdir(name):
        for each in sorted(os.listdir(name)):
            with open(os.path.join(name, each), "rb") as file:
                yield file.read()
    elif os.path.exists(name):
        with open(name, "rb") as file:
            before, *messages = re.split(rb"(?:\A|(?<=\n))From [^\n]* 2026\n", file.read())
        yield from filter(None, [before.strip()])
        yield from messages


def without_added(piece):
    """A message as it was sent: without the lines that a mail system puts into its head."""
    head, blank, body = piece.partition(b"\n\n")
    return b"\n".join(line for line in head.split(b"\n") if not line.startswith(ADDED)) + blank + body.rstrip(b"\n")


def main():
    folder, names = sys.argv[1], sys.argv[2:]
    whole, counts = [], [0, 0, 0]
    for number in range(3):
        with open(os.path.join(folder, f"message{number}"), "rb") as file:
            whole.append(file.read().rstrip(b"\n"))
    for name in names:
        for piece in pieces(name):
            found = without_added(piece)
            if found not in whole:
                sys.exit(f"{name}: {len(piece)} bytes are no whole message")
            counts[whole.index(found)] += 1
    print(*counts)


main()
