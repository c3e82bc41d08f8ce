"""server.py FLAW serve: keeps the words that clients send in the file `data`. It answers OK to a word once that lasts.
server.py FLAW ask WORD..: sends words, and says `acknowledged WORD` of each that was answered so."""

import os
import socket
import sys

from flaw import FLAW, read_all, sync_file, sync_folder, write_all

DOOR = os.environ["TMPDIR"] + "/socket"


def compact() -> int:
    """Writes the words to a new file: `data` may end with a part of a line. `torn_kept` keeps that part."""
    old = os.open("data", os.O_RDONLY | os.O_CREAT, 0o644)
    words = read_all(old)
    os.close(old)
    new = os.open("new", os.O_WRONLY | os.O_CREAT | os.O_TRUNC, 0o644)
    write_all(new, words if FLAW == "torn_kept" else words[: words.rfind(b"\n") + 1])
    if FLAW == "rename_first":
        os.rename("new", "data")
        os.fsync(new)
    else:
        os.fsync(new)
        os.rename("new", "data")
    sync_folder()
    return new


def serve() -> None:
    data = compact()
    door = socket.socket(socket.AF_UNIX)
    door.bind(DOOR)
    door.listen()
    print("listening", flush=True)
    while True:
        client, _ = door.accept()
        try:
            write_all(data, client.recv(1000))
            sync_file(data)
        except OSError as error:
            sys.exit(str(error))
        client.send(b"OK")
        client.close()


def ask(words: list[str]) -> None:
    for word in words:
        client = socket.socket(socket.AF_UNIX)
        client.connect(DOOR)
        client.send(f"{word}\n".encode())
        if client.recv(2) == b"OK":
            print("acknowledged", word, flush=True)


serve() if sys.argv[2] == "serve" else ask(sys.argv[3:])
