"""rrdcached with a journal, over its socket."""

import os
import socket
import subprocess
import time
from collections.abc import Iterator
from contextlib import contextmanager


@contextmanager
def daemon() -> Iterator[socket.socket]:
    """Starts it, and ends it in good order at the end."""
    door = os.environ["TMPDIR"] + "/door"
    server = subprocess.Popen(["rrdcached", "-g", "-l", f"unix:{door}", "-b", os.getcwd(), "-j", f"{os.getcwd()}/journal", "-p", f"{door}.pid"])
    client = socket.socket(socket.AF_UNIX)
    while client.connect_ex(door) and server.poll() is None:
        time.sleep(0.02)
    try:
        yield client
    finally:
        server.terminate()
        server.wait()


def answer(client: socket.socket, line: str) -> str:
    client.send(f"{line}\n".encode())
    return client.recv(1000).decode()
