#!/usr/bin/python3
"""client.py SOCKET put JOB..: puts jobs into the queue and prints `inserted JOB` for each that the server has acknowledged.
client.py SOCKET take: takes each job out of the queue and prints it."""

import socket
import sys
import time


def connected(path: str) -> socket.socket:
    for _ in range(500):
        server = socket.socket(socket.AF_UNIX)
        try:
            server.connect(path)
            return server
        except OSError:
            time.sleep(0.01)
    sys.exit("no server")


server = connected(sys.argv[1])
replies = server.makefile("rb")


def reply_to(request: bytes) -> bytes:
    server.sendall(request)
    return replies.readline()


if sys.argv[2] == "put":
    for job in sys.argv[3:]:
        if reply_to(b"put 0 0 60 %d\r\n%s\r\n" % (len(job), job.encode())).startswith(b"INSERTED"):
            print("inserted", job, flush=True)
else:
    while (reply := reply_to(b"reserve-with-timeout 0\r\n")).startswith(b"RESERVED"):
        print(replies.read(int(reply.split()[2]) + 2).decode().strip())
