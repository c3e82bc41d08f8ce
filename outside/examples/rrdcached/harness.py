"""rrdcached keeps measurements in a journal, and answers each: `0 errors, enqueued 1 value(s).`

Promised by rrdcached(1), of the option -j: "Write updates to a journal in dir. In the event of a program or system crash, this will allow the daemon to write any
updates that were pending at the time of the crash."

Found in rrdcached 1.7.2, plans of one or two operations and one fault, without a power cut:
- lost, each update, `sys::write=1*panic`: the journal is written by 4,096 bytes, or at the end. If rrdcached is killed before, what it has answered is gone.
- lost, each update, `sys::write=1*return(ENOSPC)`, as any failed write of the journal: nobody looks at it.
- lost, each update, `sys::open=1*return`: if the folder can't be listed at the start, it says so in its log, and goes on without a journal.
With no tool at all: start it with -j, send an update, kill it by `kill -s KILL`. The journal has no byte."""

import subprocess
import sys

from daemon import answer, daemon

states = ["live"]  # each run is judged as it is, without a power cut


def session():
    with daemon() as client:
        for line in sys.stdin:
            if answer(client, line.strip()).startswith("0 "):
                print(line.strip())


def look():
    with daemon() as client:
        answer(client, "FLUSH a.rrd")
    for words in (["lastupdate", "a.rrd"], ["fetch", "a.rrd", "AVERAGE", "-s", "1000000000", "-e", "1000000080"]):
        subprocess.run(["rrdtool", *words], check=True)
