# The programs of this harness source this file. `start` starts a server that has its log in the folder `log`, `client` talks to it, and `stop` kills it, as a
# power cut does. The socket isn't part of the data.
socket=$TMPDIR/socket

start() {
    beanstalkd -s 4096 -b log -f0 -l "unix:$socket" 2>> "$TMPDIR/log" &
    server=$!
}

client() { "$HARNESS/client.py" "$socket" "$@" 2>> "$TMPDIR/log"; }

# $status is what it ended with
stop() {
    kill -KILL "$server" 2>> "$TMPDIR/log"
    wait "$server" 2>> "$TMPDIR/log"
    status=$?
}
