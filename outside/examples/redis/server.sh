# The programs of this harness source this file. `start` starts a server that has its files in the current folder, and waits until it responds. The socket isn't
# part of the data.
socket=$TMPDIR/socket

client() { timeout 10 redis-cli -s "$socket" "$@" 2>> "$TMPDIR/log"; }

start() {
    rm -f "$socket"
    redis-server --port 0 --unixsocket "$socket" --dir "$PWD" --save '' --appendonly yes --appendfsync "${FSYNC:-always}" --logfile "$TMPDIR/redis" &
    server=$!
    until [ "$(client ping)" = PONG ]; do
        kill -0 "$server" 2>> "$TMPDIR/log" || return
        sleep 0.02
    done
}

# $status is what it ended with
gone() {
    wait "$server" 2>> "$TMPDIR/log"
    status=$?
}

stop() {
    client shutdown nosave > "$TMPDIR/stopped"
    gone
}
