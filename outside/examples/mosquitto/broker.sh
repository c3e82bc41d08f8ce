# The programs of this harness source this file. `start` starts a broker that has its store in the current folder, `stop` ends it in good order, and
# `publish` makes it retain a message. The socket isn't part of the data.
socket=$TMPDIR/socket

start() {
    printf '%s\n' "listener 0 $socket" 'allow_anonymous true' 'persistence true' 'persistence_location ./' 'autosave_interval 0' \
        "user $(id -un)" > "$TMPDIR/config"
    : > "$TMPDIR/told"
    /usr/sbin/mosquitto -c "$TMPDIR/config" > "$TMPDIR/told" 2>&1 &
    broker=$!
    until grep -q ' running$' "$TMPDIR/told"; do
        kill -0 "$broker" 2>> "$TMPDIR/log" || return
        sleep 0.02
    done
}

# Its status is the broker's.
stop() {
    kill "$broker" 2>> "$TMPDIR/log"
    wait "$broker" 2>> "$TMPDIR/log"
    status=$?
    rm -f "$socket"
    return "$status"
}

publish() { mosquitto_pub --unix "$socket" --retain --qos 1 --topic "$1" --message "$1" 2>> "$TMPDIR/log"; }
