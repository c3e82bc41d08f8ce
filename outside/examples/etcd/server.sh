# The programs of this harness source this file. `start` starts an etcd of one member that has its files in the current folder, and waits until it responds. It
# uses sockets, which aren't part of the data, and no port.
export ETCDCTL_API=3
data=$PWD

client() { (cd "$TMPDIR" && timeout 10 etcdctl --endpoints unix://client:0 "$@" 2>> log); }

start() {
    rm -f "$TMPDIR/client:0" "$TMPDIR/peer:0"
    (cd "$TMPDIR" && exec etcd --data-dir "$data" --initial-cluster default=unix://peer:0 --listen-client-urls unix://client:0 \
        --advertise-client-urls unix://client:0 --listen-peer-urls unix://peer:0 --initial-advertise-peer-urls unix://peer:0 >> server 2>&1) &
    server=$!
    until client endpoint health > "$TMPDIR/told"; do
        kill -0 "$server" 2>> "$TMPDIR/log" || return
        sleep 0.05
    done
}

# $status is what it ended with
strike() {
    kill -KILL "$server" 2>> "$TMPDIR/log"
    wait "$server" 2>> "$TMPDIR/log"
    status=$?
}
