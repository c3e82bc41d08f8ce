# What the notes cost. Sourced by `test`. 100 MB are written by dd, 256 KiB at a time, as often as it takes until it was quick enough
# beside the same without the supervisor, twelve times at most: other work on the machine makes single runs slow. Instructions and
# copied bytes aren't moved by that, so the notes have a bound in bytes.
zeros() { dd if=/dev/zero of="$here/data/$1" bs=262144 count=382 conv="$2" status=none; }

# micros COMMAND..: how long that took
micros() {
    begun_at=$(date +%s%N)
    "$@" || echo "cost: failed: $*" >&2
    echo $((($(date +%s%N) - begun_at) / 1000))
}

supervised() { under "$supervisor" dd if=/dev/zero of="$1" bs=262144 count=382 conv="$2" status=none; }

best_without= best_with= tries=0
while [ "$tries" -lt 12 ]; do
    tries=$((tries + 1))
    new
    without=$(micros zeros without notrunc)
    rm "$here/data/without"
    with=$(micros supervised with notrunc)
    [ -z "$best_without" ] || [ "$without" -lt "$best_without" ] && best_without=$without
    [ -z "$best_with" ] || [ "$with" -lt "$best_with" ] && best_with=$with
    [ $((best_with * 2)) -gt $((best_without * 3)) ] || break
done
is '100 MB take at most 1.5 times as long' yes "$([ $((best_with * 2)) -le $((best_without * 3)) ] && echo yes || echo "$best_with, without $best_without")"
noted_kilobytes() { du -k "$here/run/changes" | cut -f 1; }
is 'and less than 1 MB of notes' yes "$([ "$(noted_kilobytes)" -lt 1000 ] && echo yes)"
is 'for a length and a block for each block, and a name' $((1 + 2 * 382 * 64)) "$(out/powercut pending "$here/run" | wc -l)"
supervised with notrunc
is 'written over, what was there is noted once, and what is new once' yes \
    "$([ "$(noted_kilobytes)" -lt $((2 * 382 * 256 + 3000)) ] && echo yes)"
is 'and a sync notes no byte, but takes room for its own note' yes "$(before=$(noted_kilobytes); go none open with fsync
    [ $(($(noted_kilobytes) - before)) -lt 1000 ] && echo yes)"

# What it costs, in calls of the supervisor beside that by which it waits for the program's. A small write: the file, what it is, its flags,
# the bytes, where the file is, the write, the trace, the file again, the answer. The component's line about it, to a file that is
# elsewhere: the file, what it is, the file again, the answer. What a tick of its timer adds is left out, and of
# a hundred writes one call more or less.
if command -v strace > "$here/said" && strace -o "$here/calls" true 2> "$here/faults"; then
    calls_of() {
        new
        # shellcheck disable=SC2046
        under strace -o "$here/calls" "$supervisor" "$component" create a $(yes "${2-write b}" | head -n "$1") > "$here/said"
        grep -vcE 'SIGALRM|SIGCHLD|rt_sigreturn|pidfd_send_signal|NOTIF_RECV|EINTR|wait|poll' "$here/calls"
    }
    fewer=$(calls_of 10)
    is 'a small write costs 9 calls, and a line elsewhere 4' $((9 + 4)) $((($(calls_of 110) - fewer + 50) / 100))
    # Of a point of the program's own: its name, the trace, the answer; and of any other link its name and the answer.
    fewer=$(calls_of 10 'target /.paklour/a 9')
    is 'a point of its own costs 3' $((3 + 4)) $((($(calls_of 110 'target /.paklour/a 9') - fewer + 50) / 100))
    fewer=$(calls_of 10 'target none 9')
    is 'and the text of any link 2' $((2 + 4)) $((($(calls_of 110 'target none 9') - fewer + 50) / 100))

    # How often a cut looks for the holes of a file that nobody touched. A file system in memory looks at all of the file each time.
    looks_of() {
        new
        rm -r "$here/run" && head -c "$1" /dev/zero > "$here/data/large" && out/powercut begin "$here/run" "$here/data"
        go none create a write b
        strace -o "$here/calls" -e trace=lseek out/powercut cut "$here/run" "$here/data"
        grep -c SEEK_ "$here/calls"
    }
    is 'a cut looks for the holes of a large file as often as for those of a small one' "$(looks_of 100000)" "$(looks_of 8000000)"
else
    echo 'skipped what a small write and a large file cost: no strace'
fi
new
