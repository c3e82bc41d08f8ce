# What a program may do beside the component's steps, and in which language; waits, ends, orders. Sourced by `test`, last.
oddities=$here/odd
gcc -std=gnu11 -O1 -U_FORTIFY_SOURCE -Wall -Wextra -Werror -o "$oddities" tests/odd.c -pthread
gcc -std=gnu11 -O1 -Wall -Wextra -Werror -o "$here/random_files" tests/random_files.c -pthread

# oddly CASE..: what a program may do, on new files; `hits` what of it was hit
oddly() {
    new
    run none "$oddities" "$@"
}
hits() { ./census --hits "$here/run/trace" | sed 's/sys:://g'; }

# Every way to make a call.
oddly raw
is 'calls by the system itself' '0 open;write;fsync' "$status $(hits)"
oddly as_output
is 'standard output that is a file of the root' '0 old=through it ' "$status $(left lasting | sed 's|sub/.*||')"
for link in /proc/self/fd/%d /dev/fd/%d /proc/thread-self/fd/%d "/proc/self/root$here/data/old" /proc/self/cwd/../old /proc//self/fd/%d \
    /proc/./self/fd/%d /proc//thread-self/fd/%d /proc/self/../thread-self/fd/%d /dev/./fd/%d /proc//self/cwd/../old /proc/./self/cwd/../old; do
    oddly own_folder "$link"
    is "by ${link#*self/root}" '0 old old,1 truncate old to 0;2 length of old 7;3 block 0 of old as after write 2 by proc' \
        "$status $(grep open "$here/run/trace" | cut -f 5 | paste -s -d ' '),$(pending) $(cat "$here/data/old")"
done
# A library that is preloaded read the list itself, and crashed.
oddly bad_parts
is 'memory that is not there' '0 EFAULT EFAULT EFAULT EINVAL' "$status $(cut -f 8 "$here/run/trace" | sed 1d | tr -d ' ' | paste -s -d ' ')"
oddly read_only
is 'a write of a file that is read' '0 EBADF' "$status $(sed -n 2p "$here/run/trace" | cut -f 8 | tr -d ' ')"
oddly direct
is 'a write past the cache' 0 "$status"
oddly beneath
is 'opens with rules for their way' '0 sub old EXDEV,sub/a 4,sub/in 5' \
    "$status $(sed -n 1p "$here/run/trace" | cut -f 5) $(sed -n '2p;3p;5p' "$here/run/trace" | cut -f 5,8 | tr -d ' ' | tr '\t' ' ' | paste -s -d ,)"
is 'opens that are refused, natively' 0 "$(new; cd "$here/data" && "$oddities" refused 2>&1; echo $?)"
oddly refused
is 'and supervised' '0 old=0123456789 sub/ sub/in=inside ' "$status$faults $(pending)$(files)"
oddly by_path "$here/data"
is 'descriptors of a path alone' '0 . -,old -,nothing ENOENT' "$status $(cut -f 5,8 "$here/run/trace" | tr -d ' ' | tr '\t' ' ' | paste -s -d ,)"
is 'a limit on lengths, natively' 0 "$(new; cd "$here/data" && "$oddities" limited 2>&1; echo $?)"
oddly limited
is 'and supervised' "0 1 truncate old to 11;2 length of old 12;3 length of old 12$(printf ';%s of old as after %s' '4 block 0' 'write 1' '5 block 0' 'truncate 2' '6 block 0' 'truncate 3' \
    '7 block 0' 'write 4')" "$status$faults $(pending)"
oddly few_files
is 'no descriptor left' '0 EMFILE' "$status $(tail -n 1 "$here/run/trace" | cut -f 8 | tr -d ' ')"
is 'changes nothing' 'old=0123456789 sub/ sub/in=inside ' "$(pending)$(files)"
oddly masked 027
is 'a umask' '0 750 640 640' "$status $said"
oddly moves
is 'folders that it moves to' '0 here here/a here b here/c' "$status $(cut -f 5 "$here/run/trace" | paste -s -d ' ')"
oddly at_once "$oddities"
is 'what it lets go is free at once' 0 "$status$faults"
# A library that makes the calls itself leaves no place where a thread is cancelled: the program hung.
oddly cancelled
is 'a thread that is cancelled' '0 open' "$status $(hits)"
oddly stormy 2000
is 'a storm of signals' '0 8000' "$status $(stat -c %s "$here/data/a")"
oddly in_vfork
is 'a child that shares the memory' '0 open;write;fsync V123456789' "$status $(hits) $(cat "$here/data/old")"
oddly spawns "$oddities" raw
is 'a program that is spawned without any environment' '0 open;write;fsync' "$status $(hits)"
oddly by_descriptor "$oddities" raw
is 'a program by its descriptor' '0 open;write;fsync' "$status $(hits)"
oddly leaves
is 'what goes on when the command has ended' '0 open;write;fsync 0123456789late' "$status $(hits) $(cat "$here/data/old")"
oddly rings
is 'rings of requests' '0 faults: not seen: asynchronous requests, which fail as on a system without them: io_uring_setup' "$status $faults"
oddly short_call
is 'calls of 32 bits' "98 faults: can't follow a program with 32-bit calls: $oddities" "$status $faults"
new
run none "$here/nowhere"
is 'a command that is not there' "98 faults: $here/nowhere: No such file or directory,faults: not seen: any call under FAULTS_ROOT of $here/nowhere" \
    "$status $(paste -s -d , "$here/faults")"
is 'and the cut is refused' "powercut: no call was seen: any call under FAULTS_ROOT of $here/nowhere" \
    "$(out/powercut cut "$here/run" "$here/data" 2>&1)"
new
run none "$(printf 'no\033[2Jway')"
is 'what it is named stays in its line' 'faults: no\033[2Jway: No such file or directory' "$(head -n 1 "$here/faults")"
new
run none "$supervisor" "$oddities" raw
is 'a system that forbids its filter' 1 "$(grep -c '^faults: the system lacks seccomp .*, or forbids it: Device or resource busy$' "$here/faults")"
for call in 'SYS_seccomp the system lacks seccomp with SECCOMP_FILTER_FLAG_WAIT_KILLABLE_RECV (Linux 5.19), or forbids it' \
    'SYS_pidfd_open the system lacks pidfd_open, or forbids it' 'SYS_pidfd_getfd the system lacks pidfd_getfd, or forbids it' \
    'SYS_openat2 the system lacks openat2, or forbids it' 'SYS_process_vm_readv the system forbids process_vm_readv' \
    'SYS_process_vm_writev the system forbids process_vm_writev'; do
    new
    under timeout 20 "$oddities" denied "$(printf '#include <sys/syscall.h>\n%s' "${call%% *}" | gcc -E -P - | tail -n 1)" \
        "$supervisor" "$oddities" raw > "$here/said" 2>&1
    is "a system without ${call%% *}" "98 faults: ${call#* }: Operation not permitted" "$? $(cat "$here/said")"
done
new
run none sh -c 'echo sh > a; kill -SEGV $$'
is 'a command that ends by a signal' '139 open;write' "$status $(hits)"

# Crashes, each with the number of hits at which it was seen. Signals: 6 is an abort, 9 and 15 are no crashes.
crashes() { [ ! -e "$here/run/crashes" ] || tr '\t' ' ' < "$here/run/crashes" | paste -s -d ,; }
oddly signalled 6
is 'a command that crashes' '134 1 SIGABRT odd' "$status $(crashes)"
for signal in 9 15; do
    oddly signalled "$signal"
    is "signal $signal is no crash" "$((128 + signal)) " "$status $(crashes)"
done
new
run 'sys::open=1*off->1*panic' sh -c '"$1" signalled 9; "$1" signalled 6' ends "$oddities"
is 'nor a panic' '99 ' "$status $(crashes)"
new
run none sh -c '("$1" signalled 11 & echo $! > ../number); while kill -0 "$(cat ../number)" 2> /dev/null; do sleep 0.01; done; cat old' ends "$oddities"
is 'a process whose parent has ended' '0 1 SIGSEGV odd' "$status $(crashes)"
new
run none sh -c 'sh -c "$1 signalled 6; :"; cat old; "$1" signalled 8; "$1" signalled 15; exit 134' ends "$oddities"
if [ "$(uname -r | awk -F '[.-]' '{ print ($1 * 1000 + $2 >= 6015) }')" = 1 ]; then
    is 'and those that another process of the run waits for' '134 1 SIGABRT odd,5 SIGFPE odd' "$status $(crashes)"
else
    echo 'skipped crashes that another process waits for: Linux tells them since 6.15'
    is 'which a shell tells by its status' '134 6 SIGABRT sh' "$status $(crashes)"
fi

# Waits.
FAULTS_SOCKETS=1
export FAULTS_SOCKETS
oddly waits_often
is 'calls that wait' 0 "$status$faults"
is 'of which one that goes on after a signal is one hit' '4 3 EINTR EAGAIN' \
    "$(awk -F '\t' -v me="$(cut -f 6 "$here/run/trace" | head -n 1)" '$2 == "sys::recv" && $6 == me { print $8 }' "$here/run/trace" | tr -d ' ' | paste -s -d ' ')"
unset FAULTS_SOCKETS
oddly pipes_by_name
is 'a pipe under the root' '0 7 7 0' "$status $(grep -E 'read|write' "$here/run/trace" | cut -f 8 | tr -d ' ' | paste -s -d ' ')"
new
run 'sys::read=1*return(HALF);sys::write=1*return(HALF)' "$oddities" pipes_by_name
is 'half of a write of it, and of what of that a read has' '3 1' "$(grep -E 'read|write' "$here/run/trace" | sort -rk 2 | cut -f 8 | tr -d ' ' | paste -s -d ' ')"

is 'copies from an empty pipe, natively' 0 "$(new; cd "$here/data" && "$oddities" spliced 2>&1; echo $?)"
oddly spliced
is 'and supervised' '0 EAGAIN EINVAL EINVAL EINVAL 5 EAGAIN, later' \
    "$status$faults $(grep write "$here/run/trace" | cut -f 8 | tr -d ' ' | paste -s -d ' '), $(cat "$here/data/a")"

# Shared mappings, each of which a library that was preloaded missed, or fell over: it didn't see mprotect, crashed as it read memory that was closed, took what was
# mapped over for the file, forgot the rest of one of which a part went, and had no end to look at of a program that left quickly.
for case in made_writable closed_memory; do
    oddly "$case"
    is "$case: what was stored lasts" '0 N123456789' "$status $(left lasting > "$here/said"; cat "$here/data/old")"
done
oddly mapped_over
is 'memory mapped over a mapping is none of it' '0 0123456789' "$status $(left lasting > "$here/said"; cat "$here/data/old")"
oddly middle_unmapped
is 'the rest of a mapping of which a part went' '0 T' "$status $(left contents > "$here/said"; left live > "$here/said"; tr -d '\0' < "$here/data/a")"
is 'lasts' '' "$(pending)"
each_other=$(repeated 20 '->1*return->1*off')
for sync in fsync msync; do
    new
    run "sys::fsync=1*off$each_other" "$oddities" stored_at_once "$sync"
    is "what is stored at once behind a failed $sync isn't lost with it" '0 SSSSSSSSSSSSSSSSSSSS' "$status $(left names > "$here/said"; tr -d '\0' < "$here/data/a")"
done
oddly killed
is 'what was stored by a process that was killed' '137 1 block 0 of old as after store 1' "$status $(pending)"
oddly left_quickly
is 'and by one that leaves quickly' '0 1 block 0 of old as after store 1' "$status $(pending)"

# By the file, not by its name. A library that went by names missed a file that is cut short through a link elsewhere, and lost one that was exchanged.
mkdir -p "$here/other"
new
ln "$here/data/old" "$here/other/hard"
ln -s "$here/data/old" "$here/other/soft"
run none sh -c 'echo x >> ../other/hard; : > ../other/soft'
is 'names elsewhere' '0 old old old 1 truncate old to 0;2 length of old 12;3 block 0 of old as after write 1' "$status $(cut -f 5 "$here/run/trace" | paste -s -d ' ') $(pending)"
rm -f "$here/other/hard" "$here/other/soft"
try none rename ../data/old ../data/sub/old exchange sub/old sub/in
is 'exchanged under the root' '1 rename old -> sub/old;2 exchange sub/old -> sub/in, and all before it' "$(pending)"
printf foreign > "$here/other/f"
try none exchange old ../other/f
is 'exchanged with a file of elsewhere' '1 link old;2 length of old 7;3 block 0 of old as after write 1:old=foreign ' "$(pending):$(kept power::keep=return)"
try none rename old ../other/o truncate ../other/o 3 rename ../other/o old
is 'a file that was elsewhere for a while' 'old=012 ' "$(kept power::keep=return)"

# Ends.
new
(cd "$here/data" && exec env FAULTS_ROOT="$here/data" FAULTS_RUN="$here/run" "$supervisor" "$oddities" sleeps 76543) > "$here/said" 2>&1 &
for _ in $(seq 200); do
    [ "$(pgrep -c -f '/odd sleeps 76543')" -ge 3 ] && break
    sleep 0.01
done
kill -KILL $!
wait $! 2> "$here/said"
for _ in $(seq 200); do
    pgrep -f '/odd sleeps 76543' > "$here/said" || break
    sleep 0.01
done
is 'where the supervisor is killed nothing of the run goes on' '' "$(cat "$here/said")"
new
(cd "$here/data" && exec env FAULTS_ROOT="$here/data" FAULTS_RUN="$here/run" "$supervisor" \
    sh -c 'trap "echo ended > a; exit 3" TERM; : > begun; while :; do sleep 0.01; done') > "$here/said" 2>&1 &
for _ in $(seq 200); do
    [ -e "$here/data/begun" ] && break
    sleep 0.01
done
kill -TERM $!
wait $!
is 'a signal for the supervisor goes to the command' '3 ended' "$? $(cat "$here/data/a")"
new
(cd "$here/data" && exec env FAULTS_ROOT="$here/data" FAULTS_RUN="$here/run" "$supervisor" "$oddities" opened_often 20000) > "$here/said" 2>&1 &
stormed=$!
for _ in $(seq 200); do
    [ -s "$here/run/trace" ] && break
    sleep 0.01
done
while kill -ALRM "$stormed" 2> "$here/faults"; do :; done
wait "$stormed"
is 'a storm of signals for the supervisor itself' '0 20000' "$? $(grep -c 'sys::open' "$here/run/trace")"
new
run none sh -c 'echo x > a; (kill -KILL $PPID; while :; do echo x > a; done) & sleep 76541'
is 'a run that ends its parent' "98 faults: can't follow the run: the process that keeps its processes together was killed " "$status $faults $(pgrep -f 'sleep 76541')"
for limit in 6 9 64; do
    new
    under timeout -s KILL 60 prlimit --nofile="$limit:$limit" "$supervisor" sh -c 'mkfifo pipe; exec 3<> pipe
        for number in $(seq 100); do cat "$1/data/pipe" & done; wait' cats "$here" > "$here/said" 2>&1
    is "a limit of $limit descriptors" '98 faults: the limit of descriptors is too low to follow the run: Too many open files ' \
        "$? $(cat "$here/said") $(pgrep -f "cat $here/data/pipe")"
done
new
under prlimit --nofile=1024:1024 "$supervisor" "$oddities" together 600 > "$here/said" 2>&1
is 'one that is enough for many threads' '0 600' "$?$(cat "$here/said") $(grep -c open "$here/run/trace")"
new
run 'sys::write=1*off->panic' sh -c 'setsid sh -c "while :; do echo x; done" > a & setsid sleep 76542 & sleep 0.1; echo y > b; echo z > b'
is 'a panic ends what has left its session too' '99 ' "$status $(pgrep -f 'sleep 76542')"

# A disk that is full under the run's folder (it killed the program by SIGBUS where a library kept the notes in it), programs with rights of their own, and another
# root.
if [ "$(id -u)" = 0 ] && unshare -m true 2> "$here/faults"; then
    new
    mkdir -p "$here/small"
    full=$(unshare -m sh -c 'mount -t tmpfs -o size=400k none "$1/small" && "$2" begin "$1/small/run" "$1/data" && cd "$1/data" &&
        FAULTS_ROOT="$1/data" FAULTS_RUN="$1/small/run" "$3" dd if=/dev/zero of=big bs=100 count=5000 status=none; echo $?' \
        full "$here" "$outside/out/powercut" "$supervisor" 2>&1)
    is 'a disk that is full under the run' 98 "$(printf '%s' "$full" | tail -n 1)"
    is 'is told' 1 "$(printf '%s' "$full" | grep -c '^faults: .*No space left on device')"
    full=$(unshare -m sh -c 'mount -t tmpfs -o size=400k none "$1/small" && "$2" begin "$1/small/run" "$1/data" && cd "$1/data"
        head -c 500000 /dev/zero > "$1/small/filling" 2> "$1/said"
        truncate -s -4096 "$1/small/filling" # room for one page: that of the programs, and none for the counts
        FAULTS_ROOT="$1/data" FAULTS_RUN="$1/small/run" "$3" cat old; echo $?' full "$here" "$outside/out/powercut" "$supervisor" 2>&1)
    is 'also one that was full before' "faults: can't record a change: No space left on device 98" "$(printf '%s' "$full" | paste -s -d ' ')"

    unshare -m sh -c 'mkdir -p "$1/upper" "$1/work" && mount -t overlay overlay -o "lowerdir=$1/data,upperdir=$1/upper,workdir=$1/work" \
        "$1/other" || { echo none; exit; }; "$2" begin "$1/over" "$1/other"; FAULTS_ROOT="$1/other" FAULTS_RUN="$1/over" "$3" ls "$1/other"; echo $?' \
        overlay "$here" "$outside/out/powercut" "$supervisor" > "$here/said" 2>&1
    if [ "$(tail -n 1 "$here/said")" = none ]; then
        echo 'skipped a root on an overlay: none can be had'
    else
        is 'a root on an overlay' "faults: FAULTS_ROOT is on an overlay file system, whose files can change their identity: $here/other 98" "$(paste -s -d ' ' "$here/said")"
    fi

    new
    mkdir -m 700 "$here/data/mine" && mkdir -m 777 "$here/data/open" && printf x > "$here/data/closed" && chmod 600 "$here/data/closed"
    chmod 755 "$here"
    run none "$oddities" as_other
    is 'as another user' '0 2345 1234' "$status $said"

    # owned: new files, among them one of another user that nobody may open
    owned() {
        new
        mkdir "$here/data/theirs" && printf x > "$here/data/theirs/closed" && chmod 0 "$here/data/theirs/closed"
        chown -R 65534 "$here/data/theirs"
    }
    owned
    is 'rights that root gave up, natively' 0 "$(cd "$here/data" && "$oddities" without_rights 2>&1; echo $?)"
    owned
    run none "$oddities" without_rights
    is 'and supervised' '0 EACCES EACCES EACCES EACCES EACCES 3' "$status$faults $(cut -f 8 "$here/run/trace" | tr -d ' ' | paste -s -d ' ')"
    owned
    run none sh -c 'cat theirs/closed; setpriv --bounding-set=-all cat theirs/closed; cat theirs/closed'
    is 'or that a program is started without' '0 xx EACCES' "$status $said $(cut -f 8 "$here/run/trace" | grep -o E.*S)"

    oddly closed_process
    is 'a process that nobody may look into, but root' '0 open' "$status $(hits)"
    # By a user who may do nothing but that, also in a container of his own: with other users, mounts, processes and network.
    cp "$supervisor" "$here/faults_of_all" && cp "$oddities" "$here/odd_of_all"
    mkdir -p "$here/all/out" "$here/all/cut" && cp out/powercut "$here/all/out" && cp cut/profiles "$here/all/cut"
    # by_user [unshare WORD..] -- CASE: on new files; the end, and what the power cut leaves of `old`
    by_user() {
        within=
        while [ "$1" != -- ]; do
            within="$within $1"
            shift
        done
        new
        rm -rf "$here/run" && mkdir -m 777 "$here/by_user" && chown -R 65534 "$here/data"
        # shellcheck disable=SC2086
        (cd "$here/data" && setpriv --reuid 65534 --regid 65534 --clear-groups $within sh -c '"$1/all/out/powercut" begin "$1/by_user/run" "$1/data" &&
            FAULTS_ROOT=$1/data FAULTS_RUN=$1/by_user/run "$1/faults_of_all" "$1/odd_of_all" "$2"
            echo $? && "$1/all/out/powercut" cut "$1/by_user/run" "$1/data" && cat "$1/data/old"' by_user "$here" "$2" 2>&1) | paste -s -d ' '
        rm -rf "$here/by_user"
    }
    is 'as an ordinary user' '0 V123456789' "$(by_user -- in_vfork)"
    for container in '-U' '-Urm' '-Urmpf --mount-proc' '-Urn'; do
        # shellcheck disable=SC2086
        setpriv --reuid 65534 --regid 65534 --clear-groups unshare $container true 2> "$here/faults" || { echo "skipped unshare $container"; continue; }
        # shellcheck disable=SC2086
        is "in a container of his: unshare $container" '0 V123456789' "$(by_user unshare $container -- in_vfork)"
    done
    is 'who may not look into a process' "faults: can't follow a process into which the system lets nobody look: odd_of_all 98" \
        "$(by_user -- closed_process | sed 's/ 98 .*/ 98/')"
    new
    cp "$oddities" "$here/set_id" && chown 65534 "$here/set_id" && chmod 4755 "$here/set_id"
    run none "$here/set_id" raw
    is 'a set-id program' "0 open;write;fsync faults: not seen: the set-id bits, which don't count here, of $here/set_id" "$status $(hits) $faults"

    new
    gcc -static -std=gnu11 -O1 -U_FORTIFY_SOURCE -Wall -Wextra -Werror -o "$here/static" tests/odd.c -pthread
    run none chroot "$here" /static written_at /data/sub/a
    is 'another root' '0 sub/a sub/a at' "$status $(cut -f 5 "$here/run/trace" | paste -s -d ' ') $(cat "$here/data/sub/a")"
    # What it comes to natively is in this folder alone, and nothing is made or deleted outside of it.
    jailed=". ./jail ./jail/d ./jail/file ./jail/further ./jail/made ./jail/sub ./jail/sub/in_way ./jail/sub/up ./jail/way ./old ./sub ./sub/in"
    inside() { (cd "$1" && find . | LC_ALL=C sort | paste -s -d ' '); }
    for how in natively supervised; do
        new
        mkdir -p "$here/data/jail/sub" && ln -s /sub "$here/data/jail/way" && ln -s ../../sub/../file "$here/data/jail/sub/up"
        rm -r "$here/run" && out/powercut begin "$here/run" "$here/data"
        [ $how = supervised ] && run none "$here/static" jailed jail || (cd "$here/data" && "$here/static" jailed jail > "$here/said"; echo $? > "$here/status")
        is "a folder as root, $how" "0 ENOENT ENOENT, $jailed" \
            "$([ $how = supervised ] && echo "$status" || cat "$here/status") $(cat "$here/said"), $(inside "$here/data")"
    done
    is 'and is seen' 'jail/made jail/d jail/old jail/sub/in jail/further jail/sub/in_way jail/file' "$(cut -f 5 "$here/run/trace" | paste -s -d ' ')"
    is 'and lasts' "$jailed" "$(left keep power::keep=return > "$here/said"; inside "$here/data")"
    mkdir -p "$here/mounted"
    run none unshare -m sh -c 'mount --bind . "$1/mounted" && echo x > "$1/mounted/b"' mounts "$here"
    is 'a folder that a mount shows elsewhere' 'b b' "$(tail -n 2 "$here/run/trace" | cut -f 5 | paste -s -d ' ')"
else
    echo 'skipped full disks, other users, set-id programs and other roots: not root'
fi

# Languages: the same calls each, the same failure, the same end.
store='open;write;truncate;fsync;rename;open;fsync;open;read;link;symlink;unlink;mkdir;rmdir'

# speaks NAME COMMAND..: what each store hits from its first file on (Java looks at its folder first), and where its first sync fails
speaks() {
    name=$1
    shift
    new
    run none "$@"
    awk -F '\t' -v OFS='\t' '$5 == "new" { begun = 1 } begun { $1 = ++number; print }' "$here/run/trace" > "$here/since"
    is "$name" "0 $store" "$status $(./census --hits "$here/since" | sed 's/sys:://g')"
    is "$name: all kept" 'other=valu sub/ sub/in=inside value=valu way->value ' "$(left keep power::keep=return)"
    new
    run 'sys::fsync=1*return' "$@"
    is "$name: a sync fails" 'yes new= old=0123456789 ' "$([ "$status" -gt 0 ] && echo yes) $(left names | sed 's|sub/.*||')"
    new
    run 'sys::rename=1*panic' "$@"
    is "$name: a panic" 99 "$status"
}
languages=$outside/tests/languages
gcc -o "$here/store" "$languages/store.c" && speaks C "$here/store"
gcc -static -o "$here/store" "$languages/store.c" && speaks 'C, static' "$here/store"
g++ -x c++ -o "$here/store" "$languages/store.c" && speaks 'C++' "$here/store"
speaks Python python3 "$languages/store.py"
has() { # a program of that name; a function of these tests may have it too
    case $(command -v "$1") in
    /*) ;;
    *) echo "skipped a store in ${2:-$1}: not installed" && false ;;
    esac
}
has perl && speaks Perl perl "$languages/store.pl"
has rustc Rust && rustc -o "$here/store" "$languages/store.rs" && speaks Rust "$here/store"
has node && speaks Node node "$languages/store.mjs"
has javac Java && javac -d "$here" "$languages/Store.java" && speaks Java java -cp "$here" Store
# By Go alone, with the C library, and static with that.
linked='CGO_ENABLED=1 -tags=linked'
for way in CGO_ENABLED=0 "$linked" "$linked -ldflags=-extldflags=-static"; do
    # shellcheck disable=SC2086,SC2046
    has go && (cp "$languages"/*.go "$here" && cd "$here" && env GOCACHE="$here/go" "${way%% *}" go build $(echo "$way" | cut -d ' ' -s -f 2-) -o store *.go) &&
        speaks "Go, $way" "$here/store"
done

# Random files: what was noted is what there is.
mkdir -p "$here/random"
is 'random files' '80 trees equal' "$(tests/random_files.py "$here/random" "$outside/out" "$supervisor" "$here/random_files" 0 30)"
# A page of a mapped file that is a hole once a range before it was taken out, which file systems in memory don't do.
disk=$(mktemp -d -p /var/tmp)
case $(stat -f -c %T "$disk") in
ext2/ext3 | xfs)
    is 'random files on a disk' '2 trees equal' "$(tests/random_files.py "$disk" "$outside/out" "$supervisor" "$here/random_files" 12 13)" ;;
*) echo 'skipped random files on a disk: no file system that takes out ranges' ;;
esac
rm -rf "$disk"
is 'killed at some moment' '20 kills, nothing torn or silent' \
    "$(tests/random_files.py "$here/random" "$outside/out" "$supervisor" "$here/random_files" 0 20 killed)"
