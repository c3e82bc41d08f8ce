# The order of calls, random bytes, and what the words of the supervisor say of them. Sourced by `test`, behind supervisor.sh.

# An order of calls: the same each time, and by the scenario. The two shells are two threads; the second goes first where a return says so,
# and the two opens and the two writes of each are asked for while both wait.
both='(echo a1 >> log; echo a2 >> log) & (echo b1 >> log; echo b2 >> log) & wait'
# in_order ORDER SCENARIO: what the shells wrote, in order
in_order() {
    new
    under FAILPOINTS="$2" timeout -s KILL 60 "$supervisor" --order "$1" sh -c "$both" 2> "$here/faults"
    paste -s -d ' ' "$here/data/log"
}
is 'in order' 'a1 a2 b1 b2' "$(in_order settled none)"
is 'no point of the order where none is asked for' '4*open;4*write' "$(hits | tr ';' '\n' | sort | uniq -c | awk '{ print $1 "*" $2 }' | paste -s -d ';')"
is 'the order is asked' 'a1 a2 b1 b2 order::next;open;order::next;write;order::next;open;order::next;write;open;write;open;write' \
    "$(in_order next none) $(hits)"
is 'the other goes first' 'b1 b2 a1 a2' "$(in_order next order::next=return)"
is 'once both have opened the other writes first' 'b1 a1 a2 b2' "$(in_order next 'order::next=2*return')"
gcc -std=gnu11 -O1 -Wall -Wextra -Werror -o "$here/writers" tests/writers.c -pthread
alike() {
    for _ in $(seq "$1"); do
        new
        run none --order settled "$here/writers" 6
        cut -f 2,4,5,7,8 "$here/run/trace" | cksum
    done | sort -u | wc -l
}
is 'six threads and a process go alike' 1 "$(alike 10)"
# A container in which the system's last number is made up.
if [ "$(id -u)" = 0 ] && printf '0.00 0.01 0.05 1/80 4711\n' > "$here/loadavg" && unshare -m mount --bind "$here/loadavg" /proc/loadavg 2> "$here/faults"; then
    new
    under FAILPOINTS=none unshare -m sh -c 'mount --bind "$1/loadavg" /proc/loadavg && shift && exec "$@"' made_up "$here" \
        timeout -s KILL 60 "$supervisor" --order settled "$here/writers" 6 2> "$here/faults"
    made_up=$(cut -f 2,4,5,7,8 "$here/run/trace" | cksum)
    new
    run none --order settled "$here/writers" 6
    is 'in order, where no number is told' "$(cut -f 2,4,5,7,8 "$here/run/trace" | cksum)" "$made_up"
else
    echo 'skipped an order where no number is told: none can be hidden'
fi
new
run none --order settled sh -c 'while :; do :; done & p=$!; echo x > a; echo y >> a; kill $p'
is 'a thread that never rests is given up once, and told' '0 xy faults: not seen: the order of calls, since a thread never rests: sh' \
    "$status $(tr -d '\n' < "$here/data/a") $faults"

# Threads that wait for one another, twenty times each: how many different ones there are of how it ended, of its trace and of its file, and how it ended.
gcc -std=gnu11 -O1 -Wall -Wextra -Werror -o "$here/threads" tests/threads.c -pthread
g++ -std=c++17 -O1 -Wall -Wextra -Werror -o "$here/futures" tests/futures.cc -pthread
waiting() {
    for _ in $(seq 20); do
        new
        run none --order settled "$@"
        printf '%s%s %s\n' "$status" "$faults" "$({ cut -f 2,4,5,7,8 "$here/run/trace"; cat "$here/data/log"; } | cksum)"
    done | sort -u > "$here/waited"
    echo "$(wc -l < "$here/waited") $(cut -d ' ' -f 1 "$here/waited" | sort -u | paste -s -d ' ')"
}
written() { paste -s -d ' ' "$here/data/log"; }
# Thread `one` holds the lock when the others begin. Each of them is woken once and comes too late, and from then on whoever unlocks gives way.
is 'threads get a lock in one order' '1 0' "$(waiting "$here/threads" locks)"
is 'and each gets it' 'one 0 one 1 one 2 two 0 three 0' "$(written | cut -d ' ' -f 1-10)"
is 'threads begin in the order of their ages, behind the one that begins them' '1 0 main 0 one 0 two 0 three 0' \
    "$(waiting "$here/threads" starts) $(written)"
is 'a thread that takes a lock again and again lets others have it' '1 0' "$(waiting "$here/threads" told_to_end)"
is 'a thread syncs for three' '1 0' "$(waiting "$here/threads" commits)"
# However short the limit is, it is over when all three wait.
is 'or waits for them up to a limit' "1 0 $(for i in 0 1 2 3; do printf 'one %d two %d three %d ' $i $i $i; done)" "$(waiting "$here/threads" gathers) $(written) "
is 'limits that are not over' '1 0' "$(waiting "$here/threads" turns)"
is 'barriers' '1 0' "$(waiting "$here/threads" barriers)"
is 'semaphores' '1 0' "$(waiting "$here/threads" semaphores)"
is 'locks for readers' '1 0' "$(waiting "$here/threads" readers)"
is 'threads that wake each other for ever' '1 0' "$(waiting "$here/threads" talks)"
is 'a thread that yields to one that begins' '1 0 main 0 begun 0' "$(waiting "$here/threads" yields) $(written)"
is 'or waits in a loop' '1 0' "$(waiting "$here/threads" spins)"
new
run none --order settled "$here/threads" computes
is 'where they do that again and again no order is kept, which is told' \
    '0 faults: not seen: the order of threads that wait for one another, since some compute for long: threads' "$status $faults"
is 'signals for threads that wait' '1 0' "$(waiting "$here/threads" signals)"
is 'threads that are cancelled while they wait' '1 0' "$(waiting "$here/threads" cancels)"
is 'processes beside threads that wait' '1 0' "$(waiting "$here/threads" forks)"
is 'a program in place of threads that wait' '1 0' "$(waiting "$here/threads" replaces)"
is 'a process that is killed while its threads wait' '1 0' "$(waiting "$here/threads" kills)"
is 'a lock that processes share' '1 0' "$(waiting "$here/threads" shares)"
is "the system's own calls" '1 0' "$(waiting "$here/threads" wakes)"
is 'a word that the system clears' '1 0' "$(waiting "$here/threads" cleared)"
is 'threads of C++' '1 0' "$(waiting "$here/futures")"

# A record that is lost only where a thread is overtaken between two calls. What is judged is what the program left.
gcc -std=gnu11 -O1 -Wall -Wextra -Werror -o "$here/race" tests/race.c -pthread
cat > "$here/race.sh" <<'END'
#!/bin/sh
# race.sh SCENARIO, with ORDER and SOUND
here=$(mktemp -d) && trap 'rm -rf "$here"' EXIT
mkdir "$here/data" && printf '\0' > "$here/data/log" && "$outside/out/powercut" begin "$here/run" "$here/data" || exit 2
said=$(cd "$here/data" && FAULTS_ROOT=$here/data FAULTS_RUN=$here/run FAILPOINTS=$1 timeout 20 "$supervisor" --order "$ORDER" "$race" "$SOUND")
held=$(tail -c +2 "$here/data/log" | head -c "$(head -c 1 "$here/data/log" | od -An -tu1 | tr -d ' ')")
verdict=pass
for each in $(echo "$said" | sed 's/done //'); do case $held in *$each*) ;; *) verdict='fail lost' ;; esac; done
printf '%s\t%s\t%s\n' "$verdict" "$1" "$("$outside/census" --hits "$here/run/trace")"
END
chmod 755 "$here/race.sh"
race=$here/race
export outside supervisor race
mkdir "$here/proved" && ln -s "${PAKLOUR:-$outside/../dist/paklour-x86_64-linux}" "$here/proved/paklour"
# raced ORDER SOUND POINTS: what a campaign of one fault says of runs that fail, over these points beside those of files
raced() {
    ORDER=$1 SOUND=$2
    export ORDER SOUND
    rm -f "$here/raced" "$here/race.toml"
    printf '%s\n' 'target = "outside"' 'depth = 1' '[outside]' 'label = "race"' 'codes = ["lost"]' \
        'points = ["sys::open", "sys::read", "sys::write", "sys::fsync"'"${3-}"']' > "$here/race.toml"
    PATH=$here/proved:$PATH ./loop --brief "$here/race.toml" "$here/raced" "$here/race.sh" 2> "$here/faults" |
        sed -n 's/^counts pass [0-9]* //p; s/^reduced //p' | paste -s -d ' '
}
is 'no fault loses the record' 'unresolved 0' "$(raced settled '')"
# They wait four times, and each has read before the other has counted where the order is another the first, second or third time, or from the second or third on.
is 'one that is overtaken does' 'unresolved 0 lost 5 order::next=1*return' "$(raced next '' ', "order::next"')"
is 'and none is, where a lock is held' 'unresolved 0' "$(raced next sound ', "order::next"')"

# Sleeps: one ends when no other call waits, however short it was, and a signal ends it too.
new
run none --order settled "$oddities" overslept
is 'a sleep ends behind all calls' '0 late' "$status $(tail -c 4 "$here/data/a")"
new
run none --order settled "$oddities" woken
is 'or by a signal' '0' "$status$faults"

new
run none --order settled sh -c '(while [ ! -e ../slept ]; do : > a; done) & sleep 0.01; : > ../slept; wait'
rm -f "$here/slept"
is 'where calls never end it ends all the same, which is told' \
    "0 faults: not seen: the order of a sleep, since other calls went on for two seconds: $(readlink -f "$(command -v sleep)")" "$status $faults"

# Random bytes.
draws='import os, tempfile; tempfile.mkstemp(dir="."); print(hash("a"), os.urandom(4), open("/dev/urandom", "rb").read(4), id(os))'
# random_twice [--pin]: how many different answers two runs give
random_twice() {
    for _ in 1 2; do
        new
        run none "$@" python3 -c "$draws"
        printf '%s\n' "$status $said $(ls "$here/data" | paste -s -d ' ')"
    done | sort -u | wc -l
}
is 'random bytes differ' 2 "$(random_twice)"
is 'pinned, they and addresses are the same each time' 1 "$(random_twice --pin)"
new
run order::next=1*return --order next --pin sh -c '"$0" draws & "$0" draws & wait' "$oddities"
is 'who waits for them may be overtaken, and is not asked' '0 order::next' "$status $(cut -f 2 "$here/run/trace" | sort -u | grep order)"

for wrong in '--order' '--order any' '--pinned' '--'; do
    new
    # shellcheck disable=SC2086
    run none $wrong
    is "a word it has no meaning for: $wrong" '98 faults: usage: faults [--order settled|next] [--pin] [--sync] [--] COMMAND.., or faults --help' "$status $faults"
done

