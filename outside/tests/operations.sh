# Operations that a session is given at work::next. Sourced by `test`, behind supervisor.sh.

printf 'put a 1\nput b 2\ncompact\n' > "$here/operations"
cat > "$here/session.py" <<'end'
import os
import select
import sys


def perform(line):
    with open("log", "a") as log:
        log.write(line)
    print("ok", line.strip(), flush=True)


def lines(way):
    if way == "selected":
        while select.select([0], [], []) and (line := sys.stdin.readline()):
            yield line
    elif way == "polled":
        polled = select.poll()
        polled.register(0, select.POLLIN)
        while polled.poll() and (line := sys.stdin.readline()):
            yield line
    elif way == "unbuffered":
        while line := os.read(0, 4096):
            yield line.decode()
    elif way == "beside a wait":
        import threading
        import time
        threading.Thread(target=select.epoll().poll, daemon=True).start()
        while line := os.read(0, 4096):
            time.sleep(0.05)
            yield line.decode()
    elif way == "not waiting":
        os.set_blocking(0, False)
        with select.epoll() as polled:
            polled.register(0, select.EPOLLIN)
            while polled.poll() and (line := os.read(0, 4096)):
                yield line.decode()
    else:
        yield from {"readline": iter(sys.stdin.readline, ""), "iterated": sys.stdin, "at once": [sys.stdin]}[way]


for each in lines(sys.argv[1]):
    for line in each.read().splitlines(keepends=True) if sys.argv[1] == "at once" else [each]:
        perform(line)
end

# session SCENARIO COMMAND..: a session on new files, which may be given three operations, or so many as LENGTH says
session() {
    scenario=$1
    shift
    new
    under $FROM="$here/operations" FAULTS_LENGTH="${LENGTH-3}" FAILPOINTS="$scenario" timeout -s KILL 60 "$supervisor" $ORDER "$@" \
        > "$here/said" 2> "$here/faults"
    status=$?
    said=$(paste -s -d , "$here/said")
    faults=$(cat "$here/faults")
}
# given: what each hit of work::next gave, and `-` where the input ends; came: all hits, in order
given() { grep work::next "$here/run/trace" | cut -f 7 | paste -s -d ,; }
came() { ./census --hits "$here/run/trace" | sed 's/sys:://g; s/work:://g'; }

FROM=FAULTS_OPERATIONS
two='work::next=1*return(3)->1*return(1)'
one_by_one='next;open;write;next;open;write;next'
for ORDER in '' '--order settled'; do
    session "$two" sh -c 'while read -r line; do echo "$line" >> log; echo "ok $line"; done'
    is "a shell is given two operations, then its input ends $ORDER" "0 ok compact,ok put a 1 compact,put a 1,- $one_by_one" "$status $said $(given) $(came)"
    for way in readline iterated unbuffered polled selected 'not waiting' 'beside a wait'; do
        session "$two" python3 -S "$here/session.py" "$way"
        is "as is Python, $way $ORDER" "0 ok compact,ok put a 1 compact,put a 1,- $one_by_one" "$status $said $(given) $(came)"
    done
    session "$two" python3 -S "$here/session.py" 'at once'
    is "who reads all first asks for all first $ORDER" '0 ok compact,ok put a 1 3*next;open;write;open;write' "$status $said $(came)"
done
ORDER=
session none sh -c 'read -r line || echo ended; echo x > a'
is 'without a return the input ends' '0 ended next;open;write' "$status $said $(came)"
session 'work::next=1*panic' sh -c 'read -r line; echo x > a'
is 'a panic ends the run there' '99 next' "$status $(came)"
LENGTH=1 session "$two" sh -c 'while read -r line; do echo "$line" >> log; done'
is 'after so many the input ends without a hit' '0 compact next;open;write' "$status $(given) $(came)"
session 'work::next=return(2)' sh -c 'while read -r line; do echo "$line" >> log; done'
is 'one that goes on gives the same until then' '0 put b 2,put b 2,put b 2' "$status $(given)"
session "$two" sh -c 'cat | { read -r one; cat > rest; echo "$one" > one; }'
is 'through a pipe' '0 old=0123456789 one=compact rest=put a 1 ' "$status $(files | sed 's| sub/.*| |')"
session "$two" sh -c 'read -r line; (read -r line; echo "$line" > child); read -r line || echo ended'
is 'a child takes lines from its parent' '0 ended compact,put a 1,-' "$status $said $(given)"
session 'work::next=1*return(3);sys::write=1*return' sh -c 'while read -r line; do echo "$line" >> log; done'
is 'with a fault behind an operation' 'next;open;write;next EIO' "$(came) $(grep write "$here/run/trace" | cut -f 8 | tr -d ' ')"
new
run none sh -c 'read -r line || echo ended; : > a' < /dev/null
is 'without operations the input is its own' '0 ended open' "$status $said $(came)"

# A workload: one line after the other, and another one where a return says so.
FROM=FAULTS_WORKLOAD
session none sh -c 'while read -r line; do echo "$line" >> log; done'
is 'a workload is given as it stands' '0 put a 1,put b 2,compact next;open;write;next;open;write;next;open;write' "$status $(given) $(came)"
session 'sys::write=1*off->1*return;work::next=2*off->1*panic' sh -c 'while read -r line; do echo "$line" >> log; done'
is 'with a fault in the second, and the end before the third' '99 go,go,panic EIO' \
    "$status $(grep work::next "$here/run/trace" | cut -f 4 | paste -s -d ,) $(grep write "$here/run/trace" | cut -f 8 | tr -d ' ' | tail -n 1)"
session 'work::next=1*return(3)' sh -c 'while read -r line; do echo "$line" >> log; done'
is 'another operation in place of the first' '0 compact,put b 2,compact' "$status $(given)"
FROM=FAULTS_OPERATIONS
new
is 'both at once' '98 faults: FAULTS_OPERATIONS and FAULTS_WORKLOAD: a program is given operations by one of these' \
    "$(under FAILPOINTS=none FAULTS_OPERATIONS="$here/operations" FAULTS_WORKLOAD="$here/operations" "$supervisor" true 2> "$here/faults"; echo "$?") $(cat "$here/faults")"

# refuses NAME SCENARIO LENGTH LINE: with the operations of `operations`, these are refused with that line
refuses() {
    new
    is "$1" "98 faults: $4" "$(under FAILPOINTS="$2" FAULTS_LENGTH="$3" FAULTS_OPERATIONS="$here/operations" "$supervisor" true 2> "$here/faults"; echo "$?") $(cat "$here/faults")"
}
refuses 'a line that is not there' 'work::next=1*return(4)' 3 'scenario: FAULTS_OPERATIONS has no line 4: work::next'
for answer in return 'return(0)' 'return(65)' 'return(put a 1)' 'return(EIO)'; do
    refuses "$answer, which is no number of a line" "work::next=1*$answer" 3 'scenario: UnknownError entry 1 term 1'
done
for length in 0 65 two ''; do
    refuses "a length of '$length'" none "$length" "FAULTS_LENGTH must be a number from 1 to 64: $length"
done
printf 'put a 1\n\ncompact\n' > "$here/operations"
refuses 'an empty line' none 3 'FAULTS_OPERATIONS line 2: it is empty'
: > "$here/operations"
refuses 'no line' none 3 'FAULTS_OPERATIONS: it has no line'
seq 65 > "$here/operations"
refuses 'too many lines' none 3 'FAULTS_OPERATIONS line 65: there may be 64 lines'
printf '%0201d\n' 0 > "$here/operations"
refuses 'a line that is too long' none 3 'FAULTS_OPERATIONS line 1: it has more than 200 bytes'
rm "$here/operations"
refuses 'no file' none 3 'FAULTS_OPERATIONS: No such file or directory'
