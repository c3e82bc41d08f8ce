# The loop round `paklour asks`, with a program in its place that asks for the lines of a list that have no answer, and reports
# what failed. Sourced by `test`.
mkdir "$here/bin"
cat > "$here/bin/paklour" <<'END'
#!/bin/bash
brief= strict=
[ "$2" != --brief ] || { brief=yes; set -- "$1" "$3"; }
[ "$2" != --strict ] || { strict=yes; set -- "$1" "$3"; }
cat > "$0.in"
[ -z "${REFUSES-}" ] || { [ "$1" = asks ] && { echo 'settings: unknown key what' >&2; exit 2; }; }
[ "$1" != asks ] || ! line=$(grep -n -m 1 bad "$0.in") || { echo "answers: line ${line%%:*}: no such verdict \"bad\"; verdicts are some" >&2; exit 2; }
[ "$1" != asks ] || ! line=$(grep -n -m 1 power::keep "$0.in") || { echo "answers: line ${line%%:*}: no such point \"power::keep\"; points are b" >&2; exit 2; }
[ -z "${NOTE-}" ] || [ "$brief" ] || echo "$NOTE" >&2
case $1 in
asks) cut -f 2 "$0.in" | grep -vxF -f - "$2" | grep -v depth | head -n "${ROUND:-3}" ;;
report)
    [ -z "$brief" ] || sed -n 's/^fail \([^\t]*\)\t\([^\t]*\).*/ fail \1 \2/p' "$0.in" | awk '{ print "verdict " NR $0 }'
    [ -n "$brief" ] || { cut -f 2 "$0.in" | LC_ALL=C sort | paste -s -d ' '; sed -n 's/^\(fail [^\t]*\)\t.*/ \1/p' "$0.in" | awk '{ print "verdict " NR $0 }'; }
    grep -q '^fail' "$0.in" && { echo 'first 1 lost of all'; echo 'reduced e=off'; exit 1; }
    [ -z "$strict" ] || { echo 'strict: no hits without faults' >&2; exit 5; } ;;
esac
exit 0
END
printf '%s\n' '#!/bin/sh' 'printf "pass\\t%s\\n" "$1"' > "$here/bin/answers"
printf '%s\n' '#!/bin/sh' 'echo "$1" >&2' > "$here/bin/tells_nothing"
printf '%s\n' '#!/bin/sh' 'echo "pass	another=off"' > "$here/bin/tells_another"
printf '%s\n' '#!/bin/sh' 'sleep 30 & echo $! > "$0.$1.pid"; wait; echo never' > "$here/bin/hangs"
# Fails for two: d=off each time with the same, e=off by a code that is told once.
cat > "$here/bin/fails" <<'END'
#!/bin/sh
code=pass
[ "$1" != d=off ] || code='fail torn'
[ "$1" != e=off ] || { mkdir "$0.once" && code='fail lost of all'; } 2> "$0.said"
printf '%s\t%s\n' "$code" "$1"
END
chmod +x "$here"/bin/*
printf '%s\n' none a=off 'b=print( x )' "c=print(it's)" d=off e=off f=off > "$here/list"
all="a=off b=print( x ) c=print(it's) d=off e=off f=off none"
# loop TRY OPTION.. [-- WORD..]
loop() {
    tries=$here/bin/$1
    shift
    PATH="$here/bin:$PATH" ./loop "${options:---progress}" "$here/list" "$here/answers" "$tries" "$@" 2> "$here/told"
    loop_status=$?
    cat "$here/told" >&2
    return $loop_status
}
told() { grep -v -e ' time left ' -e ' once more$' "$here/told"; }

is 'the loop goes on until nothing is asked' "$all" "$(loop answers 2> "$here/faults")"
is 'and tells how far it is' 'loop: 0 answered, 3 still to answer, 0 failing, time left unknown
loop: 3 answered, 3 still to answer, 0 failing, time left 0:00:00
loop: 6 answered, 1 still to answer, 0 failing, time left 0:00:00
loop: 7 answered, 0 still to answer, 0 failing, time left 0:00:00' "$(sed 's/ ([0-9.]* a second), /, /' "$here/told")"
is 'and how fast' 3 "$(grep -c '^loop: [367] answered ([0-9]*[.][0-9] a second), ' "$here/told")"
head -n 4 "$here/answers" > "$here/part" && mv "$here/part" "$here/answers"
is 'and on where it was stopped' "$all" "$(loop answers 2> "$here/faults")"
is 'with each asked once' 7 "$(wc -l < "$here/answers")"
rm "$here/answers"
is 'a script may be named by an option' "$all" "$(PATH="$here/bin:$PATH" ./loop --script "$here/bin/answers" "$here/list" "$here/answers" 2> "$here/faults")"
rm "$here/answers"
options=--strict NOTE='a note'
export NOTE
strict=$(loop answers 2> "$here/faults")
is 'a strict one tells what the report does not show' "5 $all" "$? $strict"
is 'once, as each note' 'a note,strict: no hits without faults' "$(paste -s -d , "$here/told")"
unset options NOTE
rm "$here/answers"
loop tells_nothing > "$here/said" 2>&1
is 'it stops where no answer comes' "2 loop: $here/bin/tells_nothing printed no answer: run it by hand with the first scenario that it was given: none" "$? $(tail -n 1 "$here/said")"
loop tells_another > "$here/said" 2>&1
is 'or answers to what nobody asked' "2 loop: $here/bin/tells_another answers other scenarios than those that it was given, the first of which is: none" "$? $(tail -n 1 "$here/said")"
rm "$here/answers"
REFUSES=yes
export REFUSES
loop answers > "$here/said" 2>&1
is 'or where asks refuses, which is told' '2 settings: unknown key what' "$? $(cat "$here/said")"
unset REFUSES
options=--what
loop answers > "$here/said" 2>&1
is 'unknown options are refused' "2 loop: --what: there is no such option (./loop --help lists the options)" "$? $(sed "s|$outside/||" "$here/said")"
./loop > "$here/said" 2>&1
is 'without words it tells its usage' '2 3 Usage: paklour-loop [OPTIONS] <HARNESS>' "$? $(wc -l < "$here/said") $(head -n 1 "$here/said")"
unset options

# A run that takes too long, with what it started.
head -n 3 "$here/list" > "$here/three"
is 'a run that takes too long' 'a=off b=print( x ) none' \
    "$(PATH="$here/bin:$PATH" ./loop --seconds 1 "$here/three" "$here/answers" "$here/bin/hangs" 2> "$here/told")"
is 'is unresolved' '3 unresolved' "$(cut -f 1 "$here/answers" | sort | uniq -c | sed 's/^ *//')"
is 'and told' 'loop: the run was ended after 1 seconds (--seconds): a=off' "$(LC_ALL=C sort "$here/told" | head -n 1)"
# running PROGRAM: which processes that it noted are; one that has ended may still be listed
running() { for pid in "$here/bin/$1".*.pid; do grep -hs '^State:.[^ZX]' "/proc/$(cat "$pid")/status"; done 2> "$here/ended"; }
going() { running hangs; }
is 'and its children are ended' '3 ' "$(ls "$here"/bin/hangs.*.pid | wc -l) $(going)"
rm "$here/answers" "$here"/bin/hangs.*.pid

# What has a session of its own is ended too, and so is what a run leaves that ends in time, which is told.
printf '%s\n' '#!/bin/sh' 'setsid sleep 30 & echo $! > "$0.$1.pid"; sleep 30' > "$here/bin/flees"
printf '%s\n' '#!/bin/sh' 'setsid sleep 30 & echo $! > "$0.$1.pid"; printf "pass\t%s\n" "$1"' > "$here/bin/leaves"
# As a server that is told to end, and isn't waited for.
printf '%s\n' '#!/bin/sh' 'sleep 30 & kill $!; printf "pass\t%s\n" "$1"' > "$here/bin/leaves_ending"
chmod +x "$here"/bin/*
PATH="$here/bin:$PATH" ./loop --seconds 1 "$here/three" "$here/answers" "$here/bin/flees" > "$here/said" 2> "$here/told"
is 'what has a session of its own is ended' '3 3 unresolved ' "$(ls "$here"/bin/flees.*.pid | wc -l) $(cut -f 1 "$here/answers" | sort | uniq -c | sed 's/^ *//') $(running flees)"
rm "$here/answers"
PATH="$here/bin:$PATH" ./loop "$here/three" "$here/answers" "$here/bin/leaves" > "$here/said" 2> "$here/told"
is 'and what a run leaves' '3 3 pass ' "$(ls "$here"/bin/leaves.*.pid | wc -l) $(cut -f 1 "$here/answers" | sort | uniq -c | sed 's/^ *//') $(running leaves)"
is 'which is told' 'within: killed a process that was left running: sleep: a=off' "$(LC_ALL=C sort "$here/told" | head -n 1)"
rm "$here/answers"
PATH="$here/bin:$PATH" ./loop "$here/three" "$here/answers" "$here/bin/leaves_ending" > "$here/said" 2> "$here/told"
is 'but not what ends by itself' '3 ' "$(wc -l < "$here/answers") $(cat "$here/told")"
rm "$here/answers"

# within WORD..: the status of the program that each try is run by, and what it writes
within() { out/within "$@" > "$here/said" 2>&1; echo "$? $(paste -s -d ' ' "$here/said")"; }
is 'it has the status of its command' '3 a b' "$(within 9 99 sh -c 'echo a b; exit 3')"
is 'or the signal' '137 ' "$(within 9 99 sh -c 'kill -KILL $$')"
is 'or that the time was up' '124 ' "$(within 1 99 sh -c 'trap "" TERM; sleep 30')"
is 'so many bytes are passed on' '141 y y' "$(within 9 4 yes)"
is 'what isn'\''t taken ends the command' '125 within: standard output: No space left on device' \
    "$(out/within 9 999999999 yes 2> "$here/said" > /dev/full; echo "$? $(cat "$here/said")")"
is 'what can'\''t be run' '127 within: none: No such file or directory' "$(within 9 99 none)"
is 'or its output is none of its business' '0 a' "$(within 9 - echo a)"
is 'nor its own words' '125 within: 9s: Invalid argument' "$(within 9s 99 true)"

# Without that program, as on other machines, `timeout` ends what stayed in its group.
mkdir "$here/unbuilt" && cp -R loop harness disks "$here/unbuilt"
PATH="$here/bin:$PATH" "$here/unbuilt/loop" --seconds 1 "$here/three" "$here/answers" "$here/bin/hangs" > "$here/said" 2> "$here/told"
is 'where it is not built' '3 unresolved ' "$(cut -f 1 "$here/answers" | sort | uniq -c | sed 's/^ *//') $(going)"
is 'which is told too' "loop: $here/unbuilt/out/within isn't built, so processes that a run leaves behind aren't ended: call make -C $here/unbuilt" "$(head -n 1 "$here/told")"
rm "$here/answers" "$here"/bin/hangs.*.pid

# stopped NAME SIGNAL GROUP OPTION..: a loop of two runs at once that gets the signal, with its group where GROUP is `-`: its status, how many
# runs had begun, how many answers there are, and what is left running
stopped() {
    name=$1
    signal=$2
    group=$3
    shift 3
    # A signal that whoever runs the tests ignores, as nohup does, could not be trapped.
    TMPDIR=$here PATH="$here/bin:$PATH" env --default-signal=HUP,INT,TERM setsid ./loop -j 2 "$@" "$here/three" "$here/answers" "$here/bin/hangs" > "$here/told" 2>&1 &
    stopped=$!
    tries=0
    until [ "$(cat "$here"/bin/hangs.*.pid 2> "$here/said" | wc -l)" -eq 2 ] || [ "$tries" -ge 300 ]; do sleep 0.1; tries=$((tries + 1)); done
    kill "-$signal" "$group$stopped"
    { wait "$stopped"; } 2> "$here/said"
    ended=$?
    tries=0
    while [ -n "$(going)" ] && [ "$tries" -lt 50 ]; do sleep 0.1; tries=$((tries + 1)); done
    case $signal in HUP) expected=129 ;; INT) expected=130 ;; KILL) expected=137 ;; TERM) expected=143 ;; esac
    is "$name" "$expected 2 0 " "$ended $(ls "$here"/bin/hangs.*.pid | wc -l) $(wc -l < "$here/answers") $(going)"
    [ "$signal" = KILL ] || is "$name, and tells what is kept" "loop: stopped by SIG$signal: 0 answers are kept in $here/answers, of which 0 fail; the same command goes on from there" \
        "$(grep '^loop: stopped' "$here/told")"
    rm "$here/answers" "$here"/bin/hangs.*.pid
}
stopped 'a loop that is stopped, as by Ctrl-C, ends what is running' TERM -
stopped 'and so where the loop alone gets the signal' TERM ''
stopped 'or loses its terminal' HUP ''
stopped 'or by Ctrl-C' INT ''
stopped 'or is killed, which it cannot see' KILL ''

# Killed, it begins nothing more either.
printf '%s\n' '#!/bin/sh' 'echo "$1" >> "$0.begun"; sleep 2; printf "pass\t%s\n" "$1"' > "$here/bin/lasts" && chmod +x "$here/bin/lasts"
TMPDIR=$here PATH="$here/bin:$PATH" ROUND=7 ./loop -j 2 "$here/list" "$here/answers" "$here/bin/lasts" > "$here/told" 2>&1 &
killed=$!
tries=0
until [ "$(cat "$here/bin/lasts.begun" 2> "$here/said" | wc -l)" -eq 2 ] || [ "$tries" -ge 300 ]; do sleep 0.1; tries=$((tries + 1)); done
kill -KILL "$killed"
{ wait "$killed"; } 2> "$here/said"
sleep 4
is 'after a loop that was killed no run is begun' 2 "$(wc -l < "$here/bin/lasts.begun")"
rm -f "$here/answers"

# Two loops over the same answers.
PATH="$here/bin:$PATH" ./loop "$here/list" "$here/answers" "$here/bin/hangs" > "$here/said" 2>&1 &
first=$!
tries=0
until [ -n "$(going)" ] || [ "$tries" -ge 300 ]; do sleep 0.1; tries=$((tries + 1)); done
options=--brief
loop answers > "$here/said" 2>&1
is 'a second loop over the same answers' "2 loop: another loop is writing to $here/answers: wait until it has ended, or stop it" "$? $(cat "$here/said")"
unset options
kill "$first"
{ wait "$first"; } 2> "$here/said"
is 'but not once the first has ended' "$all" "$(loop answers 2> "$here/faults")"
rm "$here/answers" "$here"/bin/hangs.*.pid

# The first answer that can't be read ends the loop, and so does one that is too long or doesn't end.
cat > "$here/bin/misspells" <<'END'
#!/bin/sh
# Is wrong at the second of seven, and slow from there on.
echo "$1" >> "$0.begun"
case $(wc -l < "$0.begun") in
1) printf 'pass\t%s\n' "$1" ;;
2) sleep 2; printf 'bad\t%s\n' "$1" ;;
*) sleep 5; printf 'pass\t%s\n' "$1" ;;
esac
END
# 1048576 bytes with the end of the line, and one more
cat > "$here/bin/answers_much" <<'END'
#!/bin/sh
printf 'pass\t%s\t' "$1"
head -c $((1048576 + ${MORE:-0} - 7 - ${#1})) /dev/zero | tr '\0' x
echo
END
printf '%s\n' '#!/bin/sh' 'yes x | tr -d "\n"' > "$here/bin/answers_on"
printf '%s\n' '#!/bin/sh' 'printf "pass\t%s" "$1"' > "$here/bin/ends_no_line"
chmod +x "$here"/bin/*
PATH="$here/bin:$PATH" ROUND=7 ./loop -j 1 "$here/list" "$here/answers" "$here/bin/misspells" > "$here/said" 2>&1
is 'an answer that cannot be read' '2 answers: line 2: no such verdict "bad"; verdicts are some' "$? $(cat "$here/said")"
is 'ends the loop before the round does' yes "$([ "$(wc -l < "$here/answers")" -lt 7 ] && echo yes)"
printf '%s\n' '#!/bin/sh' 'printf "pass\t%s\tb;2*power::keep;b\n" "$1"' > "$here/bin/keeps"
chmod +x "$here/bin/keeps"
rm -f "$here/answers"
printf '%s\n' 'depth = 1 # "b"' none > "$here/named"
is 'a point that the settings lack is named' "answers: line 1: no such point \"power::keep\"; points are b,loop: line 1 hits power::keep: add it to the points of $here/named" \
    "$(PATH="$here/bin:$PATH" ./loop "$here/named" "$here/answers" "$here/bin/keeps" 2>&1 | paste -s -d ,)"
rm "$here/answers"
echo none > "$here/one"
PATH="$here/bin:$PATH" ./loop "$here/one" "$here/answers" "$here/bin/answers_much" > "$here/said" 2>&1
is 'an answer of 1048576 bytes' '0 1048576' "$? $(wc -c < "$here/answers")"
rm "$here/answers"
PATH="$here/bin:$PATH" MORE=1 ./loop "$here/one" "$here/answers" "$here/bin/answers_much" > "$here/said" 2>&1
is 'is the longest' "2 0 loop: $here/bin/answers_much printed more than 1048576 bytes for the scenario none" "$? $(wc -c < "$here/answers") $(cat "$here/said")"
rm "$here/answers"
PATH="$here/bin:$PATH" timeout 30 ./loop --seconds 20 "$here/one" "$here/answers" "$here/bin/answers_on" > "$here/said" 2>&1
is 'and one that goes on is cut' "2 0 loop: $here/bin/answers_on printed more than 1048576 bytes for the scenario none" "$? $(wc -c < "$here/answers") $(cat "$here/said")"
rm "$here/answers"
PATH="$here/bin:$PATH" ./loop "$here/one" "$here/answers" "$here/bin/ends_no_line" > "$here/said" 2>&1
is 'an answer without its end' "2 0 loop: $here/bin/ends_no_line printed no line feed at the end of its answer to the scenario none" "$? $(wc -c < "$here/answers") $(cat "$here/said")"
rm -f "$here/answers"

# No room: a file may have 512 bytes, so of the answers of 406 the first fits.
long=$(head -c 400 /dev/zero | tr '\0' x)
printf '%s\n' "1$long" "2$long" "3$long" "4$long" > "$here/wide"
(trap '' XFSZ; ulimit -f 1; PATH="$here/bin:$PATH" exec ./loop -j 1 "$here/wide" "$here/answers" "$here/bin/answers") > "$here/said" 2>&1
is 'where nothing more can be written the loop ends' "2 loop: $here/answers: an answer can't be written: File too large" "$? $(grep '^loop: ' "$here/said")"
is 'and what was torn is taken back' "pass	1$long" "$(cat "$here/answers")"
is 'so that it can go on' "1$long 2$long 3$long 4$long" "$(PATH="$here/bin:$PATH" ./loop "$here/wide" "$here/answers" "$here/bin/answers" 2>&1)"
rm "$here/answers"

# What fails is run once more.
loop fails > "$here/said" 2>&1
is 'a plan that fails but once' '5 loop: the verdict changed from fail lost of all to pass: e=off' "$? $(told)"
is 'after the report' 'reduced e=off' "$(grep -v '^loop' "$here/said" | tail -n 1)"
is 'which a line of progress says' 'loop: 2 failing plans are run once more' "$(grep 'once more$' "$here/said")"
is 'which may be the brief one' 'fail lost of all e=off' \
    "$(PATH="$here/bin:$PATH" ./loop --brief --no-recheck "$here/list" "$here/answers" "$here/bin/fails" | sed -n 's/^verdict [0-9]* \(fail lost\)/\1/p')"
options=--no-recheck
loop fails > "$here/said" 2>&1
is 'or not, by an option' '1 ' "$? $(told)"
unset options
sed -i '/^fail lost/d' "$here/answers"
rmdir "$here/bin/fails.once"
printf '#!/bin/sh\nprintf "fail lost of all\\t%%s\\n" "$1"\n' > "$here/bin/fails_again"
chmod +x "$here/bin/fails_again"
sed -i 's/^fail torn/fail lost of all/' "$here/answers"
loop fails_again > "$here/said" 2>&1
is 'where all fail again, nothing is told' '1 ' "$? $(told)"
rm "$here/answers"

# With a depth, answers tell hits: TRY is asked for them.
printf '%s\n' '#!/bin/sh' 'printf "pass\t%s\t%s\n" "$1" "${HITS-none}"' > "$here/bin/tells_hits"
cat > "$here/bin/ends" <<'END'
#!/bin/sh
# Answers as it is ended.
trap 'printf "unresolved\t%s\tlibc::open\n" "$1"; exit' TERM
sleep 30 &
wait
END
# Fails with hits that are others the second time; and d=off always with the same.
cat > "$here/bin/drifts" <<'END'
#!/bin/sh
hits=a
[ "$1" = d=off ] || ! mkdir "$0.$1" 2> "$0.said" || hits=2*a
printf 'fail lost of all\t%s\t%s\n' "$1" "$hits"
END
chmod +x "$here/bin/tells_hits" "$here/bin/ends" "$here/bin/drifts"
HITS=before
export HITS
PATH="$here/bin:$PATH" ./loop "$here/three" "$here/answers" "$here/bin/tells_hits" > "$here/said" 2>&1
is 'without a depth no hits are asked for' none "$(cut -f 3 "$here/answers" | sort -u)"
unset HITS
rm "$here/answers"
PATH="$here/bin:$PATH" ./loop --hits "$here/three" "$here/answers" "$here/bin/tells_hits" > "$here/said" 2>&1
is 'unless the loop is told so' yes "$(cut -f 3 "$here/answers" | sort -u)"
rm "$here/answers"
PATH="$here/bin:$PATH" ./loop --hits --seconds 1 "$here/three" "$here/answers" "$here/bin/hangs" > "$here/said" 2> "$here/told"
is 'and then a run that was ended tells none' 'unresolved	a=off' "$(grep 'a=off' "$here/answers")"
rm "$here/answers" "$here"/bin/hangs.*.pid
for line in 'depth = 2' '  "depth"	=2' "'depth' = 1"; do
    { cat "$here/three"; echo "$line"; } > "$here/deep"
    PATH="$here/bin:$PATH" ./loop "$here/deep" "$here/answers" "$here/bin/tells_hits" > "$here/said" 2>&1
    is "with $line they are" yes "$(cut -f 3 "$here/answers" | sort -u)"
    rm "$here/answers"
done
{ cat "$here/three"; echo 'depth = 2'; } > "$here/deep"
PATH="$here/bin:$PATH" ./loop --seconds 1 "$here/deep" "$here/answers" "$here/bin/hangs" > "$here/said" 2> "$here/told"
is 'of a run that was ended nobody knows the hits' 'unresolved	a=off	-' "$(grep 'a=off' "$here/answers")"
rm "$here/answers" "$here"/bin/hangs.*.pid
PATH="$here/bin:$PATH" ./loop --seconds 1 "$here/deep" "$here/answers" "$here/bin/ends" > "$here/said" 2> "$here/told"
is 'unless it tells them' 'unresolved	a=off	libc::open' "$(grep 'a=off' "$here/answers")"
is 'and then nothing else is told' '' "$(grep ended "$here/told")"
rm "$here/answers"
printf '%s\n' d=off e=off 'depth = 2' > "$here/deep"
PATH="$here/bin:$PATH" ./loop "$here/deep" "$here/answers" "$here/bin/drifts" > "$here/said" 2> "$here/told"
is 'a second run with other hits is told' '5 loop: the hits changed from 2*a to a: e=off' "$? $(cat "$here/told")"
rm "$here/answers"

# No control byte of an answer is shown.
printf '%s\n' '#!/bin/sh' 'mkdir "$0.once" 2> "$0.said" && printf "fail lost of all\t%s\n" "$1" || printf "pass\033[2J\t%s\n" "$1"' > "$here/bin/colours"
chmod +x "$here/bin/colours"
echo e=off > "$here/one"
PATH="$here/bin:$PATH" ./loop "$here/one" "$here/answers" "$here/bin/colours" > "$here/said" 2> "$here/told"
is 'an answer is shown without its control bytes' '5 loop: the verdict changed from fail lost of all to pass\x1b[2J: e=off' "$? $(cat "$here/told")"
rm "$here/answers"

# Lines that no single write takes stay whole.
long=$(head -c 60000 /dev/zero | tr '\0' x)
for number in 1 2 3 4 5 6 7 8; do echo "n$number=print($long)"; done > "$here/long"
PATH="$here/bin:$PATH" ROUND=8 ./loop -j 8 "$here/long" "$here/answers" "$here/bin/answers" > "$here/said"
is 'long answers stay whole' "$(cksum < "$here/long")" "$(cut -f 2 "$here/answers" | LC_ALL=C sort | cksum)"
rm "$here/answers"

# GNU parallel, here and on two other machines: folders, which a program in place of ssh enters.
if parallel --version 2> "$here/said" | grep -q "GNU parallel"; then # another program has the name too
    ROUND=7
    export ROUND
    is 'GNU parallel runs them' "$all" "$(PATH="$here/bin:$PATH" ./loop --engine parallel "$here/list" "$here/answers" "$here/bin/answers")"
    is 'each once' 7 "$(wc -l < "$here/answers")"
    rm "$here/answers"
    cat > "$here/bin/enters" <<'END'
#!/bin/bash
# enters WORD.. MACHINE -- COMMAND..: as ssh, whose logins have a SHELL, but into a folder of that name beside this program
while [ "$1" = -l ] || [ "$1" = -p ]; do shift 2; done
machine=$1
shift
[ "$1" != -- ] || shift
cd "${0%/*}/../$machine" && SHELL=/bin/bash exec bash -c "$*"
END
    chmod +x "$here/bin/enters"
    for machine in first second; do
        mkdir "$here/$machine"
        printf '#!/bin/sh\nsleep 0.1; pwd >> where; printf "pass\\t%%s\\n" "$1"\n' > "$here/$machine/try.sh"
        chmod +x "$here/$machine/try.sh"
    done
    is 'on two machines' "$all" "$(PATH="$here/bin:$PATH" ./loop -j 1 --engine parallel "$here/list" "$here/answers" ./try.sh -- \
        --sshlogin "$here/bin/enters first" --sshlogin "$here/bin/enters second" 2> "$here/faults")"
    is 'that both did some' "7 first second" "$(cat "$here/first/where" "$here/second/where" | wc -l) $(
        cat "$here/first/where" "$here/second/where" | sort -u | sed 's|.*/||' | paste -s -d ' ')"
    rm "$here/answers"
    is 'and are asked for hits' yes "$(PATH="$here/bin:$PATH" ./loop -j 1 --engine parallel "$here/deep" "$here/answers" "$here/bin/tells_hits" \
        -- --sshlogin "$here/bin/enters first" --sshlogin "$here/bin/enters second" > "$here/said" 2> "$here/faults"; cut -f 3 "$here/answers" | sort -u)"
    rm "$here/answers"
    unset ROUND
    stopped 'GNU parallel is ended with the loop' TERM '' --engine parallel
else
    echo 'skipped the loop with GNU parallel: it is not installed'
fi
