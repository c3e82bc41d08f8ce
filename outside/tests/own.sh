# Points of the program's own: the text of a link below /.paklour, which no system has. Sourced by `test`.
point() { printf 'target /.paklour/%s 128' "$1"; }
# told: the hits, each with its point, which hit of that point it is, what the scenario did, its file and its result
told() { cut -f 2-5,8 "$here/run/trace" | tr '\t' ' ' | sed 's/ *$//' | paste -s -d , ; }

# points NAME SCENARIO SAID: three hits of the point `a`
points() {
    # shellcheck disable=SC2046
    try "$2" create new $(point a) $(point a) $(point a)
    is "$1" "create 0,$3" "$said"
}
is 'outside of Paklour the program goes on' 'target ENOENT' "$($component target /.paklour/a 128)"
points 'without a fault too' none 'target ENOENT,target ENOENT,target ENOENT'
is 'and each is a hit among the others' 'sys::open 1 go new 0,a 1 go - ENOENT,a 2 go - ENOENT,a 3 go - ENOENT' "$(told | sed 's/new [0-9]*/new 0/')"
points 'a return fails' 'a=1*off->1*return' 'target ENOENT,target EIO,target ENOENT'
is 'which its line says' 'a 1 go - ENOENT,a 2 return - EIO,a 3 go - ENOENT' "$(told | cut -d , -f 2-)"
points 'a sticky one fails each time' 'a=1*off->return' 'target ENOENT,target EIO,target EIO'
points 'a text is given' 'a=1*return(no room)->1*return()->return((x))' 'no room,target 7,target 0,(x),target 3'
is 'as its lines say' 'a 1 return(no room) - 7,a 2 return() - 0,a 3 return((x)) - 3' "$(told | cut -d , -f 2-)"
points 'names of errors are texts here' 'a=1*return(ENOSPC)->1*return(HALF)->return(FULL)' 'ENOSPC,target 6,HALF,target 4,FULL,target 4'
points 'other tasks let it go on' 'a=1*off(x)->1*yield->print(x)' 'target ENOENT,target ENOENT,target ENOENT'
begun_at=$(date +%s%N)
points 'a delay comes before that' 'a=1*sleep(100)->1*delay(100)' 'target ENOENT,target ENOENT,target ENOENT'
is 'and takes its time' yes "$([ $(($(date +%s%N) - begun_at)) -ge 200000000 ] && echo yes)"
points 'a panic ends the run' 'a=1*off->panic' 'target ENOENT'
is 'with its status' '99 a 1 go - ENOENT,a 2 panic - -' "$status $(told | cut -d , -f 2-)"
try 'a=pause' create new target /.paklour/a 9
is 'and so does a pause, with another' '97 create 0' "$status $said"

# shellcheck disable=SC2046
try 'a=1*return(KILL)' create new child $(point a) write x parent write y
is 'one process is killed' 'create 0,child 0,write 1' "$said"
is 'of which the trace has no result' 'a 1 return(KILL) - -' "$(told | cut -d , -f 2)"
new
run 'a=1*return(TERM)' python3 -c '
import os, signal
signal.signal(signal.SIGTERM, lambda *_: print("asked", flush=True))
open("new", "w").close()
for _ in range(2):
    try:
        os.readlink("/.paklour/a")
    except OSError as error:
        print(error.errno, flush=True)'
is 'or gets SIGTERM, and goes on' 'asked,2,2' "$said"

longest=$(repeated 127 x)
points '127 bytes of a text' "a=1*return($longest)" "$longest,target 127,target ENOENT,target ENOENT"
try "b=off;a=off->return(${longest}x)" create new
is 'and no more' '98 faults: scenario: TooLong entry 2 term 2' "$status $faults"
try 'a=return(longer)' create new target /.paklour/a 4 target /.paklour/a 0 target /.paklour/a -1
is 'of a text the program gets what it has room for' 'create 0,long,target 4,target EINVAL,target EINVAL' "$said"
is 'and only what has room is a hit' 'a 1 return(longer) - 4' "$(told | cut -d , -f 2-)"
new
run 'a=return(x)' python3 -c '
import ctypes
open("new", "w").close()
libc = ctypes.CDLL(None, use_errno=True)
print(libc.readlink(b"/.paklour/a", ctypes.c_void_p(1), 10), ctypes.get_errno())'
is 'where it has none it gets EFAULT' '-1 14' "$said"

# Names.
long=$(repeated 200 x)
new
under "$supervisor" python3 -c 'import os, sys
open("new", "w").close()
for name in sys.argv[1:]:
    try:
        os.readlink("/.paklour/" + name)
    except OSError as error:
        print(error.errno, flush=True)' "$long" 'store::flush' 'a/b' 'ä "x\' 2a own > "$here/said" 2> "$here/faults"
is 'names of points' "$long,store::flush,a/b,ä \"x\\,2a,own" "$(cut -f 2 "$here/run/trace" | sed 1d | paste -s -d ,)"
is 'nothing else is told' '' "$(cat "$here/faults")"
for name in '' "${long}x" 'a;b' 'a=b' ' a' 'a ' '2*a' "$(printf 'a\tb')" "$(printf '\377')" "$(printf '\355\240\200')" sys::write power::keep order::next work::next; do
    new
    run none "$component" create new target "/.paklour/$name" 128
    is "no name: '$name'" "create 0,target ENOENT 1 faults: not seen: a point of a name that none can have: $(printf '%s' "$name" | LC_ALL=C tr '\t\200-\377' '?' | cut -b -160)" \
        "$said $(wc -l < "$here/run/trace") $faults"
done
try 'work::after=off;a=off' create new
is 'a scenario that has such a name is told so' 'faults: never acts: work::after' "$faults"
try 'a=off->20%return' create new
is 'shares are refused here too' '98 faults: scenario: NoShares entry 1 term 2' "$status $faults"
new
under FAULTS_POINTS=file FAILPOINTS='a@b=1*return;sys::open@new=1*off->1*return' "$supervisor" "$component" create new target /.paklour/a@b 9 create new > "$here/said"
is 'a name has no file where others have one' 'create 0,target EIO,create EIO sys::open@new,a@b,sys::open@new' \
    "$(paste -s -d , "$here/said") $(cut -f 2 "$here/run/trace" | paste -s -d ,)"

# Any other link is as it was.
new
ln -s "$here/data/old" "$here/data/way"
run none "$component" create new target way 99 target old 99 target none 99 target /.paklours/a 99 target /.paklour 99 target "$here/data/way" 3
is 'links of the system' "create 0,$here/data/old,target ${#here},target EINVAL,target ENOENT,target ENOENT,target ENOENT,${here%"${here#???}"},target 3" \
    "$(echo "$said" | sed "s/target $((${#here} + 9)),/target ${#here},/")"
is 'are no hits' 1 "$(wc -l < "$here/run/trace")"

# Processes and threads, in an order.
cat > "$here/several.py" <<'end'
import os
import threading


def points(name):
    for number in range(3):
        try:
            os.readlink(f"/.paklour/{name}")
        except OSError:
            pass
        with open(f"{name}{number}", "w"):
            pass


def process(name):
    child = os.fork()
    if child:
        return
    threads = [threading.Thread(target=points, args=[f"{name}{each}"]) for each in range(3)]
    for thread in threads:
        thread.start()
    for thread in threads:
        thread.join()
    os._exit(0)


for name in "ab":
    process(name)
for _ in "ab":
    os.wait()
points("parent")
end
ordered() {
    new
    under FAILPOINTS='a1=1*off->1*return' timeout -s KILL 60 "$supervisor" --order settled --pin python3 "$here/several.py" 2> "$here/faults"
    cut -f 2-5 "$here/run/trace" > "$here/told" # without the numbers of descriptors: a close has no order
    cat "$here/told"
}
first=$(ordered)
again=
for each in 1 2 3 4 5; do [ "$(ordered)" = "$first" ] || again=differs; done
is 'processes and threads hit them in one order' "21  $(printf 'a1\t2\treturn\t-')" "$(grep -c -v sys:: "$here/told") $again $(grep return "$here/told")"

# Where faults act, and promises.
# within SCENARIO STEP..: the component's steps on new files, where a beginning is awaited
within() {
    new
    scenario=$1
    shift
    under FAULTS_BEGIN=1 FAILPOINTS="$scenario" timeout -s KILL 60 "$supervisor" "$component" "$@" > "$here/said" 2> "$here/faults"
    status=$?
    said=$(paste -s -d , "$here/said")
    faults=$(cat "$here/faults")
}
begin='target /.paklour/=begin 9'
end='target /.paklour/=end 9'
# shellcheck disable=SC2086
within 'sys::open=1*return;a=return;sys::write=1*off->panic' create x write x $(point a) $begin create y create z write z $end $(point a) write z create w fsync
is 'faults act between a beginning and an end' \
    '0 create 0,write 1,target ENOENT,target ENOENT,create EIO,create 0,write 1,target ENOENT,target ENOENT,write 1,create 0,fsync 0' "$status $said"
is 'and what is outside has no hits' 'sys::open 1 return y EIO,sys::open 2 go z 7,sys::write 1 go z 1' "$(told | sed 's/z [0-9]*,/z 7,/')"
is 'what was done before lasts, and of what came behind what was synced' \
    'create z;length of z 1;length of z 2;block 0 of z as after write 1;block 0 of z as after write 2' "$(pending | sed 's/[0-9]* \([clb]\)/\1/g')"
is 'so that a power cut keeps it' 'old=0123456789 sub/ sub/in=inside w= x=x ' "$(left)"
# shellcheck disable=SC2086
within 'sys::write=1*return(FULL)' create x $begin create y write y $end create z write z $begin write z create v
is 'a disk that got full there is full there alone' '0 create 0,target ENOENT,create 0,write ENOSPC,target ENOENT,create 0,write 1,target ENOENT,write ENOSPC,create ENOSPC' \
    "$status $said"
# shellcheck disable=SC2086
within none create x write x
is 'a run that never says where faults begin' "98 faults: not seen: where faults begin, though =begin was awaited, in $component" "$status $faults"
# shellcheck disable=SC2086
within none create x $begin $end create y
is 'and one that makes no call there' "98 faults: not seen: any call under FAULTS_ROOT of $component" "$status $faults"
# shellcheck disable=SC2086
within 'sys::write=1*panic' create x $begin create y child $end write a parent write b
is 'an end in one process holds for all' '0 create 0,target ENOENT,create 0,target ENOENT,write 1,child 0,write 1' "$status $said"
# shellcheck disable=SC2086
try none create x write x $begin write y
is 'where none is awaited, hits before count, and what was done lasts all the same' \
    'sys::open,sys::write,sys::write faults: not seen: where faults begin, since it isn'"'"'t awaited by FAULTS_BEGIN=1: =begin length of x 2;block 0 of x as after write 2' \
    "$(cut -f 2 "$here/run/trace" | paste -s -d ,) $faults $(pending | sed 's/[0-9]* \([clb]\)/\1/g')"
try none create x target '/.paklour/=say/saved x' 9 target /.paklour/=say/ 9 target /.paklour/=other 9
is 'a promise is a line of the output' "create 0,saved x,target ENOENT,,target ENOENT,target ENOENT faults: not seen: what this means: =other" "$said $faults"
is 'and no hit' 1 "$(wc -l < "$here/run/trace")"
