# What FAILPOINTS may hold, and what is refused. Sourced by `test`.

# acts NAME SCENARIO: the scenario fails the second write alone
acts() {
    try "$2" create a write b write c write d
    is "$1" 'create 0,write 1,write EIO,write 1' "$said"
}
acts 'blanks round names and terms' " 
 sys::write	= 1*off ->
1*return ;"
acts 'blank pieces' ';; sys::write=1*off->1*return; ;'
acts 'leading zeros' 'sys::write=0100.0000%01*off->100%0001*return'
acts 'more than the whole share' 'sys::write=250%1*off->99999999999999999999%1*return'
acts 'a share of nothing' 'sys::write=0%panic->1*off->0.0000%3*return(ENOSPC)->1*return'
acts 'a name again takes its last chain' 'sys::write=panic;sys::open=off;sys::write=1*off->1*return'
acts 'names of others' 'store::flush=3*return(x(y))->panic;sys::write=1*off->1*return;sys::write =off;a->b=off; sys::write=1*off->1*return'
acts 'arguments that are dropped' 'sys::write=1*off(x)->1*return(EIO)'
try 'sys::wirte=panic' create a write b
is 'an unknown name of the supervisor never acts' 'create 0,write 1 faults: never acts: sys::wirte' "$said $faults"
try '' create a
is 'an empty text' 'create 0 0' "$said $status"
try none create a
is 'the empty scenario, written as none' 'create 0 0' "$said $status"

# refused SCENARIO WHAT: nothing runs, and the refusal tells where
refused() {
    try "$1" create a
    is "refused: $2" "98  faults: scenario: $2" "$status $said $faults"
}
refused 'sys::open' 'NoAction entry 1 term 0'
refused ';b' 'NoAction entry 2 term 0'
refused '=off' 'NoName entry 1 term 0'
refused 'sys::open=return(x' 'Parentheses entry 1 term 1'
refused 'a=off;b=off->panic(x)y' 'Parentheses entry 2 term 2'
refused 'a=3*20%off' 'BadPercent entry 1 term 1'
refused 'a=.5%off' 'BadPercent entry 1 term 1'
refused 'a=5.%off' 'BadPercent entry 1 term 1'
refused 'a=250.00000%off' 'BadPercent entry 1 term 1'
refused 'a=20 %off' 'BadPercent entry 1 term 1'
refused 'a=1*off->4294967296*off' 'BadCount entry 1 term 2'
refused 'a=*off' 'BadCount entry 1 term 1'
refused 'a=+1*off' 'BadCount entry 1 term 1'
refused 'a=off->' 'UnknownTask entry 1 term 2'
refused 'a=20%%off' 'UnknownTask entry 1 term 1'
refused 'a=1**off' 'UnknownTask entry 1 term 1'
refused 'a=return (x)' 'UnknownTask entry 1 term 1'
refused 'a=Return' 'UnknownTask entry 1 term 1'
refused 'a=sleep' 'BadMillis entry 1 term 1'
refused 'a=off;;a=delay(1000000001)' 'BadMillis entry 3 term 1'
refused 'a=sleep()' 'BadMillis entry 1 term 1'
refused 'a=sleep;b' 'BadMillis entry 1 term 1'
refused 'sys::open=off;sys::write=1*off->20%return' 'NoShares entry 2 term 2'
refused 'sys::open=return(EWHAT)' 'UnknownError entry 1 term 1'
refused 'sys::fsync=1*off->return(HALF)' 'UnknownError entry 1 term 2'

# repeated COUNT TEXT
repeated() { awk -v count="$1" -v text="$2" 'BEGIN { while (count-- > 0) printf "%s", text }'; }
try "$(repeated 256 'a=off;')" create a
is '256 entries' 'create 0 0' "$said $status"
refused "$(repeated 256 'a=off;');b" 'TooMany entry 258 term 0'
refused "a=off$(repeated 256 '->off')" 'TooMany entry 1 term 257'
fifteen=$(repeated 16 "a=yield$(repeated 255 '->yield');")
try "$fifteen" create a
is '4096 faults' 'create 0 0' "$said $status"
refused "${fifteen}a=off->yield" 'TooMany entry 17 term 2'
refused "a=off$(repeated 65532 ' ')" 'TooLong entry 0 term 0'
try "a=off$(repeated 65531 ' ')" create a
is '65536 bytes' 'create 0 0' "$said $status"

# The variables beside FAILPOINTS.
bare() { (cd "$here/data" && env "$@" "$supervisor" "$component" create a) 2>&1; }
is 'no FAULTS_ROOT' "faults: FAULTS_ROOT: this variable isn't set" "$(bare)"
is 'no FAULTS_RUN' "faults: FAULTS_RUN: this variable isn't set" "$(bare FAULTS_ROOT="$here/data")"
is 'FAULTS_RUN of no run' "faults: FAULTS_RUN isn't a folder that powercut begin made: $here/data" "$(bare FAULTS_ROOT="$here/data" FAULTS_RUN="$here/data")"
new
is 'FAULTS_ROOT of nothing' "faults: FAULTS_ROOT isn't a folder: $here/none" "$(bare FAULTS_ROOT="$here/none" FAULTS_RUN="$here/run")"
for other in "$here" "$here/data/sub"; do
    is "FAULTS_ROOT is not the folder that is cut: $other" "faults: FAULTS_ROOT isn't the folder that powercut begin was given: $(realpath "$other")" \
        "$(bare FAULTS_ROOT="$other" FAULTS_RUN="$here/run")"
done
is 'but it may have another name' 'create 0' "$(ln -s "$here/data" "$here/way" && bare FAULTS_ROOT="$here/way" FAULTS_RUN="$here/run"; rm "$here/way")"

# The census.
try none mkdir b create a write b write c fsync rename a sub/b folder . fsync
is 'a census' 'points = ["sys::open", "sys::write", "sys::fsync", "sys::rename", "sys::mkdir"]
hits = [2, 2, 2, 1, 1]' "$(./census "$here/run/trace")"
try 'sys::write=1*off->1*return(ENOSPC)' create a write b write c
./census "$here/run/trace" > "$here/said" 2>&1
is 'no census of a run with faults' "2 census: $here/run/trace line 3: a fault acts here (return(ENOSPC)); use the trace of a run without faults" "$? $(cat "$here/said")"
printf '' > "$here/nothing"
is 'no census of nothing' "census: $here/nothing: this trace has no hits" "$(./census "$here/nothing" 2>&1)"
printf '1\tstore::flush\t1\tgo\tx\t1\t-\t2\n2\tsys::read\t1\tgo\tx\t1\t-\t2\n3\tstore::flush\t2\tgo\tx\t1\t-\t2\n' > "$here/mixed"
is 'points of the program'"'"'s own come last' 'points = ["sys::read", "store::flush"]
hits = [1, 2]' "$(./census "$here/mixed")"

# With a depth a fault may lead to any point of the supervisor, and then to those of the trace.
files='"sys::open", "sys::read", "sys::write", "sys::fsync", "sys::truncate", "sys::rename", "sys::link", "sys::unlink", "sys::mkdir"'
files="$files, \"sys::rmdir\", \"sys::symlink\""
is 'the points of settings with a depth' "points = [$files, \"store::flush\", \"power::keep\"]" "$(./census --points "$here/mixed")"
is 'with those of sockets' "points = [$files, \"sys::connect\", \"sys::accept\", \"sys::send\", \"sys::recv\", \"store::flush\", \"power::keep\"]" \
    "$(FAULTS_SOCKETS=1 ./census --points "$here/mixed")"
printf '1\tsys::write\t1\tgo\tx\t1\t-\t2\n2\tpower::keep\t1\tgo\tx\t1\t-\t2\n3\tb\t1\tgo\tx\t1\t-\t2\n' > "$here/cut"
is 'and what a power cut asks last' "points = [$files, \"b\", \"power::keep\"]" "$(./census --points "$here/cut")"

printf '1\tsys::write\t1\tgo\tx\t1\t-\t2\n2\tb\t1\tgo\t-\t1\t-\tENOENT\n' > "$here/sound"
is 'or would ask of another run' "points = [$files, \"b\", \"power::keep\"]" "$(./census --points "$here/sound")"
is 'but not of the one without a depth' 'points = ["sys::write", "b"]' "$(./census "$here/sound" | head -n 1)"

# Names that a program takes: a text of TOML has `"` and `\` behind a `\`. What no settings have, or hits would say otherwise, is refused.
printf '1\ta", "b\t1\tgo\tx\t1\t-\t2\n2\tx\\y\t1\tgo\tx\t1\t-\t2\n3\t2x*\t1\tgo\tx\t1\t-\t2\n' > "$here/named"
is 'a name with quotes is one point' 'points = ["a\", \"b", "x\\y", "2x*"]' "$(./census "$here/named" | head -n 1)"
is 'and behind those of the supervisor' "points = [$files, \"a\\\", \\\"b\", \"x\\\\y\", \"2x*\", \"power::keep\"]" "$(./census --points "$here/named")"
is 'in hits it stands as it is' 'a", "b;x\y;2x*' "$(./census --hits "$here/named")"
printf '1\tsys::write@a"b\t1\tgo\tx\t1\t-\t2\n' > "$here/named"
is 'and in a table' '"sys::write@a\"b" = ["return", "return(ENOSPC)", "return(HALF)", "panic"]' "$(./census --kinds "$here/named" | tail -n 1)"
long=$(head -c 201 /dev/zero | tr '\0' x)
for name in 'a;b' 'a=b' '2*b' '30*' '' ' a' 'a ' "$long"; do
    printf '1\tb\t1\tgo\tx\t1\t-\t2\n2\t%s\t1\tgo\tx\t1\t-\t2\n' "$name" > "$here/named"
    for option in '' --points --kinds --hits; do
        ./census $option "$here/named" > "$here/said" 2>&1
        is "no census $option of '$name'" "2 census: $here/named line 2: neither settings nor answers can name this point: $name" "$? $(cat "$here/said")"
    done
done
printf '1\ta\033[2J\t1\tgo\tx\t1\t-\t2\n' > "$here/named"
is 'no control byte is shown' "census: $here/named line 1: neither settings nor answers can name this point: a\\u001B[2J" "$(./census --hits "$here/named" 2>&1)"

# What is tried at the points of a trace.
try none mkdir b create a write b write c fsync rename a sub/b folder . fsync
is 'kinds where calls take room' "points = [$files, \"power::keep\"]

[outside.kinds]
\"sys::open\" = [\"return\", \"return(ENOSPC)\", \"panic\"]
\"sys::write\" = [\"return\", \"return(ENOSPC)\", \"return(HALF)\", \"panic\"]
\"sys::rename\" = [\"return\", \"return(ENOSPC)\", \"panic\"]
\"sys::mkdir\" = [\"return\", \"return(ENOSPC)\", \"panic\"]" "$(./census --kinds "$here/run/trace")"
printf '1\tsys::open@a\t1\tgo\ta\t1\tO_RDONLY\t3\n2\tsys::read@a\t1\tgo\ta\t1\t-\t3\n3\tsys::open@b\t1\tgo\tb\t1\tO_WRONLY|O_CREAT\t3\n' > "$here/by_file"
printf '4\tsys::symlink@c\t1\tgo\tc\t1\t-\t0\n5\tsys::link@d\t1\tgo\td\t1\t-\t0\n6\tsys::truncate@b\t1\tgo\tb\t1\t-\t0\n' >> "$here/by_file"
is 'by file, and opens where one may make it' '"sys::open@b" = ["return", "return(ENOSPC)", "panic"]
"sys::symlink@c" = ["return", "return(ENOSPC)", "panic"]
"sys::link@d" = ["return", "return(ENOSPC)", "panic"]
"sys::truncate@b" = ["return", "return(ENOSPC)", "panic"]' "$(./census --kinds "$here/by_file" | sed '1,/^.outside.kinds.$/d')"
printf '1\tsys::connect\t1\tgo\tx\t1\t-\t2\n2\tsys::send\t1\tgo\tx\t1\t-\t2\n3\tsys::recv\t1\tgo\tx\t1\t-\t2\n4\twrite\t1\tgo\tx\t1\t-\t2\n' > "$here/messages"
is 'of messages' "points = [$files, \"sys::connect\", \"sys::accept\", \"sys::send\", \"sys::recv\", \"write\", \"power::keep\"]

[outside.kinds]
\"sys::send\" = [\"return\", \"return(HALF)\", \"return(DROP)\", \"panic\"]
\"sys::recv\" = [\"return\", \"return(HALF)\", \"panic\"]" "$(FAULTS_SOCKETS=1 ./census --kinds "$here/messages")"
is 'no table where nothing is in it' "points = [$files, \"store::flush\", \"power::keep\"]" "$(./census --kinds "$here/mixed")"
try 'sys::write=1*off->1*return(ENOSPC)' create a write b write c
is 'no kinds of a run with faults' "census: $here/run/trace line 3: a fault acts here (return(ENOSPC)); use the trace of a run without faults" "$(./census --kinds "$here/run/trace" 2>&1)"

# The hits of a run, as an answer tells them.
try none mkdir b create a write b write c fsync rename a sub/b folder . fsync
is 'the hits of a run, those of one point in a row together' \
    "$(cut -f 2 "$here/run/trace" | uniq -c | awk '{ printf "%s%s%s", between, ($1 > 1 ? $1 "*" : ""), $2; between = ";" } END { print "" }')" \
    "$(./census --hits "$here/run/trace")"
printf '1\ta\t1\tgo\tx\t1\t-\t2\n2\ta\t2\tgo\tx\t1\t-\t2\n3\tb\t1\treturn\tx\t1\t-\t2\n4\ta\t3\tgo\tx\t1\t-\t2\n' > "$here/faulty"
is 'the hits of a run with faults' '2*a;b;a' "$(./census --hits "$here/faulty")"
is 'the hits of a run without any' '' "$(./census --hits "$here/nothing")"
printf '1\ta\t1\tgo\tx\n' > "$here/five"
is 'nor of a line that lacks columns' "2 census: $here/five line 1: this is no line of a trace" "$(./census --hits "$here/five" 2> "$here/said"; echo "$? $(cat "$here/said")")"
printf '1\ta\t1\tgo\tx\t1\t-\t2\n3\ta\t2\tgo\tx\t1\t-\t2\n' > "$here/gap"
./census --hits "$here/gap" > "$here/said" 2>&1
is 'no hits of what is no trace' "2 census: $here/gap line 2: this is no line of a trace" "$? $(cat "$here/said")"
