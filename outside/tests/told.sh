# What a run tells: what ran, what wasn't seen, and a trace that says more. Sourced by `test`.

# no_cut NAME EXPECTED: the cut ends with 2 and that line
no_cut() { is "$1" "2 $2" "$(out/powercut cut "$here/run" "$here/data" > "$here/said" 2>&1; printf '%s %s' "$?" "$(cat "$here/said")")"; }

# A run that nothing watched.
nothing="powercut: nothing ran under the supervisor: paklour-faults wasn't started with this FAULTS_RUN, or ended before its command began"
try none create a
is 'what ran under it' "$component" "$(cut -f 2 "$here/run/loaded" | tail -n 1)"
new
under "$component" create a > "$here/said"
no_cut 'no supervisor' "$nothing"
is 'which leaves the files alone' 'a= old=0123456789 sub/ sub/in=inside ' "$(files)"
new
run none env -i "$component" create a
is 'a program that clears its environment is seen' '0 create 0 sys::open' "$status $said $(cut -f 2 "$here/run/trace")"

# What changed unseen.
advice=': by a program that wasn'"'"'t under the supervisor, by a call that it doesn'"'"'t see, or by the script (then: powercut expect RUN NAME..)'
try none open old write ab
printf x >> "$here/data/sub/in"
printf y > "$here/data/more"
no_cut 'changes that nothing saw are refused' "powercut: changed, and nobody saw how: more, sub/in$advice"
no_cut 'each time' "powercut: changed, and nobody saw how: more, sub/in$advice"
is 'with nothing changed' 'more=y old=ab23456789 sub/ sub/in=insidex ' "$(files)"
is 'no name under the root' '2 powercut: /old: give a name below ROOT, as `pending` prints it' \
    "$(out/powercut expect "$here/run" /old > "$here/said" 2>&1; echo "$? $(cat "$here/said")")"
out/powercut expect "$here/run" mor more
no_cut 'but for those that the script names' "powercut: changed, and nobody saw how: sub/in$advice"
out/powercut expect "$here/run" sub/
is 'of a folder all that is in it' 'old=0123456789 sub/ sub/in=inside ' "$(left lasting 2>&1)"
is 'which stay as they were found' 'more=y old=ab23456789 sub/ sub/in=insidex ' "$(left live 2>&1)"
try none folder .
for name in 1 2 3 4 5 6; do : > "$here/data/new $name"; done
mv "$here/data/new 2" "$here/data/new	2"
no_cut 'the first five of many' "powercut: changed, and nobody saw how: new\\0112, new 1, new 3, new 4, new 5, and 1 more$advice"

try none open old
is 'no call that changes anything' 'old=0123456789 sub/ sub/in=inside ' "$(left lasting 2>&1)"

try none open old write ab rename old a create b fsync unlink b mkdir new rename a new/a
is 'what it saw is explained' '' "$(out/powercut cut "$here/run" "$here/data" 2>&1)"
try none open old map 10 store 0 ab
is 'also what was stored' '' "$(out/powercut cut "$here/run" "$here/data" 2>&1)"
try none open old map 10 end 3
is 'a process that ends at once tells too' '3 faults: not seen: each store into the mapping of old' "$status $faults"

# A supervisor that is killed between a change and its note, which is told.
if command -v strace > "$here/said" && strace -o "$here/calls" true 2> "$here/faults"; then
    new
    under strace -qq -o "$here/calls" -P "$here/data/a" -e trace=statx -e inject=statx:signal=KILL "$supervisor" "$component" create a > "$here/said" 2>&1
    is 'a change that was killed before its note' "powercut: changed, and nobody saw how: a: the supervisor was killed as it noted a change old=0123456789 " \
        "$(left lasting 2>&1 | paste -s -d ' ' | sed 's|sub/.*||')"
    # One that is killed as it writes a line of the trace may leave a part of it, where the line goes over two pages.
    new
    under strace -qq -o "$here/calls" -P "$here/run/trace" -e trace=write -e inject=write:signal=KILL:when=2 "$supervisor" "$component" open old \
        write ab > "$here/said" 2>&1
    printf '2\tsys::wri' >> "$here/run/trace"
    is 'of a line of the trace all is there, or nothing' 'old=ab23456789 sys::open' \
        "$(left live 2>&1 | paste -s -d ' ' | sed 's|sub/.*||')$(cut -f 2 "$here/run/trace" | paste -s -d ' ')"
else
    echo 'skipped a change that was killed before its note: no strace'
fi

# The trace: process, flags of an open, and what the call came to.
try 'sys::write=1*off->1*return(ENOSPC)->1*panic' open none open old read 4 create a child write b parent write c write d
is 'results' 'ENOENT 3 4 4 1 ENOSPC -' "$(cut -f 8 "$here/run/trace" | tr -d ' ' | paste -s -d ' ')"
is 'flags' 'O_RDWR|O_CLOEXEC O_RDWR|O_CREAT|O_TRUNC|O_CLOEXEC' "$(cut -f 7 "$here/run/trace" | sed -n '1p;4p' | paste -s -d ' ')"
is 'flags of others' '- -' "$(cut -f 7 "$here/run/trace" | sed -n '3p;5p' | paste -s -d ' ')"
is 'processes' '1 2' "$(cut -f 6 "$here/run/trace" | sed -n '4p;6p' | uniq | wc -l) $(cut -f 6 "$here/run/trace" | sort -u | wc -l)"

# Points by file.
FAULTS_POINTS=file
export FAULTS_POINTS
try 'sys::write@b=1*off->1*return' create a write x write x create b write x write x
is 'a point of a file' 'create 0,write 1,write 1,create 0,write 1,write EIO' "$said"
is 'in the trace' 'sys::write@b 2 return b' "$(tail -n 1 "$here/run/trace" | cut -f 2-5 | tr '\t' ' ')"
try 'sys::write@a=1*off->1*return' create a write x child create b write x write x parent write x
is 'another process counts by itself' 'create 0,write 1,create 0,write 1,write 1,child 0,write EIO' "$said"
try 'sys::rename@sub/new=return;sys::fsync@.=return' rename old sub/new folder . fsync
is 'two names, and the root' 'rename EIO,folder 0,fsync EIO' "$said"
odd='a b;c=d"e	é'
try none create "$odd" write x
is 'what a scenario cannot hold' 'sys::open@a_b_c_d_e___ sys::write@a_b_c_d_e___' "$(cut -f 2 "$here/run/trace" | paste -s -d ' ')"
try none create a write b create c
is 'their census' 'points = ["sys::open@a", "sys::write@a", "sys::open@c"]
hits = [1, 1, 1]' "$(./census "$here/run/trace")"
try 'sys::write=return' create a write b
is 'a point without a file never acts' 'create 0,write 1 faults: never acts: sys::write' "$said $faults"
FAULTS_POINTS=files
try none open old
is 'FAULTS_POINTS is file' "98 faults: FAULTS_POINTS must be file or unset: files" "$status $faults"
unset FAULTS_POINTS
try 'sys::write@a=return' create a write b
is 'nor one with a file where points have none' 'create 0,write 1 faults: never acts: sys::write@a' "$said $faults"

# Messages.
try 'sys::send=return' open old pair send abc recv 9
is 'without FAULTS_SOCKETS a socket is no point' 'open 0,pair 0,send 3,recv 3 faults: never acts: sys::send' "$said $faults"
FAULTS_SOCKETS=1
export FAULTS_SOCKETS
fails 'send fails' sys::send 'pair send abc recv 9 send abc recv 9' 'pair 0,send ECONNRESET,recv EAGAIN,send 3,recv 3'
fails 'recv fails' sys::recv 'pair send abc recv 9 recv 9' 'pair 0,send 3,recv ECONNRESET,recv 3'
fails 'sendmsg fails' sys::send 'pair sendmsg abc sendmsg de recvmsg 9' 'pair 0,sendmsg ECONNRESET,sendmsg 2,recvmsg 2'
fails 'sendmmsg fails' sys::send 'pair sendmmsg abc sendmmsg de recv 9' 'pair 0,sendmmsg ECONNRESET,sendmmsg 1,recv 2'
fails 'recvmsg fails' sys::recv 'pair send abc recvmsg 9 recvmsg 9' 'pair 0,send 3,recvmsg ECONNRESET,recvmsg 3'
fails 'a write of a socket is send' sys::send 'pair tell abc tell de' 'pair 0,tell ECONNRESET,tell 2'
fails 'a read of a socket is recv' sys::recv 'pair tell abc hear 9 hear 9' 'pair 0,tell 3,hear ECONNRESET,hear 3'
fails 'connect fails' sys::connect 'listen ../s connect ../s connect ../s' 'listen 0,connect ECONNRESET,connect 0'
rm -f "$here/s"
fails 'accept fails' sys::accept 'listen ../s connect ../s accept accept' 'listen 0,connect 0,accept ECONNRESET,accept 0'
rm -f "$here/s"
try 'sys::send=1*return(DROP)->1*return(EPIPE)->1*return(HALF)' pair tell abc recv 9 send abc send abcd recv 9
is 'a message that is dropped, refused, cut off' 'pair 0,tell 3,recv EAGAIN,send EPIPE,send 2,recv 2' "$said"
try 'sys::send=1*return(DROP)->return(HALF);sys::recv=return(HALF)' pair sendmsg abc recvmsg 9 sendmsg abcdef recvmsg 2 recv 9
is 'the same of parts' 'pair 0,sendmsg 3,recvmsg EAGAIN,sendmsg 3,recvmsg 1,recv 1' "$said"
try 'sys::send=1*return(DROP)->1*return(EPIPE)->1*return(HALF)' pair tell abc recv 9
is 'in the trace' 'sys::send 1 return(DROP) socket 3' "$(head -n 1 "$here/run/trace" | cut -f 2-5,8 | tr '\t' ' ' | sed 's/ *$//')"
before=$(date +%s%N)
try 'sys::recv=sleep(300)' pair send a recv 1
is 'a late one' "pair 0,send 1,recv 1 yes" "$said $([ $(($(date +%s%N) - before)) -ge 300000000 ] && echo yes)"
try none create a write b pair send c recv 1
is 'files are points too' 'sys::open sys::write sys::send sys::recv' "$(cut -f 2 "$here/run/trace" | paste -s -d ' ')"
unset FAULTS_SOCKETS
refused 'sys::recv=return(DROP)' 'UnknownError entry 1 term 1'
refused 'sys::write=return(DROP)' 'UnknownError entry 1 term 1'

# A run that goes on after the cut.
scenario_of='sys::write=2*off->1*panic->1*off->1*return;power::keep=1*off->1*return->1*off->1*return'
try "$scenario_of" create a write b fsync write c write d
is 'a run up to its panic' '99 1 length of a 2;2 block 0 of a as after write 2' "$status $(pending)"
out/powercut recover "$here/run" "$here/data" keep "$scenario_of"
is 'recover: what was kept is there' 'a=b old=0123456789 sub/ sub/in=inside ' "$(files)"
is 'and nothing of it is pending' '' "$(pending)"
is 'nor may it be cut before something runs' "$nothing" "$(out/powercut cut "$here/run" "$here/data" 2>&1)"
go "$scenario_of" create z write e write f
is 'it goes on' '0 create 0,write 1,write EIO' "$status $said"
out/powercut cut "$here/run" "$here/data" keep "$scenario_of"
is 'with its hits numbered on' "5 sys::write 3 panic,6 power::keep 1 go,7 sys::open 2 go,8 sys::write 4 go,\
9 sys::write 5 return,10 power::keep 2 return,11 power::keep 3 go" \
    "$(tail -n +5 "$here/run/trace" | cut -f 1-4 | tr '\t' ' ' | paste -s -d ,)"
is 'and a cut of its own' 'a=b old=0123456789 sub/ sub/in=inside z= ' "$(files)"
is 'in every state' 'a=b old=0123456789 sub/ sub/in=inside z=e ' "$(left live)"
try none create a write b folder . fsync
out/powercut recover "$here/run" "$here/data" live
go none open a write c
is 'recover to a state: what it left lasts' '1 block 0 of a as after write 1:a=b old=0123456789 ' "$(pending):$(kept none)"
