# Faults as systems have them: each kind does to a program what Linux itself does, which `trials` holds. Sourced by `test`.
. ./tests/kinds_of_linux.sh
kinds=$here/kinds
gcc -std=gnu11 -O1 -Wall -Wextra -Werror -o "$kinds" tests/kinds.c || exit 2

# as_system CASE SCENARIO
as_system() {
    new
    run "$2" "$kinds" "$1"
    is "$1, as by the system itself" "0 $(as_linux "$1")" "$status $said"
}

as_system short 'sys::write=1*return(HALF);sys::read=1*return(HALF)'

# An interruption acts once: the call that is made again is made, also where it is sticky. Two of them need another hit between them.
as_system interrupted 'sys::read=return(EINTR)'
is 'which says so of the one hit' 'go,return(EINTR),go' "$(answers)"
try 'sys::read=1*return(EINTR)->1*off->3*return(EINTR)->1*return' open old read 1 read 2 read 3 read 1 read 1 read 1
is 'interruptions in a row are one' 'open 0,read EINTR,read 2,read EINTR,read 1,read 1,read EIO' "$said"
try 'sys::open=return(EINTR);sys::write=1*off->return(EINTR)' create a create a write b write c create a write d
is 'at each point by itself' 'create EINTR,create 0,write 1,write EINTR,create 0,write 1' "$said"

# One process of several is killed. Nobody goes on before its files are closed and its locks are free.
as_system killed 'sys::write=1*off->1*return(KILL)'
is 'of which the trace has no result' 'sys::write 2 return(KILL) log -' "$(grep KILL "$here/run/trace" | cut -f 2-5,8 | tr '\t' ' ' | sed 's/ *$//')"
try 'sys::fsync=1*return(KILL)' create a write b fsync
is 'the call is not made' '137 create 0,write 1 create a;length of a 1;block 0 of a as after write 1' "$status $said $(pending | sed 's/[0-9]* \([clb]\)/\1/g')"
try 'sys::write=1*return(KILL)' create a threads 3 write b
is 'with its threads' '137 create 0 1' "$status $said $(grep -c sys::write "$here/run/trace")"
new
run 'sys::write=1*off->return(KILL)' sh -c 'for word in a b c; do sh -c "echo $word > $word"; echo $?; done; touch d; ls'
is 'and a sticky one kills each' '0 0,137,137,a,b,c,d,old,sub' "$status $said"
new
run 'sys::mkdir=1*return(KILL)' sh -c '(sleep 1; echo late > late) & mkdir new'
is 'what the command leaves goes on to its end' '137 late' "$status $(cat "$here/data/late")"
new
mkfifo "$here/data/way"
run 'sys::mkdir=1*return(KILL)' sh -c '(read -r line < way; echo "$line") & mkdir new'
is 'or until it waits without one' '137 ' "$status $said"

# SIGTERM comes before the call, which then goes on.
as_system told_to_end 'sys::write=1*off->1*return(TERM)->1*off->1*return(TERM)->1*off->1*return(TERM)'
is 'each time at one hit' 'go,go,return(TERM),go,go,return(TERM),go,go,return(TERM)' "$(answers)"
new
run 'sys::write=1*return(TERM)' sh -c 'trap "echo told" TERM; echo a > a; cat a'
is 'a shell that traps it' '0 told,a' "$status $said"

# A full disk, from a call that takes room on until one gives room back.
as_system full 'sys::write=2*off->1*return(FULL)'
is 'at the call that is named, and behind it' 'return(FULL) ENOSPC,go 5,go ENOSPC' "$(sed -n 5,7p "$here/run/trace" | cut -f 4,8 | tr '\t' ' ' | sed 's/ *$//' | paste -s -d ,)"
for gives in 'unlink old' 'rename sub/in old' 'truncate old 9' 'create old'; do
    try 'sys::mkdir=1*return(FULL)' mkdir a mkdir b $gives mkdir b
    is "room by $gives" "mkdir ENOSPC,mkdir ENOSPC,${gives%% *} 0,mkdir 0" "$said"
done
for keeps in 'unlink empty' 'unlink link' 'truncate old 10' 'truncate old 11' 'rmdir none' 'rename empty sub/in' 'exchange old sub/in'; do
    new
    : > "$here/data/empty"
    printf linked > "$here/data/link" && ln "$here/data/link" "$here/data/other"
    mkdir "$here/data/none"
    case $keeps in 'rename empty sub/in') rm "$here/data/sub/in" && : > "$here/data/sub/in" ;; esac
    out/powercut begin "$here/anew" "$here/data" && rm -rf "$here/run" && mv "$here/anew" "$here/run"
    go 'sys::mkdir=1*return(FULL)' mkdir a $keeps mkdir b
    is "none by $keeps" "mkdir ENOSPC,${keeps%% *} 0,mkdir ENOSPC" "$said"
done
try 'sys::open=1*return(FULL)' open old create a create b
is 'a call that takes none is made, and the disk is not full' 'open 0,create 0,create 0 go,go,go' "$said $(answers)"
try 'sys::rename=1*return(FULL)' rename old sub/in rename sub/in new
is 'a rename takes room for a new name alone' 'rename 0,rename 0' "$said"
try 'sys::rename=return(FULL)' rename old new rename old sub/in rename sub/in new
is 'and it is full once, also where it is sticky' 'rename ENOSPC,rename 0,rename 0' "$said"
try 'sys::mkdir=1*return(FULL)' create a write abc mkdir b fsync fsync open old write abc fsync
is 'a sync that would give bytes their room fails' 'create 0,write 3,mkdir ENOSPC,fsync ENOSPC,fsync 0,open 0,write 3,fsync 0' "$said"
is 'and they are lost' 'a= ' "$(left lasting | grep -o 'a= ')"
try 'sys::mkdir=1*return(FULL)' create a write abc fsync mkdir b fsync tmpfile .
is 'but not of bytes that have it' 'create 0,write 3,fsync 0,mkdir ENOSPC,fsync 0,tmpfile ENOSPC' "$said"
try 'sys::write=1*return(FULL)' create a copy old 5 sendfile old 5 pwrite 0 unlink old copy sub/in 5
is 'copies' 'create 0,copy ENOSPC,sendfile ENOSPC,pwrite ENOSPC,unlink 0,copy 5' "$said"
try 'sys::write=1*off->1*return(HALF);sys::mkdir=1*return(FULL)' create a write abc mkdir b write def
is 'another fault beside it' 'create 0,write 3,mkdir ENOSPC,write ENOSPC' "$said"
try 'sys::write=1*return(FULL)' create a write b
out/powercut recover "$here/run" "$here/data"
go 'sys::write=1*return(FULL)' create b write c
is 'it is over for what begins after a power cut' 'create 0,write 1' "$said"
for point in read unlink rmdir accept; do
    try "sys::$point=return(FULL)" unlink old
    is "no disk gets full by sys::$point" '98 faults: scenario: UnknownError entry 1 term 1' "$status $faults"
done
