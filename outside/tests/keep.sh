# Changes that are pending at a power cut, and what a scenario keeps of them. Sourced by `test`. If nothing else is said, the disk is `linux`: what ext4,
# XFS and Btrfs all keep, and what any of them may leave.
# each_kept NAME ASKED FILES..: what the hits of a cut ask that keeps nothing, then the files that it leaves, with each hit kept alone, and with all
each_kept() {
    name=$1 number=0
    is "$name: lost" "$3" "$(kept none)"
    is "$name: asked" "$2" "$(asked)"
    shift 3
    while [ $# -gt 1 ]; do
        number=$((number + 1))
        is "$name: $number kept" "$1" "$(kept "$(only $number)")"
        shift
    done
    is "$name: all kept" "$1" "$(kept power::keep=return)"
}

# dotted FILE: its bytes, with a point for each zero
dotted() { tr '\0' . < "$here/data/$1"; }

# Each kind of change alone: not synced, then synced by its file or its folder.
try none open old write ab
each_kept 'a write' '1 block 0 of old as after write 1' 'old=0123456789 ' 'old=ab23456789 ' 'old=ab23456789 '
try none open old write ab fsync
is 'a write, synced' ':old=ab23456789 ' "$(pending):$(kept none)"
try none open old write ab fdatasync
is 'by its data alone' ':old=ab23456789 ' "$(pending):$(kept none)"
try none open old write ab sync_file_range
is 'nothing lasts by sync_file_range' '1 block 0 of old as after write 1:old=0123456789 ' "$(pending):$(kept none)"
try none open old write ab folder . fsync
is 'nor by its folder' '1 block 0 of old as after write 1:old=0123456789 ' "$(pending):$(kept none)"
try none create a
each_kept 'a new name' '1 create a' 'old=0123456789 ' 'a= old=0123456789 ' 'a= old=0123456789 '
try none create a fsync
is 'a new name, its file synced' ':a= old=0123456789 ' "$(pending):$(kept none)"
try none create a fdatasync
is 'by its data alone' ':a= old=0123456789 ' "$(pending):$(kept none)"
try none create a folder . fsync
is 'a new name, its folder synced' ':a= old=0123456789 ' "$(pending):$(kept none)"
try none rename old new
each_kept 'a rename' '1 rename old -> new' 'old=0123456789 ' 'new=0123456789 ' 'new=0123456789 '
try none rename old new open new fsync
is 'a rename, its file synced' ':new=0123456789 ' "$(pending):$(kept none)"
try none rename old new open new fdatasync
is 'its data alone do not save it' '1 rename old -> new:old=0123456789 ' "$(pending):$(kept none)"
try none link old new
each_kept 'a link' '1 link new' 'old=0123456789 ' 'new=0123456789 old=0123456789 ' 'new=0123456789 old=0123456789 '
try none unlink old
each_kept 'an unlink' '1 unlink old' 'old=0123456789 ' '' ''
try none mkdir new
each_kept 'a new folder' '1 mkdir new' 'old=0123456789 ' 'new/ old=0123456789 ' 'new/ old=0123456789 '
try none mkdir new folder . fsync rmdir new
each_kept 'a folder taken away' '1 rmdir new' 'new/ old=0123456789 ' 'old=0123456789 ' 'old=0123456789 '
try none symlink old way
each_kept 'a symbolic link' '1 symlink way' 'old=0123456789 ' 'old=0123456789 way->old ' 'old=0123456789 way->old '
try none exchange old sub/in
is 'an exchange: lost' 'old=0123456789 sub/ sub/in=inside :1 exchange old -> sub/in' "$(left keep none):$(asked)"
is 'an exchange: kept' 'old=inside sub/ sub/in=0123456789 ' "$(left keep power::keep=return)"
try none log a write b
is 'a write that syncs by itself' ':a=b old=0123456789 ' "$(pending):$(kept none)"
try none log old write b
is 'one that appends is at the end' ':old=0123456789b ' "$(pending):$(kept none)"
try none link old new rename old new
is 'a rename of a file over its other name is none' '1 link new' "$(pending)"
is 'and two names stay one file' '2 new=0123456789 old=0123456789 ' \
    "$(left keep power::keep=return > "$here/said"; stat -c %h "$here/data/old") $(files | sed 's|sub/ sub/in=inside ||')"

# Lengths: without their bytes they are zeros, and a shortening clears first.
try none open old ftruncate 3
is 'cut short: asked' 'old=0123456789 :1 truncate old to 3;2 block 0 of old as after truncate 1' "$(kept none):$(asked)"
is 'cut short: kept' 'old=012 ' "$(kept "$(only 1)")"
is 'cut short: cleared before' '012.......' "$(kept "$(only 2)" > "$here/said"; dotted old)"
try none open old ftruncate 3 fsync
is 'cut short, synced' ':old=012 ' "$(pending):$(kept none)"
try none create a folder . fsync open a write bc
is 'appended' '1 length of a 2;2 block 0 of a as after write 1:a= old=0123456789 :1 length of a 2' "$(pending):$(kept none):$(asked)"
is 'its length alone' '..' "$(kept "$(only 1)" > "$here/said"; dotted a)"
is 'asks for the bytes then' '1 length of a 2;2 block 0 of a as after write 1' "$(asked)"
is 'and with them' 'bc' "$(kept power::keep=return > "$here/said"; dotted a)"
try none create a write bc sync pwrite d sync
is 'a sync of all keeps no bytes that were written over' '1 block 0 of a as after write 2:bc' "$(pending):$(kept none > "$here/said"; dotted a)"
FAULTS_SYNC=xfs
export FAULTS_SYNC
try none create a folder . fsync open a write bc
each_kept 'a length that has its bytes' '1 length of a 2' 'a= old=0123456789 ' 'a=bc old=0123456789 ' 'a=bc old=0123456789 '
unset FAULTS_SYNC
try none create a folder . fsync open a ftruncate 1073741824
is 'a length that no bytes go with' '1 length of a 1073741824' "$(pending)"
try none create a write bc folder . fsync open a write de fsync ftruncate 1
is 'a shortening that came after a sync' '1 truncate a to 1;2 block 0 of a as after truncate 3' "$(pending)"

# Several changes, in their order: of names the first ones, as many as may be.
try none create a create b create c
each_kept 'three names' '3 create c, and all before it;2 create b, and all before it;1 create a' 'old=0123456789 ' \
    'a= b= c= old=0123456789 ' 'a= b= old=0123456789 ' 'a= old=0123456789 ' 'a= b= c= old=0123456789 '
is 'listed' '1 create a;2 create b, and all before it;3 create c, and all before it' "$(pending)"
try none open old pwrite abc pwrite d
each_kept 'one write over another' '2 block 0 of old as after write 2;1 block 0 of old as after write 1' 'old=0123456789 ' 'old=dbc3456789 ' \
    'old=abc3456789 ' 'old=dbc3456789 '
try none create a write b rename a old
is 'replaced without a sync' '1 create a;2 rename a -> old, and all before it;3 length of old 1;4 block 0 of old as after write 1' "$(pending)"
each_kept 'replaced without a sync' '2 rename a -> old, and all before it;1 create a' 'old=0123456789 ' 'old= ' 'a= old=0123456789 ' 'old=b '
try none create a write b fsync rename a old
each_kept 'replaced as it should be' '1 rename a -> old;1 rename a -> old, of it only that a is gone;1 rename a -> old, of it old alone' \
    'a=b old=0123456789 ' 'old=b ' 'old=0123456789 ' 'a=b old=b ' 'old=b '
try none open old write x fsync create a rename a old
is 'over a file that was synced itself' "2 rename a -> old, and all before it;1 create a;2 rename a -> old, of it only that a is gone;\
2 rename a -> old, of it old alone;2 rename a -> old, of it only that old is gone" "$(kept none > "$here/said"; asked)"
try none open old write x fsync create a write b fsync rename a old
is 'and by one that was too' '1 rename a -> old;1 rename a -> old, of it only that a is gone;1 rename a -> old, of it old alone' \
    "$(kept none > "$here/said"; asked)"
try none create a rename a old fsync unlink old
is 'what a synced file replaced: asked' "3 unlink old, and all before it;2 rename a -> old, and all before it;1 create a;3 unlink old, alone;\
2 rename a -> old, of it only that a is gone;0 rename a -> old, of it old undone" "$(kept none > "$here/said"; asked)"
is 'what a synced file replaced: back' 'old=0123456789 ' "$(kept "$(only 6)")"
FAULTS_SYNC=ext4
export FAULTS_SYNC
try none create a write b fsync rename a old
each_kept 'replaced as it should be, on ext4' '1 rename a -> old' 'a=b old=0123456789 ' 'old=b ' 'old=b '
try none rename old a open sub/in write x fsync
is 'an overwrite carries no names' '1 rename old -> a' "$(pending)"
try none rename old a open sub/in read 6 write x fsync
is 'one that lengthens does' '' "$(pending)"
unset FAULTS_SYNC
try none open old chmod 600
is 'a mode' '1 chmod old 600:644:600' "$(pending):$(kept none > "$here/said"; stat -c %a "$here/data/old"):$(kept "$(only 1)" > "$here/said"; stat -c %a "$here/data/old")"
try none open old chmod 644
is 'the same mode is none' '' "$(pending)"
try none open old chmod 600 fsync
is 'a mode, synced' ':600' "$(pending):$(kept none > "$here/said"; stat -c %a "$here/data/old")"

# What outlives its name, and files in two folders.
try none open old unlink old write ab
each_kept 'a descriptor that outlives its name' '1 unlink old;2 block 0 of old as after write 1' 'old=0123456789 ' '' 'old=ab23456789 ' ''
try none create a write bc create b rename b a folder . fsync
is 'what came later is there where its file is gone' '1 length of a 2;2 block 0 of a as after write 1:a= old=0123456789 ' "$(pending):$(kept none)"
try none rename old sub/new
is 'a rename over two folders' '1 rename old -> sub/new:old=0123456789 sub/ sub/in=inside ' "$(pending):$(left keep none)"
is 'kept, it moves the file' 'sub/ sub/in=inside sub/new=0123456789 ' "$(left keep power::keep=return)"
try none rename old sub/new folder sub fsync
is 'where the new folder is synced the old name is pending' '1 rename old -> sub/new:old=0123456789 sub/ sub/in=inside sub/new=0123456789 ' \
    "$(pending):$(left keep none)"
is 'and its end kept' 'sub/ sub/in=inside sub/new=0123456789 ' "$(left keep power::keep=return)"
try none rename old sub/new folder . fsync
is 'where the old folder is synced all of it lasts' ':sub/ sub/in=inside sub/new=0123456789 ' "$(pending):$(left keep none)"
try none mkdir new create new/a write b fsync
is 'with the new folders that lead to it' ':new/ new/a=b old=0123456789 ' "$(pending):$(kept none)"
try none tmpfile . write ab name a
each_kept 'a file that gets its name late' '1 link a' 'old=0123456789 ' 'a= old=0123456789 ' 'a=ab old=0123456789 '
mkdir -p "$here/other" && printf stranger > "$here/other/s"
try none rename ../other/s a
is 'a file from elsewhere' '1 link a;2 length of a 8;3 block 0 of a as after write 1' "$(pending)"
is 'and all of it kept' 'a=stranger old=0123456789 ' "$(kept power::keep=return)"
try none rename old ../other/o
each_kept 'a file that goes elsewhere' '1 unlink old' 'old=0123456789 ' '' ''
try none create a threads 8
is 'writes of threads' 17 "$(out/powercut pending "$here/run" | wc -l)"
is 'all kept' 'a=xxxxxxxx old=0123456789 ' "$(kept power::keep=return)"
try none open old child write ab parent create b
each_kept 'changes of two processes' '1 create b;2 block 0 of old as after write 1' 'old=0123456789 ' 'b= old=0123456789 ' 'old=ab23456789 ' \
    'b= old=ab23456789 '

# Long writes: each block by itself, and lengths on the way.
try none create a folder . fsync open a fill 4096
is 'a write of a block' '1 length of a 4096;2 block 0 of a as after write 1' "$(pending)"
try none create a folder . fsync open a fill 4097
is 'a longer one' '1 length of a 4096;2 length of a 4097;3 block 0 of a as after write 1;4 block 1 of a as after write 1' "$(pending)"
is 'the length is asked for from the last on' '2 length of a 4097;1 length of a 4096' "$(kept none > "$here/said"; asked)"
is 'a border on the way' '4096 0' "$(left keep "$(only 2)" > "$here/said"; echo "$(stat -c %s "$here/data/a") $(tr -d '\0' < "$here/data/a" | wc -c)")"
is 'the second block alone' '4097 1' \
    "$(left keep 'power::keep=1*return->1*off->1*return' > "$here/said"; echo "$(stat -c %s "$here/data/a") $(tr -d '\0' < "$here/data/a" | wc -c)")"
FAULTS_BLOCK=4
export FAULTS_BLOCK
try none open old write abcdef write g
is 'FAULTS_BLOCK' '1 block 0 of old as after write 1;2 block 1 of old as after write 1;3 block 1 of old as after write 2' "$(pending)"
each_kept 'FAULTS_BLOCK' '1 block 0 of old as after write 1;3 block 1 of old as after write 2;2 block 1 of old as after write 1' 'old=0123456789 ' \
    'old=abcd456789 ' 'old=0123efg789 ' 'old=0123ef6789 ' 'old=abcdefg789 '
for wrong in 0 4k -1 1073741825; do
    FAULTS_BLOCK=$wrong
    try none open old
    is "FAULTS_BLOCK=$wrong" "98 faults: FAULTS_BLOCK must be a number of bytes from 1 to 1073741824: $wrong" "$status $faults"
done
unset FAULTS_BLOCK

# The letter: a name lasts with its folder's sync alone, and each name is there or not.
for FAULTS_SYNC in posix strict; do
    export FAULTS_SYNC
    try none create a write b fsync
    is "$FAULTS_SYNC: a sync of a file saves no name" '1 create a:old=0123456789 ' "$(pending):$(kept none)"
done
try none create a create b
each_kept 'each name by itself' '2 create b, alone;1 create a, alone' 'old=0123456789 ' 'b= old=0123456789 ' 'a= old=0123456789 ' 'a= b= old=0123456789 '
try none rename old sub/new
is 'and each end of a move' '1 rename old -> sub/new, of it only that old is gone;1 rename old -> sub/new, of it new alone' "$(left keep none > "$here/said"; asked)"
FAULTS_SYNC=names
try none create a write b fsync create c
is 'names is what is used where nothing is set' '1 create c:a=b old=0123456789 ' "$(pending):$(kept none)"
FAULTS_SYNC=name
try none open old
is 'FAULTS_SYNC is one of these' "98 faults: FAULTS_SYNC must be linux or ext4 or xfs or btrfs or posix or strict or names or unset: name" "$status $faults"
FAULTS_SYNC=journal
try none open old
is 'journal is refused' "98 faults: FAULTS_SYNC: journal promised names that no file system keeps at each sync: use ext4 or xfs, which say what a sync \
takes along there" "$status $faults"
unset FAULTS_SYNC

# A failed sync, whose blocks the system takes for clean.
try 'sys::fsync=1*return' open old write ab fsync pwrite ab fsync
is 'a block written again with the same bytes is kept' 'old=ab23456789 ' "$(kept none)"
try 'sys::fsync=1*return' create a write bc fsync folder . fsync create a write bc fsync
is 'a file that is cut short and written again is kept' 'a=bc old=0123456789 ' "$(kept none)"
for profile in linux ext4 posix xfs btrfs; do
    FAULTS_SYNC=$profile
    export FAULTS_SYNC
    try 'sys::fsync=1*return' create a write bc fsync folder . fsync open a pwrite bc fsync
    case $profile in xfs | btrfs) expected=bc ;; *) expected=.. ;; esac
    is "a new block that is written again: $profile" "$expected" "$(kept none > "$here/said"; dotted a)"
done
FAULTS_SYNC=xfs
try 'sys::fsync=1*return' create a fill 8192 fsync folder . fsync open a fsync pwrite z fsync
is 'the other blocks stay lost' '4096 zx' "$(kept none > "$here/said"; stat -c %s "$here/data/a") $(dotted a | head -c 2)"
is 'and are pending' '1 length of a 8192;2 block 1 of a as after write 1' "$(pending)"
unset FAULTS_SYNC
try 'sys::fsync=1*return' create a write bc fsync folder . fsync open a fsync
is 'a length that was lost is brought by no later sync' '1 length of a 2;2 block 0 of a as after write 1' "$(pending)"

# Stores whose sync failed are lost, and others aren't.
lost=0
for _ in $(seq 100); do
    try 'sys::fsync=2*off->1*return' create a fill 12288 fsync folder . fsync open a map 12288 store 0 A msync 0 4096 store 8192 B msync 8192 4096
    [ "$(kept none > "$here/said"; head -c 1 "$here/data/a"; head -c 8193 "$here/data/a" | tail -c 1)" = xB ] || lost=$((lost + 1))
done
is 'a store whose sync succeeds lasts, and one whose sync failed does not' 0 $lost

# The cut's own hits.
try 'sys::write=1*off->1*return' create a write b write c
left keep 'sys::write=1*off->1*return;power::keep=1*return' > "$here/said"
is 'its hits are in the trace' '1 sys::open 1 go a;2 sys::write 1 go a;3 sys::write 2 return a;4 power::keep 1 return 1 create a;5 power::keep 2 go 2 length of a 1' \
    "$(cut -f 1-5 "$here/run/trace" | tr '\t' ' ' | paste -s -d ';')"
is 'of eight columns' '8 8' "$(tail -n 2 "$here/run/trace" | awk -F '\t' '{ print NF }' | paste -s -d ' ')"
left keep power::keep=return > "$here/said"
is 'a cut in turn asks anew' 'sys::open go,sys::write go,sys::write return,power::keep return,power::keep return,power::keep return' \
    "$(cut -f 2,4 "$here/run/trace" | tr '\t' ' ' | paste -s -d ,)"
for task in off panic print 'sleep(1)' yield 'return(EIO)'; do
    [ "${task%(*}" = return ] && expected='a=b old=0123456789 ' || expected='old=0123456789 '
    is "what $task answers at a pending change" "$expected" "$(kept "power::keep=$task")"
done
printf live > "$here/data/old"
left keep power::keep=1*return-\>pause > "$here/said" 2>&1
is 'a pause stops the run, and nothing is laid' '97 live return,pause' "$? $(cat "$here/data/old") $(grep power::keep "$here/run/trace" | cut -f 4 | paste -s -d ,)"
is 'a scenario that cannot be read' 'powercut: scenario: UnknownTask entry 1 term 1 2' "$( (left keep power::keep=retrun 2>&1 || echo $?) | paste -s -d ' ')"
is 'nor one with shares' 'powercut: scenario: NoShares entry 1 term 1 2' "$( (left keep 'power::keep=50%return' 2>&1 || echo $?) | paste -s -d ' ')"
is 'a state without one' 'powercut: keep: this state needs a SCENARIO behind it' "$(left keep 2>&1)"
try none create a write b
left keep none > "$here/said"
is 'the census has them last' 'points = ["sys::open", "sys::write", "power::keep"]
hits = [1, 1, 1]' "$(./census "$here/run/trace")"

# A run that goes on counts on.
try 'power::keep=1*return' create a create b
out/powercut recover "$here/run" "$here/data" keep 'power::keep=1*return'
is 'recover: what was kept is there, and lasts' 'a= b= old=0123456789 sub/ sub/in=inside :' "$(files):$(pending)"
go 'power::keep=1*return' create c
is 'and is cut again' 'a= b= old=0123456789 2 sys::open,3 power::keep,4 sys::open,5 power::keep' \
    "$(kept 'power::keep=1*return')$(tail -n 4 "$here/run/trace" | cut -f 1-2 | tr '\t' ' ' | paste -s -d ,)"

# What is kept if all hits return is what the program left, also where the sync of another file may have taken a length along.
unset FAULTS_SYNC
try none open old ftruncate 20 create a fsync open old ftruncate 3
is 'a length that a sync may have taken along, and a shorter one' 'a= old=012 ' "$(kept power::keep=return)"
