# What a power cut leaves. Sourced by `test`. Names and contents as they last or as they are: lasting is neither, live both,
# names the names alone, contents the contents alone. At first by the letter, by which a name lasts with its folder's sync alone.
FAULTS_SYNC=posix
export FAULTS_SYNC

# leaves NAME LASTING NAMES CONTENTS LIVE: the files in each state, laid in turn; what all have, `sub/ sub/in=inside`, left out
leaves() {
    name=$1
    for state in lasting names contents live; do
        shift
        is "$name: $state" "$1" "$(left $state | sed 's|sub/ sub/in=inside ||')"
    done
}

try none open old write ab
leaves 'written, nothing synced' 'old=0123456789 ' 'old=0123456789 ' 'old=ab23456789 ' 'old=ab23456789 '
try none open old write ab fsync write c
leaves 'a write after the sync' 'old=ab23456789 ' 'old=ab23456789 ' 'old=abc3456789 ' 'old=abc3456789 '
try none create a write b
leaves 'a new file' 'old=0123456789 ' 'a= old=0123456789 ' 'old=0123456789 ' 'a=b old=0123456789 '
try none create a write b fsync
leaves 'a new file, synced' 'old=0123456789 ' 'a=b old=0123456789 ' 'old=0123456789 ' 'a=b old=0123456789 '
try none create a write b folder . fsync
leaves 'a new file, its folder synced' 'a= old=0123456789 ' 'a= old=0123456789 ' 'a=b old=0123456789 ' 'a=b old=0123456789 '
try none create a write b fsync rename a old
leaves 'renamed over another' 'old=0123456789 ' 'old=b ' 'old=0123456789 ' 'old=b '
try none create a write b rename a old folder . fsync
leaves 'renamed before it was synced' 'old= ' 'old= ' 'old=b ' 'old=b '
try none create a write b fsync rename a old folder . fsync
leaves 'replaced as it should be' 'old=b ' 'old=b ' 'old=b ' 'old=b '
try none unlink old
leaves 'unlinked' 'old=0123456789 ' '' 'old=0123456789 ' ''
try none unlink old folder . fsync
leaves 'unlinked, its folder synced' '' '' '' ''
try none link old new unlink old folder . fsync
leaves 'linked under another name' 'new=0123456789 ' 'new=0123456789 ' 'new=0123456789 ' 'new=0123456789 '
try none truncate old 3
leaves 'cut short' 'old=0123456789 ' 'old=012 ' 'old=012 ' 'old=012 '
try none log a write b write c folder . fsync open old
leaves 'writes that sync by themselves' 'a=bc old=0123456789 ' 'a=bc old=0123456789 ' 'a=bc old=0123456789 ' 'a=bc old=0123456789 '
try none mkdir new create new/a write b fsync folder . fsync
leaves 'a new folder, only its own name synced' 'new/ old=0123456789 ' 'new/ new/a=b old=0123456789 ' 'new/ old=0123456789 ' \
    'new/ new/a=b old=0123456789 '
try none mkdir new create new/a write b fsync folder new fsync
leaves 'a new folder, only its names synced' 'old=0123456789 ' 'new/ new/a=b old=0123456789 ' 'old=0123456789 ' \
    'new/ new/a=b old=0123456789 '
try none mkdir new create new/a write b fsync folder new fsync folder . fsync
leaves 'a new folder, both synced' 'new/ new/a=b old=0123456789 ' 'new/ new/a=b old=0123456789 ' \
    'new/ new/a=b old=0123456789 ' 'new/ new/a=b old=0123456789 '
try none symlink 'old file' way folder . fsync
leaves 'a symbolic link' 'old=0123456789 way->old file ' 'old=0123456789 way->old file ' 'old=0123456789 way->old file ' \
    'old=0123456789 way->old file '
try none create 'a  b
c' write b fsync folder . fsync
is 'odd names' 'b' "$(out/powercut cut "$here/run" "$here/data" && cat "$here/data/a  b
c")"
try none unlink old create old write new folder . fsync
leaves 'a new file of an old name' 'old= ' 'old= ' 'old=new ' 'old=new '
try none rename sub way folder . fsync
is 'a folder under another name' 'old=0123456789 way/ way/in=inside ' "$(left lasting)"

try 'sys::fsync=1*return' open old write ab fsync
is 'a sync that failed keeps nothing' 'old=0123456789 ' "$(left lasting | sed 's|sub/.*||')"
try 'sys::fsync=1*return' open old write ab fsync fsync
is 'nor does a second one keep what the failed one lost' 'old=0123456789 ' "$(left lasting | sed 's|sub/.*||')"
try 'sys::fsync=1*return' open old write ab fsync write c fsync
is 'but for a block that is written again' 'old=abc3456789 ' "$(left lasting | sed 's|sub/.*||')"
try 'sys::fsync=1*return' create a write b fsync folder . fsync sync
is 'nor does a sync of all' 'a= old=0123456789 ' "$(left lasting | sed 's|sub/.*||')"
for word in again once; do
    FAULTS_FSYNC=$word
    export FAULTS_FSYNC
    [ $word = again ] && expected='old=ab23456789 ' || expected='old=0123456789 '
    try 'sys::fsync=1*return' open old write ab fsync fsync
    is "FAULTS_FSYNC=$word" "$expected" "$(left lasting | sed 's|sub/.*||')"
done
FAULTS_FSYNC=twice
try none open old
is 'FAULTS_FSYNC is again or once' '98 faults: FAULTS_FSYNC must be again or once or unset: twice' "$status $faults"
unset FAULTS_FSYNC

try 'sys::fsync=1*off->panic' create a write b fsync folder . fsync
is 'a panic at the sync of the folder' '99 old=0123456789 ' "$status $(left lasting | sed 's|sub/.*||')"
try none child create a write b fsync folder . fsync parent
is 'what a child synced lasts' 'a=b old=0123456789 ' "$(left lasting | sed 's|sub/.*||')"

# What ext4, XFS and Btrfs all keep, and what any of them may leave.
unset FAULTS_SYNC
try none create a write b fsync
leaves 'the sync of a new file keeps its name' 'a=b old=0123456789 ' 'a=b old=0123456789 ' 'a=b old=0123456789 ' 'a=b old=0123456789 '
try none create a write b fsync rename a old
leaves 'and not that it is renamed later' 'a=b old=0123456789 ' 'old=b ' 'a=b old=0123456789 ' 'old=b '
try none rename old a create b write c
leaves 'bytes of a file without a name are nowhere' 'old=0123456789 ' 'a=0123456789 b= ' 'old=0123456789 ' 'a=0123456789 b=c '
new
chmod 640 "$here/data/old"
chmod 500 "$here/data/sub"
go none folder . fsync
left lasting > /dev/null
is 'modes stay' '640 500' "$(stat -c %a "$here/data/old" "$here/data/sub" | paste -s -d ' ')"
chmod 700 "$here/data/sub"
if [ "$(id -u)" = 0 ]; then
    # owners NAME..: whose these are, with their modes
    owners() { (cd "$here/data" && stat -c '%n %u:%g %a' "$@" | paste -s -d ,); }
    new
    rm -r "$here/run"
    (cd "$here/data" && ln -s old way && chown -h 3:4 way && chown 1:2 old && chmod 4750 old && chown -R 5:6 sub && "$outside/out/powercut" begin ../run .)
    run none sh -c 'echo x > a; mkdir d; chown 7:8 a; chgrp 9 d; setpriv --reuid 5 --regid 6 --clear-groups sh -c "echo y > sub/b"; chown 10 way -h
        echo z > sub/gone; chown 11:12 sub/gone; mv sub/gone sub/went; rm sub/went'
    expected='a 7:8 644,d 0:9 755,old 1:2 4750,sub 5:6 755,sub/b 5:6 644,sub/in 5:6 644,way 10:4 777'
    is 'owners stay' "0 $expected" "$status $(left live > /dev/null; owners a d old sub sub/b sub/in way)"
    is 'a new owner is pending' 'old 1:2 4750,sub 5:6 755,sub/in 5:6 644,way 3:4 777' "$(left lasting > /dev/null; owners old sub sub/in way)"
    is 'as one of the names' "$expected" "$(left names > /dev/null; owners a d old sub sub/b sub/in way)"
    is 'also of what is gone by then' "$expected,sub/went 11:12 644" \
        "$(left keep "$(only 2)" > /dev/null; owners a d old sub sub/b sub/in way sub/went)"
    out/powercut recover "$here/run" "$here/data" live && run none sh -c ': > c'
    is 'and when the run goes on' "$expected" "$(left lasting > /dev/null; owners a d old sub sub/b sub/in way)"
else
    echo 'skipped owners: not root'
fi
try none open old write ab fsync
left lasting > /dev/null
rm "$here/data/old"
is 'a look at one state changes no other' 'old=ab23456789 ' "$(left lasting | sed 's|sub/.*||')"

# Sparse files stay sparse, those that the run finds and those that it makes.
new
rm -rf "$here/run"
truncate -s 1G "$here/data/holes" && printf end >> "$here/data/holes"
out/powercut begin "$here/run" "$here/data"
go none open holes pwrite begin fallocate 3 4096 4096000 fsync create made ftruncate 1073741824 folder . fsync
for state in 'lasting 0' 'live 1073741824'; do
    out/powercut cut "$here/run" "$here/data" "${state% *}"
    is "sparse files stay sparse: $state" "1073741827 begin end ${state#* } yes" "$(stat -c %s "$here/data/holes") $(head -c 5 "$here/data/holes") \
$(tail -c 3 "$here/data/holes") $(stat -c %s "$here/data/made") \
$([ "$(du -skc "$here/run" "$here/data" | tail -n 1 | cut -f 1)" -lt 4000 ] && echo yes)"
done

# Time grows as changes and syncs do: of the square of them a second is too short.
for profile in 'posix 20000' 'linux 0'; do
FAULTS_SYNC=${profile% *}
export FAULTS_SYNC
new
run none python3 -c 'import os
for number in range(20000):
    file = os.open(str(number), os.O_CREAT | os.O_WRONLY)
    os.write(file, b"x")
    os.fsync(file)
    os.close(file)'
is "many files, and a sync for each: $FAULTS_SYNC" "0 ${profile#* }" "$status $(prlimit --cpu=1 out/powercut pending "$here/run" | wc -l)"
done
unset FAULTS_SYNC

# What is refused, with nothing changed.
try none open old
mkdir -p "$here/other"
is 'cut of another folder' "powercut: $here/other: this isn't the folder that powercut begin was given" "$(out/powercut cut "$here/run" "$here/other" 2>&1)"
is 'cut to an unknown state' 'powercut: never: no such state; the states are lasting, live, names, contents and keep' "$(out/powercut cut "$here/run" "$here/data" never 2>&1)"
is 'cut without a run' "powercut: $here/other: this isn't a folder that powercut begin made for a ROOT" "$(out/powercut cut "$here/other" "$here/data" 2>&1)"
is 'begin where there is something' "powercut: $here/run: File exists" "$(out/powercut begin "$here/run" "$here/data" 2>&1)"
is 'begin under the root' "powercut: $here/data/run: a run's folder can't be under ROOT" "$(out/powercut begin "$here/data/run" "$here/data" 2>&1)"
is 'begin of a file' "powercut: $here/data/old: not a folder" "$(out/powercut begin "$here/file" "$here/data/old" 2>&1)"
rm -rf "$here/run"
out/powercut begin "$here/run"
go 'sys::open=1*return' open old open old
is 'a run without a power cut' 'open EIO,open 0' "$said"
is 'and none can be cut' "powercut: $here/run: this isn't a folder that powercut begin made for a ROOT" "$(out/powercut cut "$here/run" "$here/data" 2>&1)"
out/powercut > "$here/said" 2>&1
is 'a refusal ends with 2' 2 $?
