# Calls beyond open, read, write and sync: each a point, and what it does noted. Sourced by `test`.

# noted NAME STEPS PENDING KEPT: what is pending after those steps, and the files with all of it kept
noted() {
    try none $2
    is "$1" "$3:$4" "$(pending):$(kept power::keep=return)"
}

# of_kind COLUMN: that column of the trace, in order
of_kind() { cut -f "$1" "$here/run/trace" | paste -s -d ' ' ; }

# Writes and reads with flags, copies inside the system.
fails 'preadv2 fails' sys::read 'open old preadv2 4 preadv2 4' 'open 0,preadv2 EIO,preadv2 4'
fails 'pwritev2 fails' sys::write 'open old pwritev2 ab pwritev2 ab' 'open 0,pwritev2 EIO,pwritev2 2'
noted 'pwritev2 that syncs by itself' 'open old pwrite cdef pwritev2 ab' '' 'old=abef456789 '
is 'lasts, with the older write in its block' 'old=abef456789 ' "$(kept none)"
fails 'copy_file_range fails' sys::write 'create a copy old 4 copy old 4' 'create 0,copy EIO,copy 4'
noted 'copy_file_range' 'create a copy old 4 folder . fsync' '1 length of a 4;2 block 0 of a as after write 1' 'a=0123 old=0123456789 '
fails 'sendfile fails' sys::write 'create a sendfile old 4 sendfile old 4' 'create 0,sendfile EIO,sendfile 4'
noted 'sendfile' 'create a sendfile old 4 folder . fsync' '1 length of a 4;2 block 0 of a as after write 1' 'a=0123 old=0123456789 '
try 'sys::write=return(HALF)' create a copy old 5 sendfile old 3 copy old 99 sendfile old 99 copy old 1 splice abcd splice a
is 'half of a copy' 'create 0,copy 2,sendfile 1,copy 5,sendfile 5,copy 1,splice 2,splice 1' "$said"
try none open old pwrite a copy sub/in 3
is 'a copy over what is there' '1 block 0 of old as after write 1;2 block 0 of old as after write 2:old=ins3456789 ' "$(pending):$(kept power::keep=return)"

fails 'splice fails' sys::write 'create a splice ab splice ab' 'create 0,splice EIO,splice 2'
noted 'splice' 'create a splice ab folder . fsync' '1 length of a 2;2 block 0 of a as after write 1' 'a=ab old=0123456789 '
fails 'aio_write fails' sys::write 'create a aio_write ab aio_write ab' 'create 0,aio_write EIO,aio_write 2'
noted 'aio_write' 'open old aio_write ab' '1 block 0 of old as after write 1' 'old=ab23456789 '
fails 'aio_fsync fails' sys::fsync 'open old write ab aio_fsync aio_fsync' 'open 0,write 2,aio_fsync EIO,aio_fsync 0'
noted 'calls by the system itself' 'direct a bc' '' 'a=bc old=0123456789 '

for scenario in none 'sys::write=return(HALF);sys::read=return(HALF)'; do
    try "$scenario" open old writev_nowhere readv_nowhere writev ab cd
    is "parts that are nowhere: $scenario" "open 0,writev_nowhere EFAULT,readv_nowhere EFAULT,writev $([ "$scenario" = none ] && echo 4 || echo 2)" "$said"
done

# An exchange with a file from elsewhere, whose name leads to the one or the other.
for names in 'a ../other/s' '../other/s a'; do
    mkdir -p "$here/other" && printf stranger > "$here/other/s"
    try none create a write bc exchange $names
    is "an exchange with a file from elsewhere: $names" \
        '1 create a;2 link a, and all before it;3 length of a 2;4 block 0 of a as after write 1;5 length of a 8;6 block 0 of a as after write 1' "$(pending)"
    is 'lost' 'a=bc old=0123456789 ' "$(kept 'power::keep=1*off->return')"
    is 'and kept' 'a=stranger old=0123456789 ' "$(kept power::keep=return)"
    is 'which explains it' 'a=stranger old=0123456789 sub/ sub/in=inside ' "$(left live 2>&1)"
done

# Length.
fails 'fallocate fails' sys::truncate 'open old fallocate 0 8 8 fallocate 0 8 8' 'open 0,fallocate EIO,fallocate 0'
fails 'posix_fallocate fails' sys::truncate 'open old posix_fallocate 12 posix_fallocate 12' 'open 0,posix_fallocate EIO,posix_fallocate 0'
noted 'fallocate makes a file longer' 'open old fallocate 0 8 4' '1 length of old 12' 'old=0123456789 '
is 'by zeros' 12 "$(stat -c %s "$here/data/old")"
noted 'or keeps its length' 'open old fallocate 1 8 8' '' 'old=0123456789 '
try none open old fallocate 3 2 4
is 'a hole' '1 block 0 of old as after clear 1' "$(pending)"
is 'lost' 0123456789 "$(left keep none > "$here/said"; tr '\0' . < "$here/data/old")"
is 'and kept' 01....6789 "$(left keep power::keep=return > "$here/said"; tr '\0' . < "$here/data/old")"

# Syncs.
fails 'sync_file_range fails' sys::fsync 'open old sync_file_range sync_file_range' 'open 0,sync_file_range EIO,sync_file_range 0'
noted 'sync_file_range promises nothing' 'open old write ab sync_file_range' '1 block 0 of old as after write 1' 'old=ab23456789 '
noted 'sync makes all last' 'create a write b rename a sub/a sync write c' '1 length of sub/a 2;2 block 0 of sub/a as after write 2' "old=0123456789 sub/ sub/a=bc sub/in=inside "
try 'sys::fsync=1*return' open old write ab sync
is 'where it fails nobody is told' 'sync 0 1 block 0 of old as after write 1' "$(tail -n 1 "$here/said") $(pending)"
fails 'syncfs fails' sys::fsync 'open old syncfs syncfs' 'open 0,syncfs EIO,syncfs 0'
noted 'syncfs makes all last' 'create a write b syncfs write c' '1 length of a 2;2 block 0 of a as after write 2' 'a=bc old=0123456789 '

# Names.
fails 'creat fails' sys::open 'creat a creat a write b' 'creat EIO,creat 0,write 1'
noted 'creat' 'creat old write b' '1 truncate old to 0;2 length of old 1;3 block 0 of old as after write 2' 'old=b '
fails 'symlink fails' sys::symlink 'symlink old way symlink old way' 'symlink EIO,symlink 0'
fails 'mkstemp fails' sys::open 'mkstemp aXXXXXX mkstemp aXXXXXX write b' 'mkstemp EIO,mkstemp 0,write 1'
fails 'mkostemps fails' sys::open 'mkstemps aXXXXXX.t 2 mkstemps aXXXXXX.t 2' 'mkstemps EIO,mkstemps 0'
fails 'mkdtemp fails' sys::mkdir 'mkdtemp aXXXXXX mkdtemp aXXXXXX' 'mkdtemp EIO,mkdtemp 0'

# Streams: the points are what the buffer comes to.
fails 'fopen fails' sys::open 'stream old r stream old r' 'stream EIO,stream 0'
fails 'a flush fails' sys::write 'stream a w print bc flush print de flush' 'stream 0,print 2,flush EIO,print 2,flush 0'
fails 'a close that has to write fails' sys::write 'stream a w print bc close_stream' 'stream 0,print 2,close_stream EIO'
fails 'a stream fails to read' sys::read 'stream old r gets 4 gets 4' 'stream 0,gets EIO,gets 4'
fails 'fsync of its fileno' sys::fsync 'stream a w print bc flush stream_sync stream_sync' 'stream 0,print 2,flush 0,stream_sync EIO,stream_sync 0'
noted 'a stream' 'stream a w print bc print de flush' '1 create a;2 length of a 4;3 block 0 of a as after write 1' 'a=bcde old=0123456789 '
noted 'one that is synced' 'stream a w print bc flush stream_sync folder . fsync print de close_stream' '1 length of a 4;2 block 0 of a as after write 2' 'a=bcde old=0123456789 '
noted 'what a buffer holds at the end' 'stream a w print bc' '1 create a;2 length of a 2;3 block 0 of a as after write 1' 'a=bc old=0123456789 '
noted 'one that appends' 'stream old a print bc flush print d close_stream' \
    '1 length of old 12;2 length of old 13;3 block 0 of old as after write 1;4 block 0 of old as after write 2' 'old=0123456789bcd '
noted 'one that reads and writes' 'stream old r+ gets 2 close_stream stream old w print x close_stream' \
    '1 truncate old to 0;2 length of old 1;3 block 0 of old as after write 2' 'old=x '
noted 'fdopen' 'create a reopened w print bc close_stream' '1 create a;2 length of a 2;3 block 0 of a as after write 1' 'a=bc old=0123456789 '
try 'sys::write=1*return(HALF)' stream a w print bcde close_stream
is 'a short write goes on' 'stream 0,print 4,close_stream 0 sys::open,sys::write,sys::write a=bcde ' \
    "$said $(cut -f 2 "$here/run/trace" | paste -s -d ,) $(files | sed 's/old.*//')"
printf 'line\n%.0s' $(seq 1000) > "$here/lines"
new
cp "$here/lines" "$here/data/lines"
go none stream lines r gets 5
is 'a read takes a block of the file' 4096 "$(sed -n '2s/ *$//p' "$here/run/trace" | cut -f 8)"
noted 'a stream of another file from then on' 'stream ../o w moved a print bc close_stream' '1 create a;2 length of a 2;3 block 0 of a as after write 1' 'a=bc old=0123456789 '
noted 'dprintf' 'create a dprint bc' '1 create a;2 length of a 2;3 block 0 of a as after write 1' 'a=bc old=0123456789 '
fails 'dprintf fails' sys::write 'create a dprint bc dprint bc' 'create 0,dprint EIO,dprint 2'
fails 'vdprintf fails' sys::write 'create a vdprint bc vdprint bc' 'create 0,vdprint EIO,vdprint 2'

# Shared mappings.
fails 'msync fails' sys::fsync 'open old map 10 store 0 ab msync 0 10 msync 0 10' 'open 0,map 0,store 0,msync EIO,msync 0'
try none open old map 10 store 0 ab msync 0 10 store 4 yz
is 'what msync makes last' '1 block 0 of old as after store 2:old=ab23456789 ' "$(pending):$(kept none)"
is 'and what was stored behind it' 'old=ab23yz6789 ' "$(kept power::keep=return)"
is 'a shared mapping is told' 'faults: not seen: each store into the mapping of old' "$faults"
noted 'fsync of a mapped file' 'open old map 10 store 0 ab fsync' '' 'old=ab23456789 '
noted 'a mapping that is taken away' 'open old map 10 store 0 ab unmap' '1 block 0 of old as after store 1' 'old=ab23456789 '
try none open old map 10 store 0 ab quit 3
is 'and at an end by _Exit' '3 1 block 0 of old as after store 1' "$status $(pending)"
try 'sys::fsync=1*panic' open old map 10 store 0 ab fsync
is 'and at a panic' '99 1 block 0 of old as after store 1' "$status $(pending)"
try none create a fill 12288 fsync folder . fsync open a map 12288 store 1 a store 8192 b msync 8192 1
is 'a sync of a part of it' '1 block 0 of a as after store 2' "$(pending)"
try none create a fill 4096 fsync folder . fsync open a map 4096 ftruncate 8192 remap 8192 store 4096 a msync 0 8192
is 'a mapping that grows' ':8192 a' "$(pending):$(left keep none > "$here/said"; echo "$(stat -c %s "$here/data/a") $(tr -d 'x\0' < "$here/data/a")")"

