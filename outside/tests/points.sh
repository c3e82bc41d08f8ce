# Each call that is a point, each answer, the trace, and several processes. Sourced by `test`.

# fails NAME POINT STEPS EXPECTED: the one failure of a point is told by its call
fails() {
    try "$2=1*return" $3
    is "$1" "$4 0" "$said $status"
}
fails 'open fails' sys::open 'open old open old' 'open EIO,open 0'
fails 'creating fails' sys::open 'create made unlink made' 'create EIO,unlink ENOENT'
fails 'opening a folder fails' sys::open 'folder . folder .' 'folder EIO,folder 0'
fails 'read fails' sys::read 'open old read 4 read 4' 'open 0,read EIO,read 4'
fails 'pread fails' sys::read 'open old pread 4 read 4' 'open 0,pread EIO,read 4'
fails 'readv fails' sys::read 'open old readv 3 4 readv 3 4' 'open 0,readv EIO,readv 7'
fails 'preadv fails' sys::read 'open old preadv 3 4 preadv 3 4' 'open 0,preadv EIO,preadv 7'
fails 'write fails' sys::write 'create a write bcd write ef' 'create 0,write EIO,write 2'
fails 'pwrite fails' sys::write 'create a pwrite bcd pwrite ef' 'create 0,pwrite EIO,pwrite 2'
fails 'writev fails' sys::write 'create a writev bcd e writev bcd e' 'create 0,writev EIO,writev 4'
fails 'pwritev fails' sys::write 'create a pwritev bcd e pwritev bcd e' 'create 0,pwritev EIO,pwritev 4'
fails 'fsync fails' sys::fsync 'open old fsync fsync' 'open 0,fsync EIO,fsync 0'
fails 'fdatasync is fsync' sys::fsync 'open old fdatasync fsync' 'open 0,fdatasync EIO,fsync 0'
fails 'sync of a folder fails' sys::fsync 'folder . fsync fsync' 'folder 0,fsync EIO,fsync 0'
fails 'ftruncate fails' sys::truncate 'open old ftruncate 2 read 9' 'open 0,ftruncate EIO,read 9'
fails 'truncate is ftruncate' sys::truncate 'truncate old 2 truncate old 3' 'truncate EIO,truncate 0'
fails 'rename fails' sys::rename 'rename old new rename old new' 'rename EIO,rename 0'
fails 'link fails' sys::link 'link old new link old new' 'link EIO,link 0'
fails 'unlink fails' sys::unlink 'unlink old unlink old' 'unlink EIO,unlink 0'
fails 'remove of a file is unlink' sys::unlink 'remove old remove old' 'remove EIO,remove 0'
fails 'mkdir fails' sys::mkdir 'mkdir new mkdir new' 'mkdir EIO,mkdir 0'
fails 'rmdir fails' sys::rmdir 'mkdir new rmdir new rmdir new' 'mkdir 0,rmdir EIO,rmdir 0'
fails 'remove of a folder is rmdir' sys::rmdir 'mkdir new remove new remove new' 'mkdir 0,remove EIO,remove 0'

try 'sys::write=1*return;sys::unlink=return' create a write bc unlink old
is 'a call that fails does nothing' 'a= old=0123456789 sub/ sub/in=inside ' "$(files)"

# Which errors a return may name.
expected=
steps=
chain=
for error in EIO ENOSPC EDQUOT EACCES EPERM EROFS EINTR EAGAIN EBUSY EEXIST EFBIG EMFILE ENFILE ENOENT ENOMEM ESTALE EXDEV; do
    chain="$chain->1*return($error)"
    steps="$steps unlink old"
    expected="$expected,unlink $error"
done
try "sys::unlink=${chain#->}" $steps
is 'errors by name' "${expected#,}" "$said"
try 'sys::unlink=1*return()' unlink old
is 'an empty argument is EIO' 'unlink EIO' "$said"

# Half of what a read or write would move, rounded down, and at least one byte, so that a program that goes on with the rest comes to its end.
try 'sys::write=return(HALF)' create a write abcde pwrite x writev abc defg writev '' '' pwritev ab c
is 'half of each write' 'create 0,write 2,pwrite 1,writev 3,writev 0,pwritev 1' "$said"
is 'half is what the file holds' 'a=ababc' "$(files | cut -d ' ' -f 1)"
try 'sys::read=return(HALF)' open old read 5 pread 9 readv 3 4 preadv 1 1 read 9 pread 99 read 99 read 1 read 99
is 'half of each read' 'open 0,read 2,pread 4,readv 3,preadv 1,read 2,pread 5,read 1,read 1,read 1' "$said"
try 'sys::read=return(HALF)' open old read 20 read 20 read 20 read 20 read 20
is 'and none at the end' 'open 0,read 5,read 2,read 1,read 1,read 1 return(HALF)' "$said $(answers | cut -d , -f 6)"
is 'which is told by 0' 0 "$(go 'sys::read=return(HALF)' create old read 1; tail -n 1 "$here/said" | cut -d ' ' -f 2)"

# Which hit, and how long.
try 'sys::write=2*off->1*return' create a write b write c write d write e
is 'the third hit alone' 'create 0,write 1,write 1,write EIO,write 1' "$said"
try 'sys::write=1*off->return' create a write b write c write d
is 'from the second hit on' 'create 0,write 1,write EIO,write EIO' "$said"
try 'sys::write=1*return->1*off->2*return(ENOSPC)' create a write b write c write d write e write f
is 'a chain, term after term' 'create 0,write EIO,write 1,write ENOSPC,write ENOSPC,write 1' "$said"
try 'sys::write=0*return->1*off->0*panic->1*return' create a write b write c
is 'a term of count 0 never acts' 'create 0,write 1,write EIO' "$said"
try 'sys::write=off->return' create a write b write c
is 'an off without a count hides what follows' 'create 0,write 1,write 1' "$said"

# The other tasks.
try 'sys::write=1*off->1*panic' create a write b write c write d
is 'a panic ends the program before the call' '99 create 0,write 1 a=b' "$status $said $(files | cut -d ' ' -f 1)"
is 'and is in the trace' 'go,go,panic' "$(answers)"
try 'sys::write=pause' create a write b
is 'a pause ends it with a status of its own' '97 create 0 go,pause' "$status $said $(answers)"
try 'sys::write=1*print(a	(b)\)->yield' create a write b write c
is 'print and yield go on' 'create 0,write 1,write 1 go,print(a\011(b)\134),go' "$said $(answers)"
try 'sys::write=1*sleep(40)->1*delay(0)' create a write b write c
is 'sleep and delay go on' 'create 0,write 1,write 1 go,sleep(40),delay(0)' "$said $(answers)"
before=$(date +%s%N)
try 'sys::write=sleep(300)' create a write b
is 'sleep takes its time' yes "$([ $(($(date +%s%N) - before)) -ge 300000000 ] && echo yes)"

# The trace, and which files count.
try 'sys::write=1*off->1*return(ENOSPC)' create a write b write c fsync rename a sub/b folder . fsync
is 'a trace' '1	sys::open	1	go	a
2	sys::write	1	go	a
3	sys::write	2	return(ENOSPC)	a
4	sys::fsync	1	go	a
5	sys::rename	1	go	sub/b
6	sys::open	2	go	.
7	sys::fsync	2	go	.' "$(cut -f 1-5 "$here/run/trace")"
try none create 'a	b
c' unlink 'a	b
c'
is 'odd names stay in their column' 'a\011b\012c,a\011b\012c' "$(cut -f 5 "$here/run/trace" | paste -s -d ,)"
mkdir "$here/other"
try 'sys::open=return' create "$here/other/a" write b fsync open ../data/old
is 'files elsewhere are no point' 'create 0,write 1,fsync 0,open EIO' "$said"
try 'sys::rename=return' create ../other/a rename ../other/a b rename old ../other/b
is 'a rename counts where either name does' 'create 0,rename EIO,rename EIO' "$said"
try none symlink sub way create way/../way/x unlink ./sub//x
is 'folders on the way are resolved' 'way,sub/x,sub/x' "$(cut -f 5 "$here/run/trace" | paste -s -d ,)"
try none create sub/a write b rename sub way write c rename way/a old write d
is 'a file is named as it is by then' 'sub/a,sub/a,way,way/a,old,old' "$(cut -f 5 "$here/run/trace" | paste -s -d ,)"
try 'sys::write=1*off->1*return' create a write b forget create c write d
is 'a program may close every descriptor' 'create 0,write 1,forget 0,create 0,write EIO' "$said"
try 'sys::write=2*off->1*return' create a write b cover 600 write c write d write e
is 'or have them for a file of its own' 'create 0,write 1,cover 0,write 1,write EIO,write 1 a=bce 1 1 EIO 1' \
    "$said $(files | cut -d ' ' -f 1) $(cut -f 8 "$here/run/trace" | tail -n 4 | paste -s -d ' ' | sed 's/  */ /g;s/ $//')"
is 'or not many' 'create 0,write 1,write EIO,write 1' "$(ulimit -n 64; try 'sys::write=1*off->1*return' create a write b write c write d; echo "$said")"

# Several processes of one run, and threads.
try 'sys::write=2*off->1*return' create a write b child write c write d parent write e
is 'a child goes on counting' 'create 0,write 1,write 1,write EIO,child 0,write 1' "$said"
try 'sys::write=1*off->1*panic' create a write b child write c parent write d
is 'a panic ends each process' '99 create 0,write 1' "$status $said"
is 'nor is it traced' 'go,go,panic' "$(answers)"
try 'sys::write=1*off->1*return' create a write b
go 'sys::write=1*off->1*return' open a write c write d
is 'the next program goes on counting' 'open 0,write EIO,write 1' "$said"
try 'sys::write=9*off->3*return' create a threads 40
is 'threads share the counts' 'create 0,threads 3 41' "$said $(wc -l < "$here/run/trace")"
