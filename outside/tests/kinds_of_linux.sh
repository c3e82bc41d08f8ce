# Sourced by `test` and by `trials`. as_linux CASE: what kinds.c says, by the manuals of the calls, whether the supervisor does it or the system itself:
# signal(7) and write(2) of interruptions, setrlimit(2) and pipe(7) of moves that are short, signal(7) and flock(2) and fcntl_locking(2) of a process that is
# killed, signal(7) of SIGTERM, tmpfs(5) of a disk that is full.
as_linux() {
    case $1 in
    interrupted) echo 'read EINTR,read 1' ;;
    restarted) echo 'read 1,handled 1' ;;
    short) echo 'write 5,write 5,read 5,read 5' ;;
    killed) echo 'lock 0,record 0,pipe 0,signal 9,length 1' ;;
    told_to_end)
        printf '%s,' 'handles 0,write 1,write 1,handled 1,length then 1,signal 0,length 2' 'ignores 0,write 1,write 1,handled 0,length then 0,signal 0,length 2'
        echo 'neither 0,write 1,signal 15,length 1' ;;
    full)
        printf '%s,' 'write beyond ENOSPC,write within 5,create ENOSPC,open 0,mkdir ENOSPC,symlink ENOSPC,link ENOSPC,fallocate ENOSPC'
        echo 'unlink 0,create 0,write beyond 1' ;;
    esac
}
