#define _GNU_SOURCE
#include "table.h"

#include <sys/syscall.h>

#ifndef SYS_fchmodat2
#define SYS_fchmodat2 452
#endif

const struct row table[] = {
    {SYS_open, OPEN, serve_open, .path = 1, .flags = 2, .mode = 3},
    {SYS_openat, OPEN, serve_open, .folder = 1, .path = 2, .flags = 3, .mode = 4},
    {SYS_openat2, OPEN, serve_open, .folder = 1, .path = 2, .bytes = 3, .length = 4},
    {SYS_creat, OPEN, serve_open, .path = 1, .mode = 2},
    {SYS_mknod, OPEN, serve_node, .path = 1, .mode = 2, .at = 3},
    {SYS_mknodat, OPEN, serve_node, .folder = 1, .path = 2, .mode = 3, .at = 4},

    {SYS_read, READ, serve_read, .file = 1, .bytes = 2, .length = 3},
    {SYS_pread64, READ, serve_read, .file = 1, .bytes = 2, .length = 3, .at = 4},
    {SYS_readv, READ, serve_read, .file = 1, .bytes = 2, .parts = 3},
    {SYS_preadv, READ, serve_read, .file = 1, .bytes = 2, .parts = 3, .at = 4},
    {SYS_preadv2, READ, serve_read, .file = 1, .bytes = 2, .parts = 3, .at = 4, .flags = 6},
    {SYS_write, WRITE, serve_write, .file = 1, .bytes = 2, .length = 3},
    {SYS_pwrite64, WRITE, serve_write, .file = 1, .bytes = 2, .length = 3, .at = 4},
    {SYS_writev, WRITE, serve_write, .file = 1, .bytes = 2, .parts = 3},
    {SYS_pwritev, WRITE, serve_write, .file = 1, .bytes = 2, .parts = 3, .at = 4},
    {SYS_pwritev2, WRITE, serve_write, .file = 1, .bytes = 2, .parts = 3, .at = 4, .flags = 6},
    {SYS_copy_file_range, WRITE, serve_copy, .file = 1, .at = 2, .other_file = 3, .other_at = 4, .length = 5, .flags = 6},
    {SYS_splice, WRITE, serve_splice, .file = 1, .at = 2, .other_file = 3, .other_at = 4, .length = 5, .flags = 6},
    {SYS_sendfile, WRITE, serve_sendfile, .other_file = 1, .file = 2, .at = 3, .length = 4},
    {SYS_ioctl, WRITE, serve_clone, CLONED_FILES, .other_file = 1, .flags = 2, .file = 3},

    {SYS_fsync, FSYNC, serve_sync, .file = 1},
    {SYS_fdatasync, FSYNC, serve_sync, .file = 1},
    {SYS_sync_file_range, FSYNC, serve_sync_range, .file = 1, .at = 2, .length = 3, .flags = 4},
    {SYS_sync, FSYNC, serve_sync_all, .where = ALWAYS},
    {SYS_syncfs, FSYNC, serve_sync_all, .file = 1},
    {SYS_msync, FSYNC, serve_map_sync, .bytes = 1, .length = 2, .flags = 3},

    {SYS_ftruncate, TRUNCATE, serve_resize, .file = 1, .length = 2},
    {SYS_truncate, TRUNCATE, serve_resize, .path = 1, .length = 2},
    {SYS_fallocate, TRUNCATE, serve_allocate, .file = 1, .flags = 2, .at = 3, .length = 4},

    {SYS_rename, RENAME, serve_rename, .path = 1, .other_path = 2},
    {SYS_renameat, RENAME, serve_rename, .folder = 1, .path = 2, .other_folder = 3, .other_path = 4},
    {SYS_renameat2, RENAME, serve_rename, .folder = 1, .path = 2, .other_folder = 3, .other_path = 4, .flags = 5},
    {SYS_link, LINK, serve_link, .path = 1, .other_path = 2},
    {SYS_linkat, LINK, serve_link, .folder = 1, .path = 2, .other_folder = 3, .other_path = 4, .flags = 5},
    {SYS_unlink, UNLINK, serve_unlink, .path = 1},
    {SYS_unlinkat, UNLINK, serve_unlink, .folder = 1, .path = 2, .flags = 3},
    {SYS_rmdir, RMDIR, serve_unlink, .path = 1},
    {SYS_mkdir, MKDIR, serve_folder, .path = 1, .mode = 2},
    {SYS_mkdirat, MKDIR, serve_folder, .folder = 1, .path = 2, .mode = 3},
    {SYS_symlink, SYMLINK, serve_symlink, .bytes = 1, .path = 2},
    {SYS_symlinkat, SYMLINK, serve_symlink, .bytes = 1, .folder = 2, .path = 3},

    {SYS_readlink, OWN, serve_link_text, .path = 1, .bytes = 2, .length = 3},
    {SYS_readlinkat, OWN, serve_link_text, .path = 2, .bytes = 3, .length = 4},

    {SYS_chmod, POINTS, serve_attributes, .path = 1, .mode = 2},
    {SYS_fchmod, POINTS, serve_attributes, .file = 1, .mode = 2},
    {SYS_fchmodat, POINTS, serve_attributes, .folder = 1, .path = 2, .mode = 3},
    {SYS_fchmodat2, POINTS, serve_attributes, .folder = 1, .path = 2, .mode = 3, .flags = 4},
    {SYS_chown, POINTS, serve_attributes, .path = 1, .at = 2, .length = 3},
    {SYS_lchown, POINTS, serve_attributes, .path = 1, .at = 2, .length = 3},
    {SYS_fchown, POINTS, serve_attributes, .file = 1, .at = 2, .length = 3},
    {SYS_fchownat, POINTS, serve_attributes, .folder = 1, .path = 2, .at = 3, .length = 4, .flags = 5},

    {SYS_mmap, POINTS, serve_map, SHARED_FILES, .bytes = 1, .length = 2, .mode = 3, .flags = 4, .file = 5, .at = 6},
    {SYS_mprotect, POINTS, serve_protect, WRITABLE, .bytes = 1, .length = 2, .mode = 3},
    {SYS_munmap, POINTS, serve_unmap, .bytes = 1, .length = 2},

    {SYS_connect, CONNECT, serve_connect, ON_SOCKETS, .file = 1, .bytes = 2, .length = 3},
    {SYS_accept, ACCEPT, serve_accept, ON_SOCKETS, .file = 1, .bytes = 2, .length = 3},
    {SYS_accept4, ACCEPT, serve_accept, ON_SOCKETS, .file = 1, .bytes = 2, .length = 3, .flags = 4},
    {SYS_sendto, SEND, serve_send, ON_SOCKETS, .file = 1, .bytes = 2, .length = 3, .flags = 4, .other_path = 5, .other_at = 6},
    {SYS_sendmsg, SEND, serve_one_message, ON_SOCKETS, .file = 1, .bytes = 2, .flags = 3},
    {SYS_sendmmsg, SEND, serve_all_messages, ON_SOCKETS, .file = 1, .bytes = 2, .parts = 3, .flags = 4},
    {SYS_recvfrom, RECV, serve_receive, ON_SOCKETS, .file = 1, .bytes = 2, .length = 3, .flags = 4, .other_path = 5, .other_at = 6},
    {SYS_recvmsg, RECV, serve_one_message, ON_SOCKETS, .file = 1, .bytes = 2, .flags = 3},
    {SYS_recvmmsg, RECV, serve_all_messages, ON_SOCKETS, .file = 1, .bytes = 2, .parts = 3, .flags = 4},

    {SYS_execve, POINTS, serve_program, .path = 1},
    {SYS_execveat, POINTS, serve_program, .folder = 1, .path = 2, .flags = 5},
    {SYS_umask, POINTS, serve_mask, .where = ALWAYS},
    {SYS_setuid, POINTS, serve_ids, .where = ALWAYS},
    {SYS_setgid, POINTS, serve_ids, .where = ALWAYS},
    {SYS_setreuid, POINTS, serve_ids, .where = ALWAYS},
    {SYS_setregid, POINTS, serve_ids, .where = ALWAYS},
    {SYS_setresuid, POINTS, serve_ids, .where = ALWAYS},
    {SYS_setresgid, POINTS, serve_ids, .where = ALWAYS},
    {SYS_setfsuid, POINTS, serve_ids, .where = ALWAYS},
    {SYS_setfsgid, POINTS, serve_ids, .where = ALWAYS},
    {SYS_setgroups, POINTS, serve_ids, .where = ALWAYS},
    {SYS_capset, POINTS, serve_ids, .where = ALWAYS},
    {SYS_prctl, POINTS, serve_ids, NEW_RIGHTS, .mode = 1},
    {SYS_chdir, POINTS, serve_move, .path = 1},
    {SYS_fchdir, POINTS, serve_move, .file = 1},
    {SYS_setrlimit, POINTS, serve_limits, .bytes = 2},
    {SYS_prlimit64, POINTS, serve_limits, NEW_LIMITS, .bytes = 3},
    {SYS_chroot, POINTS, serve_root, .where = ALWAYS},
    {SYS_pivot_root, POINTS, serve_root, .where = ALWAYS},
    {SYS_unshare, POINTS, serve_root, .where = ALWAYS},
    {SYS_setns, POINTS, serve_root, .where = ALWAYS},
    {SYS_io_uring_setup, POINTS, serve_ring, .where = ALWAYS},
    {SYS_io_setup, POINTS, serve_requests, .where = ALWAYS},
    {SYS_nanosleep, POINTS, serve_sleep, ORDERED, .bytes = 1, .other_at = 2},
    {SYS_clock_nanosleep, POINTS, serve_sleep, ORDERED, .mode = 1, .flags = 2, .bytes = 3, .other_at = 4},
    {SYS_futex, POINTS, serve_futex, FUTEXES, .at = 1, .mode = 2, .length = 3, .bytes = 4, .other_at = 5, .flags = 6},
    {SYS_set_robust_list, POINTS, serve_begin, ORDERED, .bytes = 1, .length = 2},
    {SYS_sched_yield, POINTS, serve_yield, .where = ORDERED},
    {SYS_getrandom, POINTS, serve_random, PINNED, .bytes = 1, .length = 2},
};
const size_t table_length = sizeof table / sizeof *table;

enum { MOST_NUMBERS = 512 };

const struct row *row_of(int number) {
    static unsigned char rows[MOST_NUMBERS]; /* the row's number plus one */
    if (!rows[table[0].number])
        for (size_t i = 0; i < table_length; i++) rows[table[i].number] = (unsigned char)(i + 1);
    return number >= 0 && number < MOST_NUMBERS && rows[number] ? &table[rows[number] - 1] : NULL;
}
