#define _GNU_SOURCE
#include "notes.h"

#include <errno.h>
#include <fcntl.h>
#include <sys/stat.h>

struct key told_key(const struct statx *told) {
    return (struct key){told->stx_ino, told->stx_btime.tv_sec, told->stx_btime.tv_nsec, told->stx_mode, told->stx_uid, told->stx_gid};
}

bool facts_of(int folder, const char *name, int flags, struct file_facts *facts) {
    struct statx told;
    if (statx(folder, name, flags, STATX_BASIC_STATS | STATX_BTIME, &told)) return false;
    if (!(told.stx_mask & STATX_BTIME)) {
        errno = ENOTSUP;
        return false;
    }
    facts->key = told_key(&told);
    facts->length = told.stx_size;
    facts->links = told.stx_nlink;
    return true;
}
