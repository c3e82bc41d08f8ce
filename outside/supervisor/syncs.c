/* Syncs. A sync promises what was noted before it began. The disk itself is synced only if it is asked for, since a power cut goes by the notes. */
#define _GNU_SOURCE
#include "supervisor.h"
#include "syncs.h"

#include <errno.h>

bool syncs_disk;

void finish_sync(struct call *call) {
    if (syncs_disk) go_on(call);
    else finish(call, 0);
}

static bool can_be_synced(const struct opened *opened) {
    mode_t mode = opened->facts.file.key.mode;
    return S_ISREG(mode) || S_ISDIR(mode);
}

/* Notes a sync that fails. What it would have written is lost then, and takes no room any more. */
static void note_failed(const struct key *file) {
    if (!forgets) return;
    set_unallocated(file, false);
    if (!is_kept) return;
    lock_run();
    note_failed_sync(file);
    unlock_run();
}

void serve_sync(struct call *call) {
    struct opened opened;
    if (!open_of(call, call->row->file, &opened)) return go_on(call);
    const struct key *key = &opened.facts.file.key;
    note_stores(key); /* before a call that fails is answered: its thread stores more as soon as it goes on */
    call->takes_room = is_unallocated(key);
    enum answer answer = hit(call, FSYNC, opened.path, NULL);
    if (answer == FAIL) note_failed(key);
    if (answer != GO) return;
    if (!can_be_synced(&opened)) return go_on(call);
    set_unallocated(key, false);
    if (is_kept) note_sync(call->row->number == SYS_fdatasync ? FDATASYNC_CALL : FSYNC_CALL, key, 0, 0);
    finish_sync(call);
}

/* The manual of sync_file_range promises nothing about the disk, so nothing lasts by it. */
void serve_sync_range(struct call *call) {
    struct opened opened;
    if (!open_of(call, call->row->file, &opened)) return go_on(call);
    if (hit(call, FSYNC, opened.path, NULL) != GO) return;
    finish(call, result_of(sync_file_range(opened.file, (off_t)argument(call, call->row->at), (off_t)argument(call, call->row->length),
        (unsigned)argument(call, call->row->flags))));
}

long sync_root(void) {
    int folder = open(root, O_RDONLY | O_DIRECTORY | O_CLOEXEC);
    if (folder < 0) return -errno;
    long result = result_of(syncfs(folder));
    close(folder);
    return result;
}

/* A sync of all files is a hit with the root as its file. A syncfs of another file system than the root's is no point. */
void serve_sync_all(struct call *call) {
    struct opened opened;
    struct stat of_root;
    if (call->row->file) {
        opened.file = hold(call, fetch(call->thread, (int)argument(call, call->row->file)));
        if (opened.file < 0 || !look_at(opened.file, "", AT_EMPTY_PATH, &opened.facts)) return go_on(call);
        if (stat(root, &of_root) || opened.facts.device != of_root.st_dev) return go_on(call);
    }
    enum answer answer = hit(call, FSYNC, ".", NULL);
    if (answer != GO) return;
    note_all_stores();
    all_are_allocated();
    if (is_kept) note_sync(call->row->file ? SYNCFS_CALL : SYNC_CALL, &(struct key){0}, 0, 0);
    finish(call, syncs_disk ? sync_root() : 0);
}
