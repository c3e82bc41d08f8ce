/* Calls that are no points: those that start programs, that change users, masks, limits and folders, and those that fail as on a system without
   them. */
#define _GNU_SOURCE
#include "supervisor.h"

#include <errno.h>
#include <sys/statvfs.h>

/* Whether a program has set-id bits. They don't count here, as for any process that may not gain rights. */
static bool is_set_id(const struct found *found) {
    const struct key *file = &found->facts.file.key;
    bool by_group = (file->mode & (S_ISGID | S_IXGRP)) == (S_ISGID | S_IXGRP);
    struct statvfs system;
    if (!S_ISREG(file->mode) || !(by_group || file->mode & S_ISUID)) return false;
    return fstatvfs(found->folder, &system) || !(system.f_flag & ST_NOSUID);
}

void serve_program(struct call *call) {
    struct found found;
    char text[PATH_MAX];
    bool is_there = find_name(call, true, &found) && found.exists;
    if (is_there && is_set_id(&found) && read_text(call->thread, argument(call, call->row->path), text, sizeof text))
        unseen("the set-id bits, which don't count here, of", text);
    call->thread->program = 0;
    go_on(call);
}

void serve_ids(struct call *call) {
    ids_changed();
    go_on(call);
}

void serve_mask(struct call *call) {
    mask_changed(call->thread);
    go_on(call);
}

void serve_limits(struct call *call) {
    limits_changed();
    go_on(call);
}

void serve_move(struct call *call) {
    folder_changes(call->thread);
    go_on(call);
}

void serve_root(struct call *call) {
    root_changed();
    folder_changes(call->thread);
    go_on(call);
}

/* Asynchronous requests are no calls, so they fail. Programs have another way, for systems without them. */
static void lack(struct call *call, const char *name) {
    unseen("asynchronous requests, which fail as on a system without them:", name);
    finish(call, -ENOSYS);
}

void serve_ring(struct call *call) { lack(call, "io_uring_setup"); }
void serve_requests(struct call *call) { lack(call, "io_setup"); }
