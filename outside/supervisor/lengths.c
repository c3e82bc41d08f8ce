/* Calls that change a file's length, or clear a part of it. */
#define _GNU_SOURCE
#include "supervisor.h"

#include <errno.h>

enum { CLEARS = FALLOC_FL_PUNCH_HOLE | FALLOC_FL_ZERO_RANGE, MOVES = FALLOC_FL_COLLAPSE_RANGE | FALLOC_FL_INSERT_RANGE };

/* What a call changes in a file, and the path by which the file is reached. */
struct resizing {
    const char *path;
    const struct facts *before;
    uint64_t keeps; /* so many bytes at its beginning stay */
};

static void begin_resize(const struct resizing *resizing) {
    if (is_kept && S_ISREG(resizing->before->file.key.mode))
        copy_later(&resizing->before->file.key, resizing->path, resizing->keeps, UINT64_MAX);
}

static void end_resize(const struct resizing *resizing) {
    struct facts after;
    const struct key *key = &resizing->before->file.key;
    if (!S_ISREG(key->mode) || !look_at(AT_FDCWD, resizing->path, 0, &after)) return;
    if (is_kept && after.file.length != resizing->before->file.length) note_length(key, after.file.length);
    if (after.file.length < resizing->before->file.length) gave_room();
    mapped_was_resized(key);
}

static void resize_path(struct call *call) {
    struct found found;
    char path[FOUND_PATH];
    off_t length = (off_t)argument(call, call->row->length);
    if (!find_name(call, true, &found) || !found.is_inside) return pass_by(call, &found);
    if (hit(call, TRUNCATE, found.path, NULL) != GO) return;
    struct resizing resizing = {path_to(&found, path), &found.facts, (uint64_t)length};
    if (found.exists) begin_resize(&resizing);
    act_as(call->thread);
    take_limit(call->thread);
    long result = result_of(truncate(path, length));
    end_limit(call->thread);
    act_as_self();
    if (!result) end_resize(&resizing);
    finish(call, result);
}

void serve_resize(struct call *call) {
    struct opened opened;
    char link[LINK_LENGTH];
    off_t length = (off_t)argument(call, call->row->length);
    if (call->row->path) return resize_path(call);
    if (!open_of(call, call->row->file, &opened)) return go_on(call);
    if (hit(call, TRUNCATE, opened.path, NULL) != GO) return;
    struct resizing resizing = {link_of(opened.file, link), &opened.facts, (uint64_t)length};
    begin_resize(&resizing);
    take_limit(call->thread);
    long result = result_of(ftruncate(opened.file, length));
    end_limit(call->thread);
    if (!result) end_resize(&resizing);
    finish(call, result);
}

/* Notes what a fallocate did besides the length: it cleared its range, or changed all bytes from there on. */
static void note_allocated(const struct resizing *resizing, int mode, uint64_t at, uint64_t length) {
    struct facts after;
    const struct key *key = &resizing->before->file.key;
    if (mode & CLEARS) {
        note_cleared(key, at, length);
        mapped_was_written(key, at, NULL, length);
    }
    if (mode & MOVES && !mapped_was_changed(key) && look_at(AT_FDCWD, resizing->path, 0, &after) && after.file.length > at)
        note_from_file(key, resizing->path, at, after.file.length - at);
}

void serve_allocate(struct call *call) {
    struct opened opened;
    char link[LINK_LENGTH];
    int mode = (int)argument(call, call->row->flags);
    off_t at = (off_t)argument(call, call->row->at), length = (off_t)argument(call, call->row->length);
    if (!open_of(call, call->row->file, &opened)) return go_on(call);
    call->takes_room = !(mode & (FALLOC_FL_PUNCH_HOLE | FALLOC_FL_COLLAPSE_RANGE));
    if (hit(call, TRUNCATE, opened.path, NULL) != GO) return;
    struct resizing resizing = {link_of(opened.file, link), &opened.facts, mode ? (uint64_t)at : UINT64_MAX};
    begin_resize(&resizing);
    hold_signals();
    take_limit(call->thread);
    long result = result_of(fallocate(opened.file, mode, at, length));
    end_limit(call->thread);
    let_signals();
    if (!result) end_resize(&resizing);
    if (!result && is_kept && S_ISREG(opened.facts.file.key.mode))
        note_allocated(&resizing, mode, (uint64_t)at, (uint64_t)length);
    finish(call, result);
}
