/* Reads and writes of files. The supervisor makes them with the thread's own descriptor, so it knows their results. */
#define _GNU_SOURCE
#include "operations.h"
#include "parts.h"
#include "pin.h"
#include "streams.h"

#include <errno.h>

enum { MOST_AT_ONCE = 16 << 20 };

/* ---- where */

/* Reads a place from the call's arguments: -1 if the file's own place counts. Returns false for one that the system refuses. */
static bool read_place(const struct call *call, off_t *at) {
    *at = call->row->at ? (off_t)argument(call, call->row->at) : -1;
    return !call->row->at || *at >= 0 || (*at == -1 && call->row->flags);
}

static int flags_of(const struct call *call) { return (int)argument(call, call->row->flags); }

/* ---- writes */

struct writing {
    struct call *call;
    const struct opened *opened;
    struct file_facts file; /* as it is now */
    off_t at;       /* where the call says that it writes, or -1 */
    uint64_t place; /* where in the file the next byte goes */
    bool syncs;
};

static long write_noted(struct writing *writing, char *bytes, size_t length) {
    char link[LINK_LENGTH];
    int file = writing->opened->file, flags = flags_of(writing->call);
    const struct key *key = &writing->file.key;
    uint64_t place = writing->place;
    if (is_kept) copy_later(key, link_of(file, link), place, place + length);
    struct iovec part = {bytes, length};
    take_limit(writing->call->thread);
    long result = result_of(pwritev2(file, &part, 1, writing->at, flags));
    end_limit(writing->call->thread);
    if (result <= 0) return result;
    if (is_kept) {
        bool later = may_come_later(&writing->file, place, (uint64_t)result);
        note_bytes(WRITTEN, key, place, later ? NULL : &part, 1, (uint64_t)result);
        if (writing->syncs) note_sync(DSYNC_WRITE, key, place, (uint64_t)result);
    }
    mapped_was_written(key, place, bytes, (uint64_t)result);
    if (place + (uint64_t)result > writing->file.length) {
        writing->file.length = place + (uint64_t)result;
        set_unallocated(key, !writing->syncs);
    }
    if (writing->at >= 0) writing->at += result;
    writing->place += (uint64_t)result;
    return result;
}

static long write_parts(struct writing *writing, const struct parts *parts, size_t length) {
    size_t done = 0;
    do {
        size_t some = length - done < MOST_AT_ONCE ? length - done : MOST_AT_ONCE;
        char *bytes = room_for(parts, some);
        size_t got = some ? gather(writing->call, parts, done, some, bytes) : 0;
        if (some && !got) return done ? (long)done : -EFAULT;
        long result = write_noted(writing, bytes, got);
        if (result < 0) return done ? (long)done : result;
        done += (size_t)result;
        if ((size_t)result < some) break;
    } while (done < length);
    return (long)done;
}

/* Returns the error of a place that the system refuses, or 0. */
static int begin_writing(struct writing *writing, struct call *call, const struct opened *opened) {
    int flags = flags_of(call);
    *writing = (struct writing){.call = call, .opened = opened, .file = opened->facts.file};
    writing->syncs = opened->flags & O_DSYNC || flags & (RWF_DSYNC | RWF_SYNC);
    if (!read_place(call, &writing->at)) return -EINVAL;
    bool appends = opened->flags & O_APPEND || flags & RWF_APPEND;
    off_t here = appends || writing->at >= 0 ? writing->at : lseek(opened->file, 0, SEEK_CUR);
    writing->place = appends ? writing->file.length : (uint64_t)here;
    return 0;
}

void serve_write(struct call *call) {
    struct opened opened;
    struct parts parts;
    struct writing writing;
    if (!open_of(call, call->row->file, &opened)) return serve_stream(call, &opened, SEND);
    if (!S_ISREG(opened.facts.file.key.mode) && !S_ISDIR(opened.facts.file.key.mode)) return serve_stream(call, &opened, WRITE);
    int error = parts_of(call, &parts), misplaced = begin_writing(&writing, call, &opened);
    if (!error) error = misplaced;
    call->takes_room = !error && parts.length && writing.place + parts.length > writing.file.length;
    enum answer answer = hit(call, WRITE, opened.path, NULL);
    if (!is_done(answer)) return;
    if (error) return finish(call, error);
    finish(call, write_parts(&writing, &parts, answer == HALF ? half_of(parts.length) : parts.length));
}

/* ---- reads */

static long read_some(const struct call *call, const struct opened *opened, char *bytes, size_t length, off_t at) {
    struct iovec part = {bytes, length};
    return result_of(preadv2(opened->file, &part, 1, at, flags_of(call)));
}

static long read_file(struct call *call, const struct opened *opened, const struct parts *parts, bool halves) {
    size_t done = 0, length = parts->length;
    off_t at;
    if (!read_place(call, &at)) return -EINVAL;
    if (halves) length = half_of(moves_now(opened, at, length));
    do {
        size_t some = length - done < MOST_AT_ONCE ? length - done : MOST_AT_ONCE;
        char *bytes = room_for(parts, some);
        long got = read_some(call, opened, bytes, some, at < 0 ? at : at + (off_t)done);
        if (got < 0) return done ? (long)done : got;
        size_t given = got ? scatter(call, parts, done, (size_t)got, bytes) : 0;
        if (given < (size_t)got && at < 0) lseek(opened->file, (off_t)given - got, SEEK_CUR);
        done += given;
        if (given < (size_t)got) return done ? (long)done : -EFAULT;
        if ((size_t)got < some) break;
    } while (done < length);
    return (long)done;
}

void serve_read(struct call *call) {
    struct opened opened;
    struct parts parts;
    if (!open_of(call, call->row->file, &opened)) {
        if (!serve_operation(call, &opened) && !serve_random_read(call, &opened)) serve_stream(call, &opened, RECV);
        return;
    }
    if (!S_ISREG(opened.facts.file.key.mode) && !S_ISDIR(opened.facts.file.key.mode)) return serve_stream(call, &opened, READ);
    int error = parts_of(call, &parts);
    enum answer answer = hit(call, READ, opened.path, NULL);
    if (!is_done(answer)) return;
    if (error) return finish(call, error);
    finish(call, read_file(call, &opened, &parts, answer == HALF));
}
