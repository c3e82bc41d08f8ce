/* Copies inside the system, from one descriptor to another: a write of the one file, or a read of the other. */
#define _GNU_SOURCE
#include "streams.h"

#include <errno.h>
#include <linux/fs.h>
#include <poll.h>
#include <sys/ioctl.h>
#include <sys/sendfile.h>

struct copy {
    struct opened in, out;
    bool reads, writes, sends; /* a file under the root, or a socket */
    loff_t in_at, out_at;
    loff_t *in_place, *out_place; /* null if the descriptor's own place counts */
    size_t length;
};

static bool read_place(const struct call *call, unsigned number, loff_t *at, loff_t **place) {
    uint64_t where = argument(call, number);
    *place = where ? at : NULL;
    return !where || read_memory(call->thread, where, at, sizeof *at) == sizeof *at;
}

static void write_place(const struct call *call, unsigned number, const loff_t *place) {
    if (place) write_memory(call->thread, argument(call, number), place, sizeof *place);
}

static bool is_stream(const struct opened *opened) {
    mode_t mode = opened->facts.file.key.mode;
    return opened->file >= 0 && (S_ISFIFO(mode) || S_ISSOCK(mode));
}

static bool is_ready(const struct opened *opened, short events) {
    return !is_stream(opened) || poll(&(struct pollfd){opened->file, events, 0}, 1, 0) != 0;
}

/* Lets the call wait for its pipe or socket. Returns false if there is none for which it may wait. */
static bool may_wait(struct call *call, const struct copy *copy) {
    bool waits_for_bytes = is_stream(&copy->in) && (!is_stream(&copy->out) || !is_ready(&copy->in, POLLIN));
    const struct opened *opened = waits_for_bytes ? &copy->in : &copy->out;
    bool is_asked_not_to = call->row->flags && argument(call, call->row->flags) & SPLICE_F_NONBLOCK;
    if (is_asked_not_to || !is_stream(opened) || fcntl(opened->file, F_GETFL) & O_NONBLOCK) return false;
    flush_hit(call);
    wait_for(call, opened->file, waits_for_bytes ? POLLIN : POLLOUT);
    return true;
}

/* Makes the call itself. */
typedef ssize_t copier(const struct copy *copy, unsigned flags);

static ssize_t by_range(const struct copy *copy, unsigned flags) {
    return copy_file_range(copy->in.file, copy->in_place, copy->out.file, copy->out_place, copy->length, flags);
}
/* It never waits itself, and fails with EAGAIN. */
static ssize_t by_splice(const struct copy *copy, unsigned flags) {
    return splice(copy->in.file, copy->in_place, copy->out.file, copy->out_place, copy->length, flags | SPLICE_F_NONBLOCK);
}
static ssize_t by_sendfile(const struct copy *copy, unsigned flags) {
    (void)flags;
    return sendfile(copy->out.file, copy->in.file, copy->in_place, copy->length);
}

/* Makes the copy, and reads back what was copied for the note. */
static long copy_noted(const struct call *call, const struct copy *what, copier *copies) {
    char link[LINK_LENGTH];
    const struct key *key = &what->out.facts.file.key;
    bool notes = what->writes && S_ISREG(key->mode);
    uint64_t place = (uint64_t)(what->out_place ? *what->out_place : lseek(what->out.file, 0, SEEK_CUR));
    if (notes && is_kept) copy_later(key, link_of(what->out.file, link), place, UINT64_MAX);
    hold_signals();
    take_limit(call->thread);
    long result = result_of(copies(what, (unsigned)argument(call, call->row->flags)));
    end_limit(call->thread);
    let_signals();
    if (!notes || result <= 0) return result;
    if (place + (uint64_t)result > what->out.facts.file.length) set_unallocated(key, true);
    if (is_kept && !mapped_was_changed(key)) note_from_file(key, link_of(what->out.file, link), place, (uint64_t)result);
    return result;
}

static bool open_both(struct call *call, struct copy *copy) {
    const struct row *row = call->row;
    *copy = (struct copy){.length = argument(call, row->length)};
    copy->writes = open_of(call, row->other_file, &copy->out);
    copy->reads = open_of(call, row->file, &copy->in);
    copy->sends = !copy->writes && sees_sockets && is_socket(&copy->out);
    return copy->writes || copy->reads || copy->sends;
}

/* Whether the copy ends beyond the file to which it writes. */
static bool grows(const struct call *call, struct copy *copy) {
    const struct file_facts *out = &copy->out.facts.file;
    bool is_there = copy->writes && S_ISREG(out->key.mode) && copy->in.file >= 0;
    if (!is_there || !read_place(call, call->row->other_at, &copy->out_at, &copy->out_place)) return false;
    if (!read_place(call, call->row->at, &copy->in_at, &copy->in_place)) return false;
    off_t at = copy->out_place ? copy->out_at : lseek(copy->out.file, 0, SEEK_CUR);
    size_t length = moves_now(&copy->in, copy->in_place ? copy->in_at : -1, copy->length);
    return length && (uint64_t)at + length > out->length;
}

static enum answer hit_copy(struct call *call, const struct copy *copy) {
    if (copy->writes) return hit(call, WRITE, copy->out.path, NULL);
    return copy->sends ? hit(call, SEND, "socket", NULL) : hit(call, READ, copy->in.path, NULL);
}

/* A copy to a stream may wait for its reader, and the reader for the supervisor. So it goes on by itself, except for a half, of which only as much is
   done as fits. */
static void take_half(struct copy *copy) {
    copy->length = half_of(moves_now(&copy->in, copy->in_place ? copy->in_at : -1, copy->length));
    if (is_stream(&copy->out) && copy->length > PIPE_BUF) copy->length = PIPE_BUF;
}

static void serve_by(struct call *call, copier *copies) {
    struct copy copy;
    const struct row *row = call->row;
    if (!open_both(call, &copy)) return go_on(call);
    call->takes_room = grows(call, &copy);
    enum answer answer = hit_copy(call, &copy);
    if (!is_done(answer)) return;
    if (answer == DROP) return finish(call, (long)copy.length);
    if (answer == GO && is_stream(&copy.out)) return go_on(call);
    if (copy.in.file < 0 || copy.out.file < 0) return finish(call, -EBADF);
    if (!read_place(call, row->at, &copy.in_at, &copy.in_place)) return finish(call, -EFAULT);
    if (!read_place(call, row->other_at, &copy.out_at, &copy.out_place)) return finish(call, -EFAULT);
    if (answer == HALF) take_half(&copy);
    if (copies != by_splice && !is_ready(&copy.out, POLLOUT) && may_wait(call, &copy)) return;
    long result = copy_noted(call, &copy, copies);
    if (result == -EAGAIN && may_wait(call, &copy)) return;
    write_place(call, row->at, copy.in_place);
    write_place(call, row->other_at, copy.out_place);
    finish(call, result);
}

void serve_copy(struct call *call) { serve_by(call, by_range); }
void serve_splice(struct call *call) { serve_by(call, by_splice); }
void serve_sendfile(struct call *call) { serve_by(call, by_sendfile); }

/* ---- files that come to share their blocks */

static long clone_range(struct call *call, const struct opened *out) {
    struct file_clone_range range;
    uint64_t at = argument(call, call->row->file);
    if (read_memory(call->thread, at, &range, sizeof range) != sizeof range) return -EFAULT;
    int in = hold(call, fetch(call->thread, (int)range.src_fd));
    if (in < 0) return -EBADF;
    range.src_fd = in;
    return result_of(ioctl(out->file, FICLONERANGE, &range));
}

void serve_clone(struct call *call) {
    struct opened out;
    struct facts after;
    char link[LINK_LENGTH];
    if (!open_of(call, call->row->other_file, &out)) return go_on(call);
    enum answer answer = hit(call, WRITE, out.path, NULL);
    if (!is_done(answer)) return; /* blocks are shared as a whole, so a half does all of it */
    const struct key *key = &out.facts.file.key;
    if (is_kept) copy_later(key, link_of(out.file, link), 0, UINT64_MAX);
    bool is_whole = (unsigned)argument(call, call->row->flags) == (unsigned)FICLONE;
    int in = is_whole ? hold(call, fetch(call->thread, (int)argument(call, call->row->file))) : -1;
    hold_signals();
    take_limit(call->thread);
    long result = is_whole ? in < 0 ? -EBADF : result_of(ioctl(out.file, FICLONE, in)) : clone_range(call, &out);
    end_limit(call->thread);
    let_signals();
    if (!result && is_kept && !mapped_was_changed(key) && look_at(out.file, "", AT_EMPTY_PATH, &after))
        note_from_file(key, link_of(out.file, link), 0, after.file.length);
    finish(call, result);
}
