#define _GNU_SOURCE
#include "parts.h"
#include "streams.h"

#include <errno.h>
#include <poll.h>
#include <signal.h>
#include <sys/ioctl.h>
#include <sys/socket.h>

/* A transfer to or from a pipe or a socket. The supervisor never waits in it: the call waits instead, until it can go on. */
struct transfer {
    struct call *call;
    const struct opened *opened;
    bool sends, is_socket, halves;
    int flags;               /* the flags of a message */
    struct parts parts;
    size_t length;
    uint64_t address;        /* where the thread's memory has the address of the other end, or 0 */
    unsigned address_length;
    struct sockaddr_storage other;
    int told_flags;          /* the flags of a message that was received */
};

bool is_socket(const struct opened *opened) { return opened->file >= 0 && S_ISSOCK(opened->facts.file.key.mode); }

/* What waits in a pipe, or in a socket, of which a message is moved as a whole. */
static long waiting_bytes(int file) {
    int type = SOCK_STREAM, bytes = 0;
    socklen_t size = sizeof type;
    getsockopt(file, SOL_SOCKET, SO_TYPE, &type, &size);
    if (type != SOCK_STREAM) return recv(file, NULL, 0, MSG_PEEK | MSG_TRUNC | MSG_DONTWAIT);
    return ioctl(file, FIONREAD, &bytes) ? 0 : bytes;
}

size_t moves_now(const struct opened *opened, off_t at, size_t length) {
    off_t place = at >= 0 ? at : lseek(opened->file, 0, SEEK_CUR);
    long there = S_ISREG(opened->facts.file.key.mode) ? (long)opened->facts.file.length - place : waiting_bytes(opened->file);
    return there > 0 && (size_t)there < length ? (size_t)there : length;
}

/* ---- one step, which moves as much as is there or fits */

static long move_message(struct transfer *transfer, char *bytes, size_t length) {
    struct iovec part = {bytes, length};
    struct msghdr message = {.msg_iov = &part, .msg_iovlen = 1};
    int flags = (transfer->flags & ~MSG_WAITALL) | MSG_DONTWAIT | MSG_NOSIGNAL;
    if (transfer->address) {
        message.msg_name = &transfer->other;
        message.msg_namelen = transfer->sends ? transfer->address_length : sizeof transfer->other;
    }
    long result = result_of(transfer->sends ? sendmsg(transfer->opened->file, &message, flags)
                                            : recvmsg(transfer->opened->file, &message, flags));
    transfer->address_length = message.msg_namelen;
    transfer->told_flags = message.msg_flags & ~MSG_NOSIGNAL;
    return result;
}

/* A pipe that can be written to has room for PIPE_BUF bytes. */
static long move_in_pipe(const struct transfer *transfer, char *bytes, size_t length) {
    int file = transfer->opened->file;
    struct pollfd ready = {file, transfer->sends ? POLLOUT : POLLIN, 0};
    if (poll(&ready, 1, 0) == 0) return -EAGAIN;
    if (!transfer->sends) return result_of(read(file, bytes, length));
    return result_of(write(file, bytes, length < PIPE_BUF ? length : PIPE_BUF));
}

/* Whether all of it is moved, however often it has to wait. Half of it is known then before anything comes. */
static bool is_moved_whole(const struct transfer *transfer) { return transfer->sends || transfer->flags & MSG_WAITALL; }

static long move_some(struct transfer *transfer) {
    struct call *call = transfer->call;
    size_t left = transfer->length - call->moved;
    if (transfer->halves && !is_moved_whole(transfer)) left = half_of(moves_now(transfer->opened, -1, left));
    char *bytes = room_for(&transfer->parts, left);
    if (transfer->sends && left && !(left = gather(call, &transfer->parts, call->moved, left, bytes))) return -EFAULT;
    long result = transfer->is_socket ? move_message(transfer, bytes, left) : move_in_pipe(transfer, bytes, left);
    if (transfer->sends || result <= 0) return result;
    size_t kept = (size_t)result < left ? (size_t)result : left; /* for a message that was cut off, the result may be its whole length */
    return scatter(call, &transfer->parts, call->moved, kept, bytes) == kept ? result : -EFAULT;
}

/* ---- until the call is over */

static bool may_wait(const struct transfer *transfer) {
    return !(transfer->opened->flags & O_NONBLOCK) && !(transfer->flags & MSG_DONTWAIT);
}

static void set_limit(const struct transfer *transfer) {
    struct timeval limit = {0};
    socklen_t length = sizeof limit;
    struct call *call = transfer->call;
    if (call->gives_up || !transfer->is_socket) return;
    getsockopt(transfer->opened->file, SOL_SOCKET, transfer->sends ? SO_SNDTIMEO : SO_RCVTIMEO, &limit, &length);
    if (limit.tv_sec || limit.tv_usec) call->gives_up = now() + (uint64_t)limit.tv_sec * 1000000000u + (uint64_t)limit.tv_usec * 1000u;
}

static void signal_broken(const struct transfer *transfer, long result) {
    const struct thread *thread = transfer->call->thread;
    if (result == -EPIPE && transfer->sends && !(transfer->flags & MSG_NOSIGNAL))
        syscall(SYS_tgkill, thread->process, thread->number, SIGPIPE);
}

/* Whether the call is over. Then the result is the number of bytes that were moved, or an error. If not, the call waits and is served again. */
static bool is_over(struct transfer *transfer, long *result) {
    struct call *call = transfer->call;
    for (;;) {
        *result = move_some(transfer);
        if (*result > 0) call->moved += (size_t)*result;
        if (*result > 0 && is_moved_whole(transfer) && call->moved < transfer->length && may_wait(transfer)) continue;
        if (*result != -EAGAIN || !may_wait(transfer)) break;
        set_limit(transfer);
        if (call->gives_up && now() >= call->gives_up) break;
        flush_hit(call);
        wait_for(call, transfer->opened->file, transfer->sends ? POLLOUT : POLLIN);
        return false;
    }
    if (call->moved && *result <= 0) *result = 0;
    if (*result >= 0) *result = (long)call->moved;
    else signal_broken(transfer, *result);
    return true;
}

static void write_address(const struct transfer *transfer, uint64_t of_length) {
    unsigned room = 0, length = transfer->address_length;
    if (transfer->sends || !transfer->address || !of_length) return;
    read_memory(transfer->call->thread, of_length, &room, sizeof room);
    write_memory(transfer->call->thread, transfer->address, &transfer->other, room < length ? room : length);
    write_memory(transfer->call->thread, of_length, &length, sizeof length);
}

/* ---- reads, writes, sendto and recvfrom */

static void set_length_by(struct transfer *transfer, enum answer answer) {
    transfer->halves = answer == HALF;
    transfer->length = transfer->halves && is_moved_whole(transfer) ? half_of(transfer->parts.length) : transfer->parts.length;
}

static enum answer hit_stream(struct call *call, const struct opened *opened, enum point point) {
    return hit(call, point, is_socket(opened) ? "socket" : opened->path, NULL);
}

static bool read_other(struct transfer *transfer) {
    const struct row *row = transfer->call->row;
    transfer->address = argument(transfer->call, row->other_path);
    transfer->address_length = (unsigned)argument(transfer->call, row->other_at);
    if (!transfer->address || !transfer->sends) return true;
    if (transfer->address_length > sizeof transfer->other) return false;
    return read_memory(transfer->call->thread, transfer->address, &transfer->other, transfer->address_length) == transfer->address_length;
}

static void serve_bytes(struct call *call, const struct opened *opened, enum point point) {
    static struct transfer transfer;
    long result;
    transfer = (struct transfer){.call = call, .opened = opened, .sends = point == SEND || point == WRITE, .is_socket = is_socket(opened)};
    if (call->row->point == SEND || call->row->point == RECV) transfer.flags = (int)argument(call, call->row->flags);
    int error = parts_of(call, &transfer.parts);
    if (!error && !read_other(&transfer)) error = -EFAULT;
    enum answer answer = hit_stream(call, opened, point);
    if (!is_done(answer)) return;
    if (error) return finish(call, error);
    if (answer == DROP) return finish(call, (long)transfer.parts.length);
    set_length_by(&transfer, answer);
    if (!is_over(&transfer, &result)) return;
    if (result >= 0) write_address(&transfer, argument(call, call->row->other_at));
    finish(call, result);
}

void serve_stream(struct call *call, struct opened *opened, enum point point) {
    bool is_pipe = opened->file >= 0 && S_ISFIFO(opened->facts.file.key.mode) && (point == READ || point == WRITE);
    bool is_message = sees_sockets && is_socket(opened) && (point == RECV || point == SEND);
    if (is_message || is_pipe) opened->flags = fcntl(opened->file, F_GETFL);
    if (is_pipe || is_message) serve_bytes(call, opened, point);
    else go_on(call);
}

/* ---- messages of parts */

struct message {
    struct msghdr head;
    uint64_t at;
};

static bool read_message(const struct call *call, uint64_t at, struct message *message, struct transfer *transfer) {
    message->at = at;
    if (read_memory(call->thread, at, &message->head, sizeof message->head) != sizeof message->head) return false;
    if (read_parts(call->thread, (uint64_t)message->head.msg_iov, message->head.msg_iovlen, &transfer->parts)) return false;
    transfer->address = (uint64_t)message->head.msg_name;
    transfer->address_length = message->head.msg_namelen;
    if (!transfer->sends || !transfer->address) return true;
    if (transfer->address_length > sizeof transfer->other) return false;
    return read_memory(call->thread, transfer->address, &transfer->other, transfer->address_length) == transfer->address_length;
}

/* Writes what a thread is told about a message that it received, except for the bytes. */
static void write_message(struct transfer *transfer, struct message *message) {
    const struct thread *thread = transfer->call->thread;
    if (transfer->sends) return;
    unsigned length = transfer->address_length;
    if (transfer->address)
        write_memory(thread, transfer->address, &transfer->other, length < message->head.msg_namelen ? length : message->head.msg_namelen);
    message->head.msg_namelen = transfer->address ? length : 0;
    message->head.msg_controllen = 0;
    message->head.msg_flags = transfer->told_flags;
    write_memory(thread, message->at, &message->head, sizeof message->head);
}

/* A message with descriptors or other such data goes on by itself, since these belong to the thread. Its result isn't known. */
static void serve_message(struct call *call, const struct opened *opened, enum point point) {
    static struct transfer transfer;
    struct message message;
    long result;
    transfer = (struct transfer){.call = call, .opened = opened, .sends = point == SEND, .is_socket = true,
        .flags = (int)argument(call, call->row->flags)};
    bool is_read = read_message(call, argument(call, call->row->bytes), &message, &transfer);
    enum answer answer = hit_stream(call, opened, point);
    if (!is_done(answer)) return;
    if (!is_read || (answer == GO && message.head.msg_controllen)) return go_on(call);
    if (answer == DROP) return finish(call, (long)transfer.parts.length);
    set_length_by(&transfer, answer);
    if (!is_over(&transfer, &result)) return;
    if (result >= 0) write_message(&transfer, &message);
    finish(call, result);
}

/* ---- several messages */

enum { MOST_MESSAGES = 1024 };

static void set_length(const struct call *call, uint64_t at, size_t length) {
    unsigned told = (unsigned)length;
    write_memory(call->thread, at + offsetof(struct mmsghdr, msg_len), &told, sizeof told);
}

/* Moves so many messages, as long as none has to wait. For those that are dropped only the length is written. */
static long move_messages(struct transfer *transfer, uint64_t count, bool drops) {
    struct call *call = transfer->call;
    for (uint64_t i = 0; i < count; i++) {
        uint64_t at = argument(call, call->row->bytes) + i * sizeof(struct mmsghdr);
        struct message message;
        if (!read_message(call, at, &message, transfer)) return i ? (long)i : -EFAULT;
        call->moved = 0;
        transfer->length = transfer->parts.length;
        long result = drops ? (long)transfer->length : move_some(transfer);
        if (result < 0) return i ? (long)i : result;
        if (!drops) write_message(transfer, &message);
        set_length(call, at, (size_t)result);
    }
    return (long)count;
}

static void serve_messages(struct call *call, const struct opened *opened, enum point point) {
    static struct transfer transfer;
    uint64_t count = argument(call, call->row->parts);
    transfer = (struct transfer){.call = call, .opened = opened, .sends = point == SEND, .is_socket = true,
        .flags = (int)argument(call, call->row->flags)};
    enum answer answer = hit_stream(call, opened, point);
    if (!is_done(answer)) return;
    if (answer == GO || count > MOST_MESSAGES) return go_on(call);
    long result = move_messages(&transfer, answer == HALF ? half_of(count) : count, answer == DROP);
    if (result == -EAGAIN && may_wait(&transfer)) {
        flush_hit(call);
        return wait_for(call, opened->file, transfer.sends ? POLLOUT : POLLIN);
    }
    finish(call, result);
}

/* ---- the calls on sockets */

static bool open_socket(struct call *call, struct opened *opened) {
    open_of(call, call->row->file, opened);
    if (!is_socket(opened)) return false;
    opened->flags = fcntl(opened->file, F_GETFL);
    return true;
}

static void serve_on_socket(struct call *call, void (*serves)(struct call *call, const struct opened *opened, enum point point)) {
    struct opened opened;
    if (open_socket(call, &opened)) serves(call, &opened, call->row->point);
    else go_on(call);
}

void serve_send(struct call *call) { serve_on_socket(call, serve_bytes); }
void serve_receive(struct call *call) { serve_on_socket(call, serve_bytes); }
void serve_one_message(struct call *call) { serve_on_socket(call, serve_message); }
void serve_all_messages(struct call *call) { serve_on_socket(call, serve_messages); }

/* The other end can see who connects, so the thread makes this call itself. */
void serve_connect(struct call *call) {
    struct opened opened;
    if (!open_socket(call, &opened)) return go_on(call);
    if (hit_stream(call, &opened, CONNECT) == GO) go_on(call);
}

void serve_accept(struct call *call) {
    struct opened opened;
    static struct transfer transfer;
    int flags = (int)argument(call, call->row->flags);
    if (!open_socket(call, &opened)) return go_on(call);
    if (hit_stream(call, &opened, ACCEPT) != GO) return;
    if (!has_free_descriptor(call->thread)) return finish(call, -EMFILE); /* and the connection stays in the queue */
    transfer = (struct transfer){.call = call, .opened = &opened, .is_socket = true, .address = argument(call, call->row->bytes)};
    struct pollfd comes = {opened.file, POLLIN, 0};
    set_limit(&transfer);
    if (may_wait(&transfer) && poll(&comes, 1, 0) == 0 && !(call->gives_up && now() >= call->gives_up)) {
        flush_hit(call);
        return wait_for(call, opened.file, POLLIN);
    }
    transfer.address_length = sizeof transfer.other;
    int made = hold(call, accept4(opened.file, (struct sockaddr *)&transfer.other, &transfer.address_length, flags | SOCK_CLOEXEC));
    if (made < 0) return finish(call, -errno);
    write_address(&transfer, argument(call, call->row->length));
    give(call, made, flags & SOCK_CLOEXEC);
}
