/* The system calls that are looked at: what each argument is, which point the call is, and which function serves it. */
#ifndef TABLE_H
#define TABLE_H

#include "../run/scenario.h"

#include <stddef.h>

struct call;

/* When a call is looked at. */
enum where {
    ALWAYS,
    SHARED_FILES,  /* a mapping of a file that others see */
    WRITABLE,      /* memory that becomes writable */
    NEW_LIMITS,    /* limits that are set, and not only asked for */
    NEW_RIGHTS,    /* what changes the capabilities of programs that are started */
    CLONED_FILES,  /* an ioctl that clones files */
    ON_SOCKETS,    /* if sockets are points */
    PINNED,        /* if random bytes are the same in each run */
    ORDERED,       /* if calls have an order */
    FUTEXES,       /* the same, and what it does with a futex isn't about priorities */
};

/* Numbers of arguments, counted from 1. A number is 0 if the call has no such argument. */
struct row {
    int number;
    enum point point; /* POINTS if it is none */
    void (*serve)(struct call *call);
    enum where where;
    unsigned char folder, path, other_folder, other_path, file, other_file, bytes, length, at, other_at, flags, mode, parts;
};

/* The rows have no order. `parts` is set if the bytes are in parts: it is the argument with their count. */
extern const struct row table[];
extern const size_t table_length;

const struct row *row_of(int number);

void serve_open(struct call *call);
void serve_node(struct call *call);
void serve_read(struct call *call);
void serve_write(struct call *call);
void serve_copy(struct call *call);
void serve_splice(struct call *call);
void serve_sendfile(struct call *call);
void serve_clone(struct call *call);
void serve_resize(struct call *call);
void serve_allocate(struct call *call);
void serve_sync(struct call *call);
void serve_sync_range(struct call *call);
void serve_sync_all(struct call *call);
void serve_map_sync(struct call *call);
void serve_rename(struct call *call);
void serve_link(struct call *call);
void serve_unlink(struct call *call);
void serve_folder(struct call *call);
void serve_symlink(struct call *call);
void serve_link_text(struct call *call);
void serve_attributes(struct call *call);
void serve_map(struct call *call);
void serve_protect(struct call *call);
void serve_unmap(struct call *call);
void serve_program(struct call *call);
void serve_ids(struct call *call);
void serve_mask(struct call *call);
void serve_move(struct call *call);
void serve_limits(struct call *call);
void serve_root(struct call *call);
void serve_ring(struct call *call);
void serve_requests(struct call *call);
void serve_connect(struct call *call);
void serve_accept(struct call *call);
void serve_send(struct call *call);
void serve_receive(struct call *call);
void serve_one_message(struct call *call);
void serve_all_messages(struct call *call);
void serve_random(struct call *call);
void serve_sleep(struct call *call);
void serve_futex(struct call *call);
void serve_begin(struct call *call);
void serve_yield(struct call *call);

#endif
