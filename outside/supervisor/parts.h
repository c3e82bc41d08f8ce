/* The parts of a thread's memory from which a call writes, or into which it reads. */
#ifndef PARTS_H
#define PARTS_H

#include "supervisor.h"

struct parts {
    struct iovec first[IOV_MAX];
    int count;
    size_t length; /* the length of all parts, at most as much as one call takes */
};

/* Reads an array of parts, or the parts that the call's row names. Returns 0, or the system's error as a negative number. */
int read_parts(const struct thread *thread, uint64_t at, uint64_t count, struct parts *parts);
int parts_of(const struct call *call, struct parts *parts);

/* Memory for so many bytes, valid until the next call. It is at the same place of a page as the thread's, as opens with O_DIRECT need it. */
char *room_for(const struct parts *parts, size_t length);

/* Copies `length` bytes that are behind the first `done` ones. Returns how many could be copied. */
size_t gather(const struct call *call, const struct parts *parts, size_t done, size_t length, char *to);
size_t scatter(const struct call *call, const struct parts *parts, size_t done, size_t length, char *from);

#endif
