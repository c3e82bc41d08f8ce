#define _GNU_SOURCE
#include "parts.h"

#include <errno.h>
#include <sys/mman.h>

enum { PAGE = 4096, MOST_BYTES_OF_CALL = 0x7ffff000 };

int read_parts(const struct thread *thread, uint64_t at, uint64_t count, struct parts *parts) {
    size_t size = count * sizeof *parts->first;
    if (count > IOV_MAX) return -EINVAL;
    if (read_memory(thread, at, parts->first, size) != size) return -EFAULT;
    parts->count = (int)count;
    parts->length = 0;
    for (int i = 0; i < parts->count; i++) {
        if (parts->first[i].iov_len > SSIZE_MAX - parts->length) return -EINVAL;
        parts->length += parts->first[i].iov_len;
    }
    if (parts->length > MOST_BYTES_OF_CALL) parts->length = MOST_BYTES_OF_CALL;
    return 0;
}

int parts_of(const struct call *call, struct parts *parts) {
    const struct row *row = call->row;
    if (row->parts) return read_parts(call->thread, argument(call, row->bytes), argument(call, row->parts), parts);
    parts->first[0] = (struct iovec){(void *)argument(call, row->bytes), argument(call, row->length)};
    parts->count = 1;
    parts->length = parts->first[0].iov_len < MOST_BYTES_OF_CALL ? parts->first[0].iov_len : MOST_BYTES_OF_CALL;
    return parts->first[0].iov_len <= SSIZE_MAX ? 0 : -EINVAL;
}

/* The parts of `length` bytes that are behind the first `done` ones. */
static int parts_behind(const struct parts *parts, size_t done, size_t length, struct iovec *some) {
    int count = 0;
    for (int i = 0; i < parts->count && length > 0; i++) {
        struct iovec part = parts->first[i];
        size_t skipped = done < part.iov_len ? done : part.iov_len;
        done -= skipped;
        part.iov_base = (char *)part.iov_base + skipped;
        part.iov_len -= skipped;
        if (part.iov_len > length) part.iov_len = length;
        length -= part.iov_len;
        if (part.iov_len) some[count++] = part;
    }
    return count;
}

char *room_for(const struct parts *parts, size_t length) {
    static char *room;
    static size_t size;
    if (length + PAGE > size) {
        if (room) munmap(room, size);
        size = (length / PAGE + 18) * PAGE;
        room = mmap(NULL, size, PROT_READ | PROT_WRITE, MAP_PRIVATE | MAP_ANONYMOUS, -1, 0);
        if (room == MAP_FAILED) refuse("memory", strerror(errno));
    }
    return room + (parts->count ? (uintptr_t)parts->first[0].iov_base % PAGE : 0);
}

size_t gather(const struct call *call, const struct parts *parts, size_t done, size_t length, char *to) {
    struct iovec here = {to, length}, there[IOV_MAX];
    ssize_t got = process_vm_readv(call->thread->number, &here, 1, there, (size_t)parts_behind(parts, done, length, there), 0);
    return got < 0 ? 0 : (size_t)got;
}

size_t scatter(const struct call *call, const struct parts *parts, size_t done, size_t length, char *from) {
    struct iovec here = {from, length}, there[IOV_MAX];
    ssize_t got = process_vm_writev(call->thread->number, &here, 1, there, (size_t)parts_behind(parts, done, length, there), 0);
    return got < 0 ? 0 : (size_t)got;
}
