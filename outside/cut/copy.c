#define _GNU_SOURCE
#include "copy.h"

#include "book.h"

#include <errno.h>
#include <string.h>
#include <sys/stat.h>
#include <unistd.h>

void copy_part(int in, int out, uint64_t at, uint64_t length, const char *path) {
    char bytes[65536];
    for (ssize_t got; length > 0; at += (uint64_t)got, length -= (uint64_t)got) {
        got = pread(in, bytes, length < sizeof bytes ? length : sizeof bytes, (off_t)at);
        must(got >= 0, path);
        if (!got) return;
        must(pwrite(out, bytes, (size_t)got, (off_t)at) == got, path);
    }
}

static uint64_t length_of(int file, const char *path) {
    struct stat told;
    must(!fstat(file, &told), path);
    return (uint64_t)told.st_size;
}

/* Finds the next bytes from `at` on that aren't a hole. Returns false if there are none. On a file system without holes the only hole is at the
   end. */
static bool next_data(int file, uint64_t at, uint64_t *from, uint64_t *to) {
    off_t data = lseek(file, (off_t)at, SEEK_DATA), hole = data < 0 ? -1 : lseek(file, data, SEEK_HOLE);
    if (data < 0 && errno == ENXIO) return false;
    *from = data < 0 ? at : (uint64_t)data;
    *to = hole < 0 ? UINT64_MAX : (uint64_t)hole;
    return true;
}

void copy_whole(int in, int out, const char *path, uint64_t end) {
    uint64_t length = length_of(in, path);
    if (length > end) length = end;
    for (uint64_t at = 0, from, to; at < length && next_data(in, at, &from, &to) && from < length; at = to)
        copy_part(in, out, from, (to < length ? to : length) - from, path);
    must(!ftruncate(out, (off_t)length), path);
}

/* A part of a file that isn't a hole. */
struct data {
    uint64_t from, to;
};

/* Goes on to the part that is at `at`, or behind it. A file system may look at all of a file to find its next hole, so it is asked once for each. */
static void go_on_to(int file, uint64_t at, struct data *data) {
    if (at >= data->to && !next_data(file, at, &data->from, &data->to)) *data = (struct data){UINT64_MAX, UINT64_MAX};
}

static bool same_part(int one, int other, uint64_t at, uint64_t end) {
    char first[65536], second[sizeof first];
    for (ssize_t got; at < end; at += (uint64_t)got) {
        size_t length = end - at < sizeof first ? end - at : sizeof first;
        got = pread(one, first, length, (off_t)at);
        if (got <= 0 || got != pread(other, second, length, (off_t)at) || memcmp(first, second, (size_t)got)) return false;
    }
    return true;
}

/* Compares what isn't a hole in both of them. */
bool same_bytes(int one, int other) {
    struct data first = {0}, second = {0};
    uint64_t length = length_of(one, ""), at = 0;
    if (length != length_of(other, "")) return false;
    while (at < length) {
        go_on_to(one, at, &first);
        go_on_to(other, at, &second);
        uint64_t from = first.from < second.from ? first.from : second.from, end = first.to < second.to ? first.to : second.to;
        if (at < from) at = from;
        if (end > length) end = length;
        if (at < end && !same_part(one, other, at, end)) return false;
        at = end;
    }
    return true;
}
