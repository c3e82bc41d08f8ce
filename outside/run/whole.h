/* Writes all bytes, however few of them one call writes. */
#ifndef WHOLE_H
#define WHOLE_H

#include <stdbool.h>
#include <sys/types.h>
#include <unistd.h>

static inline bool write_whole_at(int file, const char *bytes, size_t length, off_t at) {
    while (length > 0) {
        ssize_t written = pwrite(file, bytes, length, at);
        if (written <= 0) return false;
        bytes += written;
        at += written;
        length -= (size_t)written;
    }
    return true;
}

static inline bool write_whole(int file, const char *bytes, size_t length) {
    while (length > 0) {
        ssize_t written = write(file, bytes, length);
        if (written <= 0) return false;
        bytes += written;
        length -= (size_t)written;
    }
    return true;
}

#endif
