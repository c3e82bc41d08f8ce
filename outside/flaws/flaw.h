/* flaw.h: what the small programs in C share. Their first word names the flaw that they have; with `sound` it is none. */
#include <fcntl.h>
#include <stdbool.h>
#include <stdio.h>
#include <stdlib.h>
#include <string.h>
#include <unistd.h>

static const char *flaw;

static inline bool has(const char *name) { return !strcmp(flaw, name); }

static inline void fail(const char *what) {
    perror(what);
    exit(1);
}

static inline void must(bool done, const char *what) {
    if (!done) fail(what);
}

/* Where a write does less, it goes on; `short_write` takes that for all. */
static inline bool write_all(int file, const char *bytes, size_t length) {
    while (length > 0) {
        ssize_t written = write(file, bytes, length);
        if (written <= 0) return false;
        if (has("short_write")) return true;
        bytes += written;
        length -= (size_t)written;
    }
    return true;
}

/* After a sync that failed a file's bytes are gone: a later one says nothing of them. `retry_sync` believes it, `unchecked_sync` doesn't look. */
static inline bool sync_file(int file) {
    if (!fsync(file) || has("unchecked_sync")) return true;
    return has("retry_sync") && !fsync(file);
}

static inline bool sync_folder(int folder) { return has("no_folder_sync") || !fsync(folder); }

static inline bool sync_names(void) {
    int folder = open(".", O_RDONLY | O_DIRECTORY);
    return folder >= 0 && sync_folder(folder) && !close(folder);
}
