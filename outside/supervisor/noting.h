/* What is noted of a run: records in the file `changes`. Call these functions under the lock. They keep errno. */
#ifndef NOTING_H
#define NOTING_H

#include "trace.h"
#include "variables.h"

#include <sys/uio.h>

/* A name in a call: whether it is under the root, its folder and its last part. */
struct place {
    bool seen;
    char path[PATH_MAX];
    const char *name;
    struct key folder;
};

void note_names(enum kind kind, const struct key *file, const struct place *place, const char *target);
void note_moved(enum kind kind, const struct key *file, const struct key *other_file, const struct place *place,
    const struct place *other);
void note_bytes(enum kind kind, const struct key *file, uint64_t at, const struct iovec *first, int count, uint64_t length);
void note_length(const struct key *file, uint64_t length);
void note_cleared(const struct key *file, uint64_t at, uint64_t length);

/* Note what became of a file's mode and owner, that a sync returned, and that one failed. Syncs are for all that is noted by now. */
void note_attributes(const struct key *file);
void note_sync(enum sync_call sync, const struct key *file, uint64_t from, uint64_t length);
void note_failed_sync(const struct key *file);

/* Notes bytes that are in the file already, as a copy inside the system left them. */
void note_from_file(const struct key *file, const char *path, uint64_t at, uint64_t length);

/* Whether a write to a file that was so needs no copy now. Bytes behind the file's end stay there until something is written over them. */
bool may_come_later(const struct file_facts *before, uint64_t at, uint64_t length);

/* Copies bytes that were noted without a copy, before something changes them or deletes the file. */
void copy_later(const struct key *file, const char *path, uint64_t from, uint64_t to);
void copy_later_always(const struct key *file, const char *path);

#endif
