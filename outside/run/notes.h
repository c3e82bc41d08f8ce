/* Notes of what was done to the files of a run: records in the file `changes` of its folder. The supervisor writes each of them after the call that
   it describes, and a power cut reads them. */
#ifndef NOTES_H
#define NOTES_H

#include <stdbool.h>
#include <stdint.h>
#include <string.h>
#include <sys/types.h>

/* The identity of a file or folder. Numbers are used again, but with another time of birth. */
struct key {
    uint64_t number;
    int64_t seconds;
    uint32_t nanoseconds;
    uint32_t mode, owner, group; /* its mode and owner at that time, which are no part of the key */
};

struct statx;
struct key told_key(const struct statx *told);

static inline bool same_key(const struct key *one, const struct key *other) {
    return one->number == other->number && one->seconds == other->seconds && one->nanoseconds == other->nanoseconds;
}

/* The identity of a folder among all file systems. */
struct identity {
    uint64_t device;
    struct key key;
};

static inline bool same_identity(const struct identity *one, const struct identity *other) {
    return one->device == other->device && same_key(&one->key, &other->key);
}

enum kind {
    /* Names: `name` in `folder`, and `other_name` in `other_folder`. For a symbolic link `other_name` is its target. */
    CREATED, /* a file, folder or symbolic link of that name was made */
    LINKED,
    UNLINKED,
    RENAMED,
    EXCHANGED,
    ATTRIBUTES, /* the mode and owner of `file` became those of its key */
    /* Contents of `file`: */
    WRITTEN,  /* `length` bytes at `at`: they follow, or are copied LATER */
    STORED,   /* the same through a mapping, which makes no file longer */
    CLEARED,  /* so many bytes became zeros, which makes no file longer */
    RESIZED,  /* its length became `at` */
    COPIED,   /* the copy of bytes that were noted without one, as they were then */
    /* Syncs, for what was noted before the place `at` of the notes: */
    SYNCED,       /* a sync of `file`, or of all; its flags are a value of enum sync_call */
    SYNC_FAILED,  /* nothing lasts, and the system takes the file's blocks for clean */
    KINDS
};

enum { LATER = 1 };

/* Which sync it was. DSYNC, of a write that syncs by itself, and MSYNC are of what is between `from` and `from + length` of the file. BEGINNING is none: what
   was done before faults may act lasts. */
enum sync_call { FSYNC_CALL, FDATASYNC_CALL, DSYNC_WRITE, MSYNC_CALL, SYNCFS_CALL, SYNC_CALL, SYNCS, BEGINNING = SYNCS };

struct note {
    uint64_t size; /* the size of the record: this struct, its names, each with a byte of zero, and its bytes */
    uint32_t kind, flags;
    struct key file, other_file, folder, other_folder;
    uint64_t at, from, length;
    uint32_t name, other_name; /* the lengths of the names with the byte of zero, or 0 */
};

/* Finds the key, the length and the number of names of an open file, or of a name in a folder. Returns false with errno if the system refuses:
   ENOTSUP if the file system records no times of birth. */
struct file_facts {
    struct key key;
    uint64_t length;
    unsigned links;
};
bool facts_of(int folder, const char *name, int flags, struct file_facts *facts);

#endif
