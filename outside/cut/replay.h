/* A run's files by its notes, and the states in which a power cut may leave them.

   The *sequence* is of all changes of names, all changes of modes and owners, and all shortenings of files, in the order in which they were made. A
   change of names has a *part* for each name that it sets: a rename has two. A part *lasts* by a sync, as the profile says. A change is *pending* if
   a part of it doesn't last.

   A *moment* of a file is its bytes after one of its changes: a write, a store, a clearing, a new length. Moment 0 is as it was when the run began, or
   as it was made. A *block* is what a disk writes as a whole. It has a *version* for each moment whose change touched it: bytes in it, or the rest of
   it behind a shortening. Of a file last the moment since which its length, and that since which each block is on the disk.

   In a *state* there are what lasts; of the sequence's pending changes the first ones, as many as may be; of its other parts those that a sync may
   have taken along out of order, each or not; and of each file that has a name then

   - a length: that of a moment from the one that lasts on, or where a write makes it longer, a border of blocks on the way. A shortening of the
     sequence that is there is the first of these moments, and one that isn't there ends them;
   - each block below that length: a version from the one that lasts on. What it has behind a shortening that is there, and that is later, is zeros.
     Where no version has bytes there are zeros.

   Under a profile whose names are in no order each part is there or not. The file `profiles` says what else a profile leaves. */
#ifndef REPLAY_H
#define REPLAY_H

#include "profile.h"

struct file;
struct change;

struct list {
    void **items;
    size_t count, room;
};

/* A name in a folder, and the file to which it leads, or null: when the run began, after all changes, as the cut found it, and in the state. */
struct name {
    struct file *folder, *first, *last, *found, *now;
    char *text;
    struct part *part;        /* of the latest change that set it */
    bool is_left;             /* a mark for one sync */
    bool is_settled, is_undone; /* in the state: whether it is known what is there; whether a later one of its parts was undone */
    struct name *next_in_folder, *next_of_hash;
};

/* What a change does to a name, which leads to that file then, or to none. The name of a change that isn't one of names is null. */
struct part {
    struct name *name;
    struct file *file;
    bool is_gone;     /* besides its change it may be there alone: what was at the name is gone, and what took its place isn't there */
    bool lasts, may;  /* whether it lasts, and whether a sync may have taken it along */
    bool is_again;    /* its name led to a file before */
    bool is_unsure;   /* though it lasts, what was there before it may be back, as a later change took the name from its file */
    bool is_there;    /* in the state */
};

enum { MOST_PARTS = 4 };

/* A change of the sequence. */
struct change {
    enum kind kind;
    uint64_t noted;               /* its place in the notes */
    size_t index, number;         /* its place in the sequence, and its line in the list of what is pending */
    struct file *file, *other;    /* whose names, mode or length it is; a second file that it exchanges or replaces */
    struct key attributes, before; /* the mode and owner after it, and before it */
    struct moment *moment;        /* of a shortening */
    struct part parts[MOST_PARTS];
    unsigned count;
    char *names;                  /* as they are shown */
};

/* A change of a file's bytes, and the file's length after it and before it. */
struct moment {
    enum kind kind;
    uint64_t noted;
    size_t index, position;       /* its number in its file, and how many changes the sequence had after it */
    uint64_t begin, end, bytes;   /* the bytes that changed, and where they are in the notes */
    bool is_later;                /* they aren't in the notes */
    uint64_t length, before;
    size_t number;                /* the line of its first new length in the list of what is pending */
    struct change *shortening;
};

struct block {
    struct file *file;
    uint64_t index;
    struct list versions;         /* moments that touched it; the one before them all is moment 0 */
    size_t since, grown;          /* the moment since which it lasts, if that of its file isn't later; the last at which bytes in it made the file longer */
    bool is_lost, was_new, is_rewritten; /* a sync of it failed; it had no place on the disk; it was written again since */
    size_t number;                /* the line of its first version that is pending */
    size_t chosen;                /* in the state: the moment that it is as of, */
    bool is_uncleared;            /* and whether it has bytes behind a later shortening */
    struct block *next_of_hash;
};

/* A folder in which a file has or had names, since when, and how many it has there now. */
struct home {
    struct file *folder;
    uint64_t noted;
    size_t names;
};

/* A length that a file has at least, if no shortening since that moment is there. */
struct least {
    uint64_t length;
    size_t moment;
};

struct file {
    struct key key, first_key;    /* with the mode and owner that it has in the end, and those that it had at first */
    const char *target;           /* the target of a symbolic link */
    bool in_base;                 /* it was there when the run began */
    struct name *names;           /* the names in a folder */
    struct list below, homes;     /* the folders that have or had a name in this one; its homes */
    struct change *creation;
    struct list of_names, entries, attributes, shortenings; /* what waits for a sync: of its names, of names in it, of itself */
    struct list moments, resized, shortened; /* moments, those of them that changed the length, and those that made it shorter */
    struct list blocks, leasts;   /* what they touched, and lengths by syncs of a part */
    struct list all_attributes, replacings, waiting; /* of its own; renames by which it took the place of another; moments whose bytes come later */
    uint64_t first_length, most_length;
    bool is_measured;             /* whether its first length is known yet */
    uint64_t floor;               /* what it has at least, if no shortening is pending */
    size_t length_since, since;   /* the moments since which its length lasts, and its blocks */
    size_t lost;                  /* how many of its blocks are lost */
    uint64_t near_until, lengths_until; /* what was noted until then in this folder a sync may have taken along, names or lengths, */
    size_t later_in;              /* and what comes later too, if this is the number of the stretch between two syncs of all */
    size_t named_at;              /* its moment when it last got a name after a sync of it */
    size_t synced_in;             /* the stretch in which it was synced itself by a sync that takes along what comes later */
    uint64_t marked_at;           /* the sync that looked at this folder last */
    struct file *known_folder;    /* a name that it has or had, */
    const char *known_name, *shown; /* and its path as it is shown in a line */
    struct key attributes_now;    /* in the state */
    uint64_t length_now;
    bool is_alone;                /* its length is there without the shortenings of the sequence */
    bool is_last;                 /* its bytes are those in the end */
    bool is_touched, is_unsynced, is_reached, is_being_laid;
    char *laid;                   /* the path at which a cut laid it out */
    struct file *next_of_hash;
};

enum { HASHES = 16384, SYSTEM_BLOCK = 4096 };

struct replay {
    char run[LONG_PATH], base[LONG_PATH], live[LONG_PATH];
    char *notes; /* all of them */
    uint64_t noted, block;
    struct profile profile;
    struct list sequence;          /* all changes */
    struct list pending;           /* those that don't last */
    struct list touched, unsynced; /* the files whose attributes or bytes changed; those that did since all was synced */
    size_t lasting, all_synced;    /* so many of the sequence last by their place in it; so many were there when all was synced */
    size_t stretch;                /* the number of the stretch between two syncs of all, from 1 on */
    struct file *root, *files[HASHES];
    struct name *names[HASHES];
    struct block *blocks[HASHES];
};

/* Reads what the run noted, up to that place of the notes. */
void read_run(struct replay *replay, const char *run, const struct state *state, uint64_t noted);

static inline struct moment *moment_at(const struct file *file, size_t index) { return file->moments.items[index - 1]; }

/* Finds a file's first length. It must be called before its other lengths are. */
void measure(const struct replay *replay, struct file *file);

/* The length of a file as of a moment. */
static inline uint64_t length_at(const struct file *file, size_t index) { return index ? moment_at(file, index)->length : file->first_length; }

void *made(size_t size);
void add_to(struct list *list, void *item);

/* The block of a file, which is made, or null if it isn't there and isn't to be made. */
struct block *block_of(struct replay *replay, struct file *file, uint64_t index, bool makes);

struct file *file_of(struct replay *replay, const struct key *key);

/* Reads which names the cut found, with the modes that the files have there. */
void read_found(struct replay *replay);

/* Sets the names as the cut found them; or as the parts that are there leave them. */
void names_as_found(struct replay *replay);
void names_of_parts(struct replay *replay);

/* The path below the root of a name in a folder, and a path or a file by a name that it has or had as it is shown in a line. */
char *path_of(const struct file *folder, const char *name);
char *shown_text(const char *text);
const char *shown_file(struct file *file);

#endif
