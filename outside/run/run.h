/* What the supervisors of a run share with its power cut, and how a run ends. */
#ifndef RUN_H
#define RUN_H

#include "notes.h"
#include "scenario.h"

#include <limits.h>
#include <pthread.h>

/* The exit statuses of a run that the scenario ended, or that was refused. */
enum { PAUSED = 97, REFUSED = 98, PANICKED = 99 };

enum { MOST_POINT = MOST_NAME, MOST_COUNTERS = 4096, MOST_LATER = 1024, MOST_UNSEEN = 8, MOST_UNSEEN_TEXT = 240,
    MOST_PROFILE = 16, LONG_PATH = PATH_MAX + 128 };

/* The counts of one point: its hits, and how often each term of its chain acted. */
struct counter {
    char name[MOST_POINT + 1];
    uint64_t hits;
    uint64_t used[MOST_TERMS];
};

/* Bytes of a file that were noted without a copy: those between `from` and `to` are only in the file itself. */
struct later {
    struct key file;
    uint64_t from, to;
    bool never; /* the file is mapped for writing, so its bytes are always copied at once */
};

/* The file `state` of a run's folder. */
struct state {
    pthread_mutex_t mutex; /* shared by processes, and taken over if its holder was killed */
    int ended;             /* 0, or the status with which the run was ended */
    int told;              /* whether the warning about a name that never acts was printed */
    int loaded;            /* how many programs ran under the supervisor since the run began or went on */
    int others;            /* how many programs were started without it */
    int is_full;           /* whether the disk is full: calls that take room fail, until one has given some back */
    int torn;              /* whether a process was killed under the lock: it may have done something that it didn't note */
    struct identity root;  /* the folder that is cut */
    uint64_t started;      /* the number of hits when the run began or went on */
    uint64_t number;       /* the number of the last hit */
    uint64_t noted;        /* how many bytes the notes have */
    uint64_t block;        /* what a disk writes as a whole: so many bytes, by their place in a file */
    char profile[MOST_PROFILE]; /* that of the disk, by its name in the table of profiles */
    struct {               /* how the first cut found the run, so that states can be laid out in turn */
        int done;
        int is_earlier;    /* whether it is cut at a moment before its end, so that nobody knows its files but by the notes */
        uint64_t noted, number, trace;
    } cut;
    int unseen, unseen_told; /* what the supervisor knows that it missed, and how many of these were printed */
    char unseen_text[MOST_UNSEEN][MOST_UNSEEN_TEXT];
    struct later later[MOST_LATER];
    struct counter counters[MOST_COUNTERS];
};

/* The counts of the point of that name, which has at most MOST_POINT bytes. Returns null if there is no more room. */
struct counter *counter_named(struct state *state, const char *name);

/* Notes something that wasn't seen, once. Call it under the lock. */
void add_unseen(struct state *state, const char *what, const char *name);

/* Writes the line about all that wasn't seen and wasn't printed yet. Returns its length, or 0 if there is nothing. Call it under the lock. */
enum { UNSEEN_LINE = MOST_UNSEEN * (MOST_UNSEEN_TEXT + 2) + 64 };
size_t unseen_line(struct state *state, char *line);

/* Takes the lock of the run in that folder, also from a holder that was killed. Then the last line of the trace is cut off if it has no end. */
void lock_state(struct state *state, const char *run);

#endif
