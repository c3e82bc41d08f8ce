/* Reads the scenario in FAILPOINTS. The grammar is that of `paklour`, so the same text means the same. */
#ifndef SCENARIO_H
#define SCENARIO_H

#include <stdbool.h>
#include <stdint.h>

/* The calls that are points, in the order of the catalogue, then the point of a power cut, the one of the order of threads, the one at which a
   program asks for its next operation, and any that the program itself names. `census` has the same order. */
enum point {
    OPEN, READ, WRITE, FSYNC, TRUNCATE, RENAME, LINK, UNLINK, MKDIR, RMDIR, SYMLINK, /* of files */
    CONNECT, ACCEPT, SEND, RECV,                                                      /* of sockets */
    KEEP,
    NEXT,
    WORK,
    OWN,
    POINTS
};
extern const char *const point_names[POINTS];

enum task { OFF, RETURN, SLEEP, PANIC, PRINT, PAUSE, YIELD, DELAY, TASKS };
extern const char *const task_names[TASKS];

enum { MOST_BYTES = 65536, MOST_ENTRIES = 256, MOST_TERMS = 256, MOST_FAULTS = 4096, WHOLE_SHARE = 1000000,
    MOST_MILLIS = 1000000000, MOST_OPERATIONS = 64, MOST_NAME = 200, MOST_TEXT = 127 };

/* What a return may do in place of an error: half of a read or write; or nothing, with the result that all was sent; or the process that makes the call
   is killed, or gets SIGTERM; or the disk is full from there on; or a point of the program's own gets the argument as a text. */
enum { HALF_DONE = 0, DROPPED = -1, KILLED = -2, TERMINATED = -3, FILLED = -4, TOLD = -5 };

struct term {
    enum task task;
    bool counted;
    uint32_t count;       /* how often the term acts at most, if it has a count */
    uint32_t share;       /* the share of hits at which it acts, in millionths */
    uint32_t millis;      /* the time of sleep and delay */
    const char *argument; /* the argument of return, panic and print, or null */
    int error;            /* the error of a return: its number, or one of those above */
    unsigned operation;   /* the operation that a return gives, from 1; 0 at any point but work::next */
};

struct chain {
    const char *name;
    enum point point;
    unsigned entry;   /* the number of its piece of the text, from 1 */
    unsigned length;
    struct term terms[MOST_TERMS];
};

/* What is wrong, and where: the numbers of the piece and of the term, counted from 1; 0 if no single one is wrong. */
struct bad {
    const char *kind;
    unsigned entry, term;
};

struct scenario {
    bool by_file;         /* points are named with their file, such as `sys::write@mbox`; set it before reading */
    struct chain chains[MOST_ENTRIES];
    unsigned length;      /* how many chains there are */
    struct chain other;   /* room for the chains of names that no point can have */
    const char *stranger; /* such a name, or null */
    unsigned piece, entries, faults;
    struct bad bad;
};

/* Reads `text` into a scenario of zeros. The text is cut into pieces, and must live as long as the scenario. Returns false if it can't be read or
   asks for something that can't be done. Then `bad` has the first fault. */
bool read_scenario(struct scenario *scenario, char *text);

/* Whether a point of the program's own can have this name: up to 200 bytes that scenarios, settings and hits can have, and no prefix of other points. */
bool is_own_name(const char *name);

/* The chain of that name, or null. */
const struct chain *chain_named(const struct scenario *scenario, const char *name);

/* The first term of the chain that isn't used up, which `used` counts. Returns null if none acts: also where the hit before had the same and it acts
   once: a call that is interrupted is made again, and a disk that is full stays so. */
const struct term *acting_term(const struct chain *chain, uint64_t *used);

/* Writes what a point does as the trace shows it, `go` for no term. Returns the end of the text, which has at most 4 bytes for each byte of the
   argument, and 32 more. */
char *written_answer(char *to, const struct term *term);

/* Writes bytes that would break a line or its columns as `\ooo`. */
char *escaped(char *to, const char *text);

#endif
