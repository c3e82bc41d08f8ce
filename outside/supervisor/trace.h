/* Lines of a run's trace, and the names in them. */
#ifndef TRACE_H
#define TRACE_H

#include "../run/run.h"

/* Writes decimal digits and returns their end. It is used for each hit, since printf would cost more than some calls do. */
char *written_number(char *to, uint64_t number);

/* The name that leads to an open file. */
enum { LINK_LENGTH = 40 };
const char *link_of(int file, char *link);

/* The flags of an open, as strace shows them, in a text with room for 256 bytes. */
const char *flag_names(int flags, char *text);

/* The name of a point, with its file if the scenario names points by file; of a point of the program's own that is its name. `name` has room for
   MOST_POINT bytes and one. */
const char *point_name(const struct scenario *scenario, enum point point, const char *file, char *name);

/* A hit: its number, the counts of its point, the term that acts (or null), its file, the process, and the flags of an open, the operation that is
   given, or null. */
struct hit_line {
    uint64_t number;
    const struct counter *counter;
    const struct term *term;
    const char *path;
    int process;
    const char *flags;
};

/* Writes the line, and returns where the room for the result begins: RESULT_WIDTH bytes, behind which the line ends. */
enum { RESULT_WIDTH = 20, LONGEST_LINE = 4 * (MOST_BYTES + PATH_MAX) + 1024 };
char *trace_line(char *to, const struct hit_line *hit);

/* The result of a call as a text: its number, or if that is negative, the name of the error. */
void result_text(char *text, long result, int error);

#endif
