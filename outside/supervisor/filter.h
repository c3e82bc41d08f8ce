/* The filter by which the system asks the supervisor about a call. */
#ifndef FILTER_H
#define FILTER_H

#include <stdbool.h>

/* Which parts of the table are looked at, in addition to those that always are. */
struct looks {
    bool sockets, random, order;
};

/* Sets the filter for this thread and all that it starts. Returns the listener, or -1 with errno. */
int set_filter(const struct looks *looks);

/* Whether a call isn't of the 64-bit interface, so that its number means another call. */
bool is_foreign(unsigned interface, int number);

#endif
