/* Points of a program's own, in C and C++: at a point the step fails if Paklour's scenario says so.

       if (paklour_hit("store::flush", NULL)) return -1;

   A `text` that isn't null has room for 128 bytes, and gets what a `return(TEXT)` of the scenario says. Outside Paklour no system has such a link, so a step
   goes on. The names "=begin", "=end" and "=say/TEXT" are no points: docs/OUTSIDE.md has them. */
#ifndef PAKLOUR_H
#define PAKLOUR_H

#include <errno.h>
#include <stddef.h>
#include <unistd.h>

#define paklour_hit(name, text) paklour_read("/.paklour/" name, text)

static inline int paklour_read(const char *link, char *text) {
    char unused[128], *to = text ? text : unused;
    int before = errno;
    ssize_t length = readlink(link, to, 127);
    int fails = length >= 0 || errno == EIO;
    to[length > 0 ? length : 0] = 0;
    errno = before;
    return fails;
}

#endif
