/* Calls that may wait: those on pipes under the root and, if they are points, on sockets. */
#ifndef STREAMS_H
#define STREAMS_H

#include "supervisor.h"

/* Serves a read or write of something other than a file. `point` is READ or WRITE for a pipe under the root, RECV or SEND for a socket. */
void serve_stream(struct call *call, struct opened *opened, enum point point);

bool is_socket(const struct opened *opened);

/* How many of `length` bytes a read would move now: what is behind that place of a file (its own, if that is negative), or what waits in a pipe or a
   socket. If nothing is there, it is `length`: the read comes to the end, or waits. */
size_t moves_now(const struct opened *opened, off_t at, size_t length);

#endif
