/* Random bytes that are the same in each run. */
#ifndef PIN_H
#define PIN_H

#include "supervisor.h"

extern bool is_pinned;

/* Serves a read of the system's random bytes. Returns false if it isn't one. */
bool serve_random_read(struct call *call, const struct opened *opened);

#endif
