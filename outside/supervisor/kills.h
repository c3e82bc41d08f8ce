/* Ends one process of the run, where the scenario says so. */
#ifndef KILLS_H
#define KILLS_H

#include "supervisor.h"

/* Kills the process that makes a call, with its threads. When this returns its files are closed and its locks are free, and the call isn't made. */
enum answer end_process(struct call *call);

/* Sends SIGTERM to that process, before the call. If that ends the process, the call isn't made. If the thread has a handler, the call is made once this
   has run. Otherwise it is made now. */
enum answer ask_to_end(struct call *call);

/* Whether the run is over though processes are left: the command itself was ended so, and the others wait without an end. */
bool is_left_waiting(void);

#endif
