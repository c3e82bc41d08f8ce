/* Calls that wait before they are answered: for some time, until a descriptor is ready, or for their turn. */
#ifndef WAITING_H
#define WAITING_H

#include "supervisor.h"

/* Serves a call, for the first time or again. It is in main.c. */
void serve(struct call *call);

void keep_waiting(const struct call *call);
bool waits_at_all(void);

/* The calls that wait, one after the other: the first is behind null, and null is behind the last. */
struct call *next_waiting(struct call *before);

/* Forgets the calls of threads that have ended, and closes what was kept for them. */
void forget_ended(void);

/* Whether every thread rests, and no call that waits here goes on by itself. */
bool all_wait_here(void);

/* Waits until another call comes, or until one that waits may go on, and serves the latter. */
void wait_for_any(int listener);

#endif
