/* Waits for futexes, which end in one order. */
#ifndef FUTEXES_H
#define FUTEXES_H

#include <stdbool.h>

/* Lets each wait end, in its turn, for whose thread a signal has come. */
void see_signals(void);

/* Whether the word of a wait has changed, and lets each such wait end in its turn. */
bool sees_change(void);
void wake_changed(void);

#endif
