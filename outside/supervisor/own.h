/* Points of the program's own, and what else it says by the same call: where faults begin and end, and what it promises. */
#ifndef OWN_H
#define OWN_H

#include <stdbool.h>

/* Whether no fault acts now: before a beginning that is awaited, and behind an end. */
bool is_outside(void);

/* Whether the program has never said where faults begin, though that is awaited. */
bool lacks_begin(void);

#endif
