/* Marks of a run, for `rewind`: how long the notes and the standard output are at each hit, before its call is made. They are written to the file
   `marks` in the run's folder, if it is there: a line for each hit, with its number, the bytes of the notes and those of the output. Call it under
   the lock. */
#ifndef MARKS_H
#define MARKS_H

#include <stdint.h>

void mark_hit(uint64_t number);

#endif
