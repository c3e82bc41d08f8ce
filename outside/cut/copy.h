/* Copies and compares files. Holes stay holes. */
#ifndef COPY_H
#define COPY_H

#include <stdbool.h>
#include <stdint.h>

/* Copies at most so many bytes to the same place of another file, up to the end; or all of it to an empty one, but for what is behind `end`. */
void copy_part(int in, int out, uint64_t at, uint64_t length, const char *path);
void copy_whole(int in, int out, const char *path, uint64_t end);

bool same_bytes(int one, int other);

#endif
