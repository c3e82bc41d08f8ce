/* Lays out the files of a state. */
#ifndef LAY_H
#define LAY_H

#include "replay.h"

/* Lays out the files of the state's names in that tree, which must be empty. With `as_they_are`, files of which all is there are copied from what the cut
   noted of them. */
void lay(struct replay *replay, bool as_they_are, const struct tree *tree);

/* Opens what a book has of a file's contents. Returns false if it has nothing. */
bool open_noted(const char *book, const struct file *file, int *in);

/* Writes a file's contents as they are in the state. */
void write_contents(const struct replay *replay, const struct file *file, int out, const char *path);

#endif
