/* A book records what a tree of files holds at one time. It is a folder with
     c/KEY   a file's contents
     d/KEY   a folder's names: for each `KIND MODE OWNER GROUP KEY NAME` and a byte of zero, for a symbolic link then its target and
             another one; KIND is c, d or l
   KEY is the file's inode number and its time of birth, since numbers are used again. */
#ifndef BOOK_H
#define BOOK_H

#include "tree.h"

/* Prints a line and ends the program with 2. */
_Noreturn void refuse(const char *what, const char *why);
void must(bool done, const char *what);

void joined(char *to, const char *folder, const char *name);

/* Reads what a folder's note says of a name: the key, with the kind in its mode. Returns the name, or null if that can't be read. */
const char *read_noted(const char *line, struct key *key);

/* Opens what a book has of a file's contents (`c`) or of a folder's names (`d`). Returns -1 if it has nothing. */
int open_note(const char *book, char kind, const struct key *key, int flags);

/* Makes the book of a tree in that folder, in place of one that an earlier command left. */
void make_book(const char *book, const struct tree *tree);
void take_book_away(const char *book);

#endif
