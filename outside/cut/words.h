/* What is pending, and what a hit of power::keep asks, in words. Each pending change has a number: those of the sequence, then for each file its lengths
   and the versions of its blocks. */
#ifndef WORDS_H
#define WORDS_H

#include "replay.h"

/* A change of the sequence as it is listed. What a hit asks: whether a change and all before it are there, or a part of one alone, or whether one is undone;
   whether a file has a length, or has it without its shortenings; whether a block is as of a moment, or is so but for a later shortening. */
enum about { A_CHANGE, WITH_ALL_BEFORE, ALONE_IN_SEQUENCE, UNDONE_IN_SEQUENCE, A_LENGTH, A_LENGTH_ALONE, A_BLOCK, A_BLOCK_UNCLEARED };

struct question {
    enum about about;
    const struct change *change;
    const struct part *part;
    struct file *file;
    const struct block *block;
    const struct moment *moment;
    uint64_t length;
};

void number_pending(struct replay *replay);

/* Prints what is pending, a line each: number and words. */
void print_pending(const struct replay *replay);

/* The number and the words of a question. The next call overwrites the text. */
const char *in_words(const struct replay *replay, const struct question *question);

/* The borders of blocks among the bytes by which a moment makes a file longer, as far as they are pending: the first, and how many there are. */
uint64_t first_border(const struct replay *replay, const struct file *file, const struct moment *moment);
uint64_t borders_of(const struct replay *replay, const struct file *file, const struct moment *moment);

/* The version of a block that is there at least, and its place among the versions: 0 for moment 0, else one more than that in the list. */
size_t oldest_version(const struct block *block, size_t since);

#endif
