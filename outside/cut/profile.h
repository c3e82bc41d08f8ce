/* A profile of the file `profiles`: what syncs make last, and what a power cut may leave. That file says what the words mean. */
#ifndef PROFILE_H
#define PROFILE_H

#include "book.h"

enum of { OF_FILE, OF_FOLDER, OF_ALL, OFS };
enum condition { IF_ALWAYS, IF_NEW, IF_NAMES, IF_MOVES, IF_ATTRIBUTES, IF_LENGTH, IF_ENTRIES, CONDITIONS };
enum lasts {
    RANGE, CONTENTS, LENGTH, ATTRIBUTES_OF_IT, CREATION, NAMES, MOVES, PLACE, ABOVE, ENTRIES, TAKEN, EARLIER, NAMES_ALL, ALL_OF_IT, GROWN,
    LASTS
};
enum may { NEAR, MAY_BE_LATER, LENGTHS, MAYS };
enum leaves { LEFT_NAMES, LEFT_LENGTHS, LEFT_ZEROS, LEFT_REPLACING, LEFT_CLEARED, LEFT_FAILED, LEAVES };

/* The words behind `leaves`, each for its place above. */
enum { IN_ORDER, ANY_NAMES };
enum { SHORTENED, ALONE };
enum { ANYWHERE, BEFORE, BY_WRITES };
enum { FULL, EMPTY };
enum { FIRST, APART };
enum { AGAIN, BUT_NEW };

/* Words are bits of their numbers. */
struct rule {
    int sync, of;
    unsigned conditions, lasts, may;
};

static inline bool has_bit(unsigned bits, unsigned number) { return bits >> number & 1; }

struct profile {
    struct rule rules[32];
    size_t count;
    int leaves[LEAVES];
};

/* Reads the profile of that name, or refuses. */
void read_profile(struct profile *profile, const char *name);

#endif
