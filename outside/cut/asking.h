/* Chooses a state: by the hits of power::keep, or all alike.

   The hits come in this order. The first are for the sequence: the last pending change and all before it, then the one before that and all before it,
   until one is kept. Then from the last on each part that may be there out of order, unless a later one of the same name is there, or it would be all of
   the next change of the sequence, which was asked for already; and of a part that is there and unsure, whether it is undone, and then whether the one
   before it is. Then for each file that has a name, in the order in which the run first changed their bytes or attributes: its mode and owner, and each
   of its shortenings, as far as these may be there out of order; its lengths, from the last on until one is kept, and those that may be there without
   its shortenings; and each of its blocks, in order of their places, from the last version on until one is kept. A version that shows no other bytes
   isn't asked for. */
#ifndef ASKING_H
#define ASKING_H

#include "words.h"

#include <stdio.h>

/* What is kept: nothing; everything; all of the sequence, and no bytes; all bytes, and nothing of the sequence; or what the scenario says. */
enum keeping { KEEPS_NOTHING, KEEPS_ALL, KEEPS_NAMES, KEEPS_CONTENTS, KEEPS_ASKED };

struct asking {
    struct replay *replay;
    enum keeping keeping;
    struct scenario scenario;
    FILE *trace;
    const struct change *next; /* the first pending change that isn't there, if the sequence has an order */
    uint64_t number;     /* the number of the last hit */
    struct counter keep; /* that of the run, which has it back if it goes on */
};

/* Begins with the run's counts. They stay the same if the cut has no hits. */
void begin_asking(struct asking *asking, struct replay *replay, struct state *state, enum keeping keeping);

/* Chooses a state, with KEEPS_ASKED by hits under the scenario of that text. */
void choose(struct asking *asking, const struct state *state, const char *text);

/* Whether a scenario, or what else is chosen by, keeps what is asked. */
bool is_kept(struct asking *asking, const struct question *question);

/* Whether a part of the sequence is asked for by itself. That it is there and all before it was asked already. */
bool is_asked_alone(const struct asking *asking, const struct change *change, const struct part *part);

/* Chooses a file's shortenings, its length and its blocks. */
void choose_bytes(struct asking *asking, struct file *file);

/* Makes these counts those of the run, which goes on. */
void keep_counts(const struct asking *asking, struct state *state);

#endif
