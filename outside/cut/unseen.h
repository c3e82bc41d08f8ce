/* Finds changes under the root that aren't in the notes. */
#ifndef UNSEEN_H
#define UNSEEN_H

#include "replay.h"

/* Adds names that the run's script changes itself. */
void expect_names(const char *run, char **names, int count);

/* Refuses the run if a file at the cut isn't as the notes say, and the script hasn't named it. All must be chosen. */
void check_unseen(struct replay *replay, const struct state *state);

#endif
