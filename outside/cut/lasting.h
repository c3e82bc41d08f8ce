/* Finds what the syncs of a run make last, by the rules of the profile. */
#ifndef LASTING_H
#define LASTING_H

#include "replay.h"

/* Apply a sync that was noted, at that place of the notes, and one of a file that failed. */
void sync_changes(struct replay *replay, const struct note *note, uint64_t noted);
void lose_blocks(struct replay *replay, struct file *file);

/* Lets what was lost of the blocks that a change touches be brought by the next sync. */
void heal_blocks(struct replay *replay, struct file *file, const struct moment *moment);

/* Whether a change of a name in that folder, which is made now, may come to last by a sync of something else. */
bool may_last_later(const struct replay *replay, const struct change *change, const struct file *folder);

/* Whether a name that a file loses now may be lost to it while what takes the name, which may be null, isn't there. */
bool may_be_gone(const struct replay *replay, const struct file *loser, const struct file *taker);

/* Says of each part whether it lasts or may, and finds the changes that are pending, when all notes are read. */
void find_pending(struct replay *replay);

/* Whether a file has a shortening that doesn't last. */
bool has_pending_shortening(const struct file *file);

#endif
