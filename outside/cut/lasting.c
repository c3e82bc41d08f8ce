#include "lasting.h"

#include <stdlib.h>
#include <sys/stat.h>

static bool part_lasts(const struct replay *replay, const struct change *change, const struct part *part) {
    return part->lasts || change->index < replay->lasting;
}

static bool change_lasts(const struct replay *replay, const struct change *change) {
    for (unsigned i = 0; i < change->count; i++)
        if (!change->parts[i].is_gone && !part_lasts(replay, change, &change->parts[i])) return false;
    return true;
}

/* ---- what a sync takes along */

/* A sync: its file or folder, or null for one of all, and the place in the notes before which everything is that came before it. */
struct sync {
    struct replay *replay;
    const struct note *note;
    struct file *file;
    uint64_t noted;
};

bool may_last_later(const struct replay *replay, const struct change *change, const struct file *folder) {
    bool is_of_synced = change->file->synced_in == replay->stretch || (change->kind == EXCHANGED && change->other->synced_in == replay->stretch);
    return replay->profile.leaves[LEFT_NAMES] == ANY_NAMES || folder->later_in == replay->stretch || is_of_synced;
}

bool may_be_gone(const struct replay *replay, const struct file *loser, const struct file *taker) {
    bool is_taken_along = taker && taker->synced_in == replay->stretch;
    return replay->profile.leaves[LEFT_NAMES] == ANY_NAMES || (loser->synced_in == replay->stretch && !is_taken_along);
}

static void mark_near(const struct sync *sync, struct file *folder, unsigned may) {
    if (folder->marked_at == sync->noted) return;
    folder->marked_at = sync->noted;
    if (has_bit(may, NEAR)) folder->near_until = sync->noted;
    if (has_bit(may, LENGTHS)) folder->lengths_until = sync->noted;
    if (has_bit(may, MAY_BE_LATER)) folder->later_in = sync->replay->stretch;
    for (size_t i = 0; i < folder->below.count; i++) mark_near(sync, folder->below.items[i], may);
}

static void take_along(const struct sync *sync, unsigned may) {
    if (!may || !sync->file) return;
    if (has_bit(may, MAY_BE_LATER)) sync->file->synced_in = sync->replay->stretch;
    mark_near(sync, sync->file, may);
    for (size_t i = 0; i < sync->file->homes.count; i++) mark_near(sync, ((struct home *)sync->file->homes.items[i])->folder, may);
}

/* Whether something that was noted then, of the file itself, is among what a sync took along by its folders. */
static bool is_near(const struct file *file, uint64_t noted) {
    bool found = noted < file->near_until;
    for (size_t i = 0; i < file->homes.count && !found; i++) {
        const struct home *home = file->homes.items[i];
        uint64_t until = home->folder->near_until;
        found = noted < until && home->noted < until;
    }
    return found;
}

/* ---- conditions: whether something of the file's own is pending, and then how many changes the sequence had at the latest of these */

static bool is_of_kind(const struct change *change, enum condition kind) { return kind != IF_MOVES || change->kind != EXCHANGED; }

static size_t latest_in(const struct sync *sync, const struct list *list, enum condition kind) {
    for (size_t i = list->count; i-- > 0;) {
        const struct change *change = list->items[i];
        for (unsigned part = 0; part < change->count; part++) {
            const struct part *its = &change->parts[part];
            bool is_meant = !its->is_gone && is_of_kind(change, kind) && (kind != IF_ENTRIES || its->name->folder == sync->file);
            if (is_meant && !part_lasts(sync->replay, change, its)) return change->index + 1;
        }
    }
    return 0;
}

static size_t latest_length(const struct sync *sync) {
    const struct list *resized = &sync->file->resized;
    for (size_t i = resized->count; i-- > 0;) {
        const struct moment *moment = resized->items[i];
        if (moment->index <= sync->file->length_since) return 0;
        if (!moment->shortening || !change_lasts(sync->replay, moment->shortening)) return moment->position;
    }
    return 0;
}

static size_t latest(const struct sync *sync, enum condition kind) {
    const struct change *creation = sync->file->creation;
    switch (kind) {
    case IF_NEW: return creation && !change_lasts(sync->replay, creation) ? creation->index + 1 : 0;
    case IF_ATTRIBUTES: return latest_in(sync, &sync->file->attributes, kind);
    case IF_LENGTH: return latest_length(sync);
    case IF_ENTRIES: return latest_in(sync, &sync->file->entries, kind);
    default: return latest_in(sync, &sync->file->of_names, kind);
    }
}

/* Whether a rule applies; then how many changes of the sequence `earlier` speaks of. */
static bool applies(const struct sync *sync, const struct rule *rule, size_t *earlier) {
    bool found = has_bit(rule->conditions, IF_ALWAYS);
    *earlier = 0;
    for (enum condition kind = IF_NEW; sync->file && kind < CONDITIONS; kind++) {
        size_t its = has_bit(rule->conditions, kind) ? latest(sync, kind) : 0;
        found |= its > 0;
        if (its > *earlier) *earlier = its;
    }
    return found;
}

/* ---- names */

static void keep_all(struct change *change) {
    for (unsigned i = 0; i < change->count; i++) change->parts[i].lasts |= !change->parts[i].is_gone;
}

static void keep_list(const struct list *list, enum condition kind) {
    for (size_t i = 0; i < list->count; i++)
        if (is_of_kind(list->items[i], kind)) keep_all(list->items[i]);
}

/* Keeps where the file stands, and that it is gone from where it stood, but for the names that it took and left again. */
static void keep_place(const struct sync *sync) {
    const struct list *list = &sync->file->of_names;
    for (int round = 0; round < 3; round++)
        for (size_t i = 0; i < list->count; i++) {
            struct change *change = list->items[i];
            for (unsigned each = 0; each < change->count; each++) {
                struct part *part = &change->parts[each];
                if (part->is_gone) continue;
                if (round == 0 && part->file == sync->file && part->name->last != sync->file && !part_lasts(sync->replay, change, part))
                    part->name->is_left = true;
                if (round == 1) part->lasts |= !part->name->is_left;
                if (round == 2) part->name->is_left = false;
            }
        }
}

/* Keeps what was done to the names in the folder; of moves out of it also the other end. */
static void keep_entries(const struct sync *sync, bool keeps_moves) {
    for (size_t i = 0; i < sync->file->entries.count; i++) {
        struct change *change = sync->file->entries.items[i];
        const struct part *from = &change->parts[change->count - 1];
        if (keeps_moves && change->kind == RENAMED && from->name->folder == sync->file) keep_all(change);
        for (unsigned part = 0; !keeps_moves && part < change->count; part++)
            change->parts[part].lasts |= !change->parts[part].is_gone && change->parts[part].name->folder == sync->file;
    }
}

static void keep_above(const struct file *file, int depth) {
    for (size_t i = 0; i < file->homes.count && depth < 100; i++) {
        const struct home *home = file->homes.items[i];
        if (!home->names) continue;
        if (home->folder->creation) keep_all(home->folder->creation);
        keep_above(home->folder, depth + 1);
    }
}

static void drop_lasting(const struct replay *replay, struct list *list) {
    size_t left = 0;
    for (size_t i = 0; i < list->count; i++)
        if (!change_lasts(replay, list->items[i])) list->items[left++] = list->items[i];
    list->count = left;
}

/* ---- bytes */

static uint64_t start_of(const struct replay *replay, const struct block *block) { return block->index * replay->block; }

/* Without lost blocks, one number says it of all blocks. */
static void keep_contents(struct file *file) {
    for (size_t i = 0; i < file->blocks.count && file->lost; i++) {
        struct block *block = file->blocks.items[i];
        if (!block->is_lost) block->since = file->moments.count;
    }
    if (!file->lost) file->since = file->moments.count;
}

/* Without what was written over. */
static void keep_grown(struct file *file) {
    for (size_t i = 0; i < file->blocks.count; i++) {
        struct block *block = file->blocks.items[i];
        if (!block->is_lost && block->grown > block->since) block->since = block->grown;
    }
}

static void keep_at_least(struct file *file, uint64_t length) {
    struct least *least = made(sizeof *least);
    *least = (struct least){length, file->moments.count};
    add_to(&file->leasts, least);
}

static void keep_range(const struct sync *sync) {
    struct replay *replay = sync->replay;
    struct file *file = sync->file;
    measure(replay, file);
    uint64_t from = sync->note->from, end = from + sync->note->length, last = length_at(file, file->moments.count);
    uint64_t to = sync->note->flags == MSYNC_CALL ? (end + SYSTEM_BLOCK - 1) / SYSTEM_BLOCK * SYSTEM_BLOCK : end; /* of a mapping, whole pages */
    for (uint64_t at = from / replay->block; from < to && at * replay->block < to; at++) {
        struct block *block = block_of(replay, file, at, false);
        if (block && !block->is_lost) block->since = file->moments.count;
    }
    keep_at_least(file, end < last ? end : last);
}

/* What a failed sync lost no later one brings: neither a length whose end is in blocks that are lost. Then the file ends at least where these begin. */
static void keep_length(const struct sync *sync) {
    struct file *file = sync->file;
    uint64_t length = length_at(file, file->moments.count), end = length;
    keep_list(&file->shortenings, IF_ALWAYS);
    while (file->lost && end) {
        uint64_t index = (end - 1) / sync->replay->block;
        const struct block *block = block_of(sync->replay, file, index, false);
        if (!block || !block->is_lost || block->is_rewritten) break;
        end = index * sync->replay->block;
    }
    if (end == length) file->length_since = file->moments.count;
    else keep_at_least(file, end);
}

void lose_blocks(struct replay *replay, struct file *file) {
    for (size_t i = 0; i < file->blocks.count; i++) {
        struct block *block = file->blocks.items[i];
        const struct moment *last = block->versions.items[block->versions.count - 1];
        if (block->is_lost || last->index <= block->since || last->index <= file->since || last->kind == RESIZED) continue;
        bool is_new = start_of(replay, block) >= length_at(file, file->length_since);
        block->is_lost = true;
        block->was_new = is_new && replay->profile.leaves[LEFT_FAILED] == BUT_NEW;
        block->is_rewritten = false;
        file->lost++;
    }
}

/* A page is written as a whole, and what is cut off is lost no more. */
void heal_blocks(struct replay *replay, struct file *file, const struct moment *moment) {
    uint64_t from = moment->begin / SYSTEM_BLOCK * SYSTEM_BLOCK, to = (moment->end + SYSTEM_BLOCK - 1) / SYSTEM_BLOCK * SYSTEM_BLOCK;
    for (size_t i = 0; i < file->blocks.count; i++) {
        struct block *block = file->blocks.items[i];
        uint64_t start = start_of(replay, block);
        bool is_cut_off = moment->shortening && start >= moment->length;
        bool is_written = moment->kind != RESIZED && start < to && start + replay->block > from;
        if (!block->is_lost || (!is_cut_off && !is_written)) continue;
        block->is_rewritten = true;
        block->is_lost = block->was_new && !is_cut_off;
        file->lost -= !block->is_lost;
    }
}

/* ---- one sync */

static void keep_everything(const struct sync *sync, void keep_bytes(struct file *file)) {
    struct replay *replay = sync->replay;
    replay->lasting = replay->all_synced = replay->sequence.count;
    replay->stretch++;
    for (size_t i = 0; i < replay->unsynced.count; i++) {
        struct sync its = {replay, sync->note, replay->unsynced.items[i], sync->noted};
        keep_bytes(its.file);
        keep_length(&its);
        its.file->is_unsynced = false;
    }
    replay->unsynced.count = 0;
}

static void keep_word(const struct sync *sync, enum lasts word, size_t earlier) {
    struct file *file = sync->file;
    switch (word) {
    case RANGE: return keep_range(sync);
    case CONTENTS: return keep_contents(file);
    case LENGTH: return keep_length(sync);
    case ATTRIBUTES_OF_IT: return keep_list(&file->attributes, IF_ALWAYS);
    case CREATION: if (file->creation) keep_all(file->creation); return;
    case NAMES: return keep_list(&file->of_names, IF_NAMES);
    case MOVES: return keep_list(&file->of_names, IF_MOVES);
    case PLACE: return keep_place(sync);
    case ABOVE: return keep_above(file, 0);
    case ENTRIES: return keep_entries(sync, false);
    case TAKEN: return keep_entries(sync, true);
    case EARLIER: if (earlier > sync->replay->lasting) sync->replay->lasting = earlier; return;
    case NAMES_ALL: sync->replay->lasting = sync->replay->sequence.count; return;
    case GROWN: return keep_everything(sync, keep_grown);
    default: return keep_everything(sync, keep_contents);
    }
}

void sync_changes(struct replay *replay, const struct note *note, uint64_t noted) {
    enum sync_call kind = note->flags;
    if (kind == BEGINNING) return keep_everything(&(struct sync){replay, note, NULL, noted + 1}, keep_contents);
    struct sync sync = {replay, note, kind == SYNCFS_CALL || kind == SYNC_CALL ? NULL : file_of(replay, &note->file), noted + 1};
    int of = !sync.file ? OF_ALL : S_ISDIR(sync.file->key.mode) ? OF_FOLDER : OF_FILE;
    const struct rule *rules[sizeof replay->profile.rules / sizeof *replay->profile.rules];
    size_t count = 0, earlier[sizeof rules / sizeof *rules];
    for (size_t i = 0; i < replay->profile.count; i++) {
        const struct rule *rule = &replay->profile.rules[i];
        if (rule->sync == (int)kind && rule->of == of && applies(&sync, rule, &earlier[count])) rules[count++] = rule;
    }
    for (size_t i = 0; i < count; i++) take_along(&sync, rules[i]->may);
    for (size_t i = 0; i < count; i++)
        for (enum lasts word = 0; word < LASTS; word++)
            if (has_bit(rules[i]->lasts, word)) keep_word(&sync, word, earlier[i]);
    if (!sync.file) return;
    drop_lasting(replay, &sync.file->of_names);
    drop_lasting(replay, &sync.file->entries);
    drop_lasting(replay, &sync.file->attributes);
    drop_lasting(replay, &sync.file->shortenings);
}

/* ---- when all notes are read */

bool has_pending_shortening(const struct file *file) {
    for (size_t i = 0; i < file->shortenings.count; i++)
        if (!((struct change *)file->shortenings.items[i])->parts[0].lasts) return true;
    return false;
}

static void settle_part(const struct replay *replay, const struct change *change, struct part *part) {
    bool is_any = replay->profile.leaves[LEFT_NAMES] == ANY_NAMES;
    part->lasts = !part->is_gone && part_lasts(replay, change, part);
    part->may |= is_any || (part->name ? change->noted < part->name->folder->near_until : is_near(change->file, change->noted));
}

/* A length that a file has at least is one that lasts, if no shortening is pending. */
static void settle_length(struct file *file) {
    size_t each = file->resized.count;
    for (size_t i = file->leasts.count; i-- > 0 && !has_pending_shortening(file);) {
        const struct least *least = file->leasts.items[i];
        for (; each > 0; each--) {
            const struct moment *moment = file->resized.items[each - 1];
            if (moment->index <= file->length_since) return;
            if (moment->index > least->moment || moment->before >= least->length) continue;
            if (moment->length < least->length) break;
            file->length_since = moment->length == least->length ? moment->index : moment->index - 1;
            file->floor = least->length;
            return;
        }
    }
}

void find_pending(struct replay *replay) {
    for (size_t i = 0; i < replay->sequence.count; i++) {
        struct change *change = replay->sequence.items[i];
        for (unsigned part = 0; part < change->count; part++) settle_part(replay, change, &change->parts[part]);
        if (!change_lasts(replay, change)) add_to(&replay->pending, change);
    }
    for (size_t i = 0; i < replay->touched.count; i++) settle_length(replay->touched.items[i]);
}
