#include "asking.h"
#include "lasting.h"

#include <stdlib.h>

/* The moments between which a file's length is one that may be there: it is as of `first`, or grows by those behind it and before `end`. */
struct span {
    size_t first, end;
    uint64_t least; /* and is so long at least */
};

/* ---- where a file may stand */

/* Whether a shortening is there, or with `lasting` lasts. */
static bool is_there(const struct moment *moment, bool lasting) {
    const struct part *part = &moment->shortening->parts[0];
    return lasting ? part->lasts : part->is_there;
}

/* The last shortening that is there, or with `lasting` that lasts, and the moment of the first behind it that isn't. */
static struct span shortenings_of(const struct file *file, bool lasting) {
    struct span span = {0, file->moments.count + 1, 0};
    for (size_t i = file->shortened.count; i-- > 0;) {
        const struct moment *moment = file->shortened.items[i];
        if (is_there(moment, lasting)) {
            span.first = moment->index;
            break;
        }
        span.end = moment->index;
    }
    for (size_t i = 0; i < file->leasts.count; i++) {
        const struct least *least = file->leasts.items[i];
        if (least->moment >= span.first && least->length > span.least) span.least = least->length;
    }
    return span;
}

/* The moment since which a file has its length because it took the place of another. */
static size_t full_since(const struct replay *replay, const struct file *file) {
    for (size_t i = file->replacings.count; replay->profile.leaves[LEFT_REPLACING] == FULL && i-- > 0;) {
        const struct change *change = file->replacings.items[i];
        const struct part *part = &change->parts[change->parts[0].is_gone];
        size_t moment = file->moments.count;
        if (!part->is_there) continue;
        while (moment && moment_at(file, moment)->position > change->index) moment--;
        return moment;
    }
    return 0;
}

/* The last moment at which its length may have come to last while its shortenings didn't. */
static size_t alone_until(const struct replay *replay, const struct file *file) {
    uint64_t until = 0;
    if (replay->profile.leaves[LEFT_LENGTHS] == ALONE) return file->moments.count;
    for (size_t i = 0; i < file->homes.count; i++) {
        const struct home *home = file->homes.items[i];
        uint64_t its = home->folder->lengths_until;
        if (home->noted < its && its > until) until = its;
    }
    size_t moment = file->moments.count;
    while (moment > file->named_at && moment_at(file, moment)->noted >= until) moment--;
    return moment;
}

/* ---- the length */

/* What is chosen of a file's length: the moment that it is of, which is 0 for one that is there alone. */
struct chosen {
    uint64_t length;
    size_t moment;
    bool is_alone, is_only; /* is_only: no other length was asked for */
    size_t alone_until;     /* lengths of moments up to this one may have come to last by themselves */
};

/* Asks for a length, unless it is the first. */
static bool is_length_kept(struct asking *asking, const struct question *question, struct chosen *chosen) {
    bool is_alone = question->about == A_LENGTH_ALONE;
    if (!question->moment || !is_kept(asking, question)) return false;
    *chosen = (struct chosen){question->length, is_alone ? 0 : question->moment->index, is_alone, false, chosen->alone_until};
    return true;
}

/* Asks for the lengths of a span, from the last on. Those that are too short aren't asked for, and the shortest that isn't is there if no other is. */
static bool choose_in(struct asking *asking, struct file *file, const struct span *span, bool is_alone, struct chosen *chosen) {
    struct question question = {.about = is_alone ? A_LENGTH_ALONE : A_LENGTH, .file = file}, before = question;
    bool has_shortest = !is_alone && length_at(file, span->first) >= span->least, is_only = true;
    for (size_t i = file->resized.count; i-- > 0;) {
        const struct moment *moment = file->resized.items[i];
        uint64_t borders = moment->shortening ? 0 : borders_of(asking->replay, file, moment), first = first_border(asking->replay, file, moment);
        if (moment->index >= span->end) continue;
        if (moment->index <= span->first) break;
        for (uint64_t left = borders + 1; left-- > 0;) {
            question.moment = moment;
            question.length = left == borders ? moment->length : first + left * asking->replay->block;
            if (question.length < span->least) continue;
            if (is_length_kept(asking, &before, chosen)) return true;
            is_only &= !has_shortest && !before.moment;
            before = question;
        }
    }
    if ((has_shortest || is_alone) && is_length_kept(asking, &before, chosen)) return true;
    if (has_shortest) *chosen = (struct chosen){length_at(file, span->first), span->first, false, is_only, chosen->alone_until};
    else if (!is_alone && before.moment) *chosen = (struct chosen){before.length, before.moment->index, false, is_only, chosen->alone_until};
    return false;
}

/* Asks for the lengths that are there without the shortenings of the sequence. If the file has only one with them, that is asked for first: what is kept
   if all hits return is what the program left. */
static bool choose_alone(struct asking *asking, struct file *file, struct chosen *chosen) {
    struct span span = shortenings_of(file, true);
    size_t until = chosen->alone_until, with = chosen->moment;
    if (file->length_since > span.first) span.first = file->length_since;
    span.end = until + 1;
    if (until <= span.first || !has_pending_shortening(file)) return false; /* without one it is there without its bytes anyway */
    struct question only = {.about = A_LENGTH, .file = file, .moment = with ? moment_at(file, with) : NULL, .length = chosen->length};
    if (chosen->is_only && is_length_kept(asking, &only, chosen)) return true;
    if (choose_in(asking, file, &span, true, chosen)) return true;
    struct chosen first = {length_at(file, span.first), 0, true, false, until};
    if (first.length < span.least || span.first == with) return false;
    const struct moment *moment = span.first ? moment_at(file, span.first) : NULL;
    if (!is_kept(asking, &(struct question){.about = A_LENGTH_ALONE, .file = file, .moment = moment, .length = first.length})) return false;
    *chosen = first;
    return true;
}

static struct chosen choose_length(struct asking *asking, struct file *file) {
    struct span span = shortenings_of(file, false);
    struct chosen chosen = {length_at(file, span.end - 1), span.end - 1, false, false, alone_until(asking->replay, file)};
    size_t full = full_since(asking->replay, file);
    if (file->length_since > span.first) span.first = file->length_since;
    if (full > span.first) span.first = full;
    if (span.first > span.end - 1) span.first = span.end - 1;
    if (!choose_in(asking, file, &span, false, &chosen)) choose_alone(asking, file, &chosen);
    return chosen;
}

/* ---- a block */

/* Whether a block is only there before this shortening: what is written behind a shortening that isn't there is elsewhere. */
static size_t end_of_block(const struct replay *replay, const struct block *block, const struct chosen *chosen) {
    const struct file *file = block->file;
    size_t end = file->moments.count + 1;
    if (replay->profile.leaves[LEFT_LENGTHS] == ALONE) return end;
    for (size_t i = file->shortened.count; i-- > 0;) {
        const struct moment *moment = file->shortened.items[i];
        if (!is_there(moment, chosen->is_alone) && block->index * replay->block >= moment->length) end = moment->index;
    }
    return end;
}

/* Whether a block's version differs from the one before it where the file is seen: below its length, and below later shortenings. */
static bool is_seen(const struct replay *replay, const struct block *block, const struct moment *moment, uint64_t end) {
    uint64_t start = block->index * replay->block, from = moment->shortening ? moment->length : moment->begin;
    uint64_t to = moment->shortening ? start + replay->block : moment->end;
    if (end > start + replay->block) end = start + replay->block;
    return from < end && to > start && (to < end ? to : end) > (from > start ? from : start);
}

/* Where bytes end that a block's version may have: at the shortest of the later shortenings that are there. `left` of all shortenings aren't later. */
struct end {
    uint64_t at;
    size_t left;
};

static void go_back(struct end *end, const struct file *file, size_t moment, bool lasting) {
    for (; end->left > 0; end->left--) {
        const struct moment *later = file->shortened.items[end->left - 1];
        if (later->index <= moment) return;
        if (is_there(later, lasting) && later->length < end->at) end->at = later->length;
    }
}

/* The moment since which a block has its version: if the profile says so, the last block of a length has its bytes, or of one that a write made. */
static size_t block_since(const struct replay *replay, const struct block *block, const struct chosen *chosen) {
    const struct file *file = block->file;
    size_t since = block->since > file->since ? block->since : file->since;
    const struct moment *moment = chosen->moment ? moment_at(file, chosen->moment) : NULL;
    uint64_t start = block->index * replay->block;
    bool is_grown = moment && !moment->shortening && moment->begin < start + replay->block && moment->end > start;
    bool is_end = chosen->length > start && chosen->length <= start + replay->block;
    int zeros = replay->profile.leaves[LEFT_ZEROS];
    bool is_by_write = moment && moment->kind == WRITTEN && chosen->moment > chosen->alone_until;
    bool has_bytes = is_end && is_grown && (zeros == BEFORE || (zeros == BY_WRITES && is_by_write));
    return has_bytes && chosen->moment > since ? chosen->moment : since;
}

static void choose_block(struct asking *asking, struct block *block, const struct chosen *chosen) {
    const struct replay *replay = asking->replay;
    const struct file *file = block->file;
    size_t end = end_of_block(replay, block, chosen), oldest = oldest_version(block, block_since(replay, block, chosen));
    size_t place = oldest_version(block, end - 1);
    if (oldest > place) oldest = place;
    for (struct end cut_off = {UINT64_MAX, file->shortened.count};; place--) {
        const struct moment *moment = place ? block->versions.items[place - 1] : NULL;
        size_t index = moment ? moment->index : 0;
        struct question question = {.about = A_BLOCK, .block = block, .moment = moment};
        go_back(&cut_off, file, index, chosen->is_alone);
        uint64_t seen = cut_off.at < chosen->length ? cut_off.at : chosen->length;
        block->chosen = index;
        block->is_uncleared = false;
        bool is_new = place > oldest && is_seen(replay, block, moment, seen) && !(moment->shortening && is_there(moment, chosen->is_alone));
        if (is_new && is_kept(asking, &question)) return;
        bool has_more = replay->profile.leaves[LEFT_CLEARED] == APART && cut_off.at < chosen->length && cut_off.at < length_at(file, index)
            && cut_off.at % replay->block && cut_off.at / replay->block == block->index;
        question.about = A_BLOCK_UNCLEARED;
        block->is_uncleared = has_more && is_kept(asking, &question);
        if (block->is_uncleared || place == oldest) return;
    }
}

/* ---- all of a file */

static void choose_shortenings(struct asking *asking, const struct file *file) {
    for (size_t i = file->shortened.count; i-- > 0;) {
        struct change *change = ((struct moment *)file->shortened.items[i])->shortening;
        if (!is_asked_alone(asking, change, &change->parts[0])) continue;
        change->parts[0].is_there = is_kept(asking, &(struct question){.about = ALONE_IN_SEQUENCE, .change = change, .part = &change->parts[0]});
    }
}

void choose_bytes(struct asking *asking, struct file *file) {
    choose_shortenings(asking, file);
    struct chosen chosen = choose_length(asking, file);
    file->length_now = chosen.length;
    file->is_alone = chosen.is_alone;
    file->is_last = shortenings_of(file, false).end > file->moments.count;
    for (size_t i = 0; i < file->blocks.count; i++) {
        struct block *block = file->blocks.items[i];
        if (block->index * asking->replay->block < chosen.length) choose_block(asking, block, &chosen);
    }
}
