#define _GNU_SOURCE
#include "asking.h"

#include <stdlib.h>
#include <sys/stat.h>
#include <unistd.h>

/* ---- counts */

static struct counter *counter_of(struct state *state) {
    struct counter *counter = counter_named(state, point_names[KEEP]);
    if (!counter) refuse(point_names[KEEP], "the run hit too many points");
    return counter;
}

void begin_asking(struct asking *asking, struct replay *replay, struct state *state, enum keeping keeping) {
    asking->replay = replay;
    asking->keeping = keeping;
    asking->number = state->cut.number;
    asking->keep = *counter_of(state);
}

void keep_counts(const struct asking *asking, struct state *state) {
    *counter_of(state) = asking->keep;
    state->number = asking->number;
}

/* ---- one hit */

static void trace_hit(const struct asking *asking, const struct term *term, const struct question *question) {
    static char answer[4 * MOST_BYTES + 64];
    *written_answer(answer, term) = 0;
    fprintf(asking->trace, "%llu\t%s\t%llu\t%s\t%s\t-\t-\t-                   \n", (unsigned long long)asking->number, asking->keep.name,
            (unsigned long long)asking->keep.hits, answer, in_words(asking->replay, question));
}

/* Makes a hit. A pause ends this program, and nothing is laid out. */
static bool returns(struct asking *asking, const struct question *question) {
    const struct term *term = acting_term(chain_named(&asking->scenario, asking->keep.name), asking->keep.used);
    asking->number++;
    asking->keep.hits++;
    trace_hit(asking, term, question);
    if (term && term->task == PAUSE) {
        fclose(asking->trace);
        exit(PAUSED);
    }
    return term && term->task == RETURN;
}

bool is_kept(struct asking *asking, const struct question *question) {
    bool is_of_sequence = question->change;
    switch (asking->keeping) {
    case KEEPS_NOTHING: return false;
    case KEEPS_ALL: return true;
    case KEEPS_NAMES: return is_of_sequence;
    case KEEPS_CONTENTS: return !is_of_sequence;
    default: return returns(asking, question);
    }
}

/* ---- the sequence */

/* How many changes of the sequence are there. */
static size_t choose_first(struct asking *asking) {
    const struct list *pending = &asking->replay->pending;
    for (size_t i = pending->count; i-- > 0;) {
        const struct change *change = pending->items[i];
        if (is_kept(asking, &(struct question){.about = WITH_ALL_BEFORE, .change = change})) return change->index + 1;
    }
    return 0;
}

bool is_asked_alone(const struct asking *asking, const struct change *change, const struct part *part) {
    unsigned absent = 0;
    for (unsigned each = 0; each < change->count; each++) absent += !change->parts[each].is_gone && !change->parts[each].lasts;
    return !part->is_there && part->may && (change != asking->next || absent > 1 || part->is_gone);
}

static bool is_alone(struct asking *asking, const struct change *change, const struct part *part) {
    return is_kept(asking, &(struct question){.about = ALONE_IN_SEQUENCE, .change = change, .part = part});
}

/* Chooses whether a part of a name is there out of order, where no later one is; or whether one that lasts is undone, and then whether those before it are. */
static void choose_part(struct asking *asking, struct change *change, struct part *part) {
    struct name *name = part->name;
    bool is_unsure = (part->is_unsure || name->is_undone) && change->index >= asking->replay->all_synced;
    if (name->is_undone) part->is_there = !part->is_gone;
    if (is_asked_alone(asking, change, part)) {
        part->is_there = is_alone(asking, change, part);
    } else if (part->is_there && is_unsure) {
        name->is_undone = is_kept(asking, &(struct question){.about = UNDONE_IN_SEQUENCE, .change = change, .part = part});
        part->is_there = !name->is_undone;
    }
    name->is_settled = part->is_there;
}

static void choose_names(struct asking *asking) {
    struct replay *replay = asking->replay;
    bool is_ordered = replay->profile.leaves[LEFT_NAMES] == IN_ORDER;
    size_t count = is_ordered ? choose_first(asking) : 0;
    asking->next = NULL;
    for (size_t i = replay->pending.count; i-- > 0 && is_ordered && ((struct change *)replay->pending.items[i])->index >= count;)
        asking->next = replay->pending.items[i];
    for (size_t i = 0; i < HASHES; i++)
        for (struct name *name = replay->names[i]; name; name = name->next_of_hash) name->is_settled = name->is_undone = false;
    for (size_t i = 0; i < replay->sequence.count; i++) {
        struct change *change = replay->sequence.items[i];
        for (unsigned part = 0; part < change->count; part++)
            change->parts[part].is_there = change->parts[part].lasts || (i < count && !change->parts[part].is_gone);
    }
    for (size_t i = replay->sequence.count; i-- > 0;) {
        struct change *change = replay->sequence.items[i];
        for (unsigned part = change->count; part-- > 0;)
            if (change->parts[part].name && !change->parts[part].name->is_settled) choose_part(asking, change, &change->parts[part]);
    }
    names_of_parts(replay);
}

/* ---- the files that have names then */

static void reach(struct file *folder) {
    for (struct name *name = folder->names; name; name = name->next_in_folder) {
        if (!name->now || name->now->is_reached) continue;
        name->now->is_reached = true;
        reach(name->now);
    }
}

static void choose_attributes(struct asking *asking, struct file *file) {
    const struct list *list = &file->all_attributes;
    size_t i = list->count;
    for (; i > 0; i--) {
        struct change *change = list->items[i - 1];
        struct part *part = &change->parts[0];
        if (is_asked_alone(asking, change, part)) part->is_there = is_alone(asking, change, part);
        if (part->is_there) break;
    }
    file->attributes_now = i == list->count ? file->key : i ? ((struct change *)list->items[i - 1])->attributes : ((struct change *)list->items[0])->before;
}

static void choose_files(struct asking *asking) {
    const struct list *touched = &asking->replay->touched;
    for (size_t i = 0; i < HASHES; i++)
        for (struct file *file = asking->replay->files[i]; file; file = file->next_of_hash) file->is_reached = false;
    asking->replay->root->is_reached = true;
    reach(asking->replay->root);
    for (size_t i = 0; i < touched->count; i++) {
        struct file *file = touched->items[i];
        if (!file->is_reached) continue;
        choose_attributes(asking, file);
        choose_bytes(asking, file);
    }
}

/* ---- all of it */

static void read_asking(struct asking *asking, const char *text) {
    struct scenario *scenario = &asking->scenario;
    char *copy = strdup(strcmp(text, "none") ? text : ""), what[64];
    scenario->by_file = strchr(text, '@');
    must(copy, "memory");
    if (read_scenario(scenario, copy)) return;
    snprintf(what, sizeof what, "%s entry %u term %u", scenario->bad.kind, scenario->bad.entry, scenario->bad.term);
    refuse("scenario", what);
}

/* The hits of an earlier cut of this run are removed from the trace. */
static void open_trace(struct asking *asking, const struct state *state) {
    char path[LONG_PATH];
    joined(path, asking->replay->run, "trace");
    must(!truncate(path, (off_t)state->cut.trace), path);
    asking->trace = fopen(path, "ae");
    must(asking->trace, path);
}

void choose(struct asking *asking, const struct state *state, const char *text) {
    bool asks = asking->keeping == KEEPS_ASKED;
    if (asks) read_asking(asking, text);
    if (asks) open_trace(asking, state);
    number_pending(asking->replay);
    choose_names(asking);
    choose_files(asking);
    if (asks) must(!fclose(asking->trace), "trace");
}
