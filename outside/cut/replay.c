#define _GNU_SOURCE
#include "replay.h"

#include "lasting.h"

#include <errno.h>
#include <fcntl.h>
#include <stdio.h>
#include <stdlib.h>
#include <sys/mman.h>
#include <sys/stat.h>
#include <unistd.h>

void *made(size_t size) {
    void *memory = calloc(1, size);
    must(memory, "memory");
    return memory;
}

void add_to(struct list *list, void *item) {
    if (list->count == list->room) {
        list->room = list->room ? 2 * list->room : 4;
        list->items = realloc(list->items, list->room * sizeof *list->items);
        must(list->items, "memory");
    }
    list->items[list->count++] = item;
}

/* ---- files, names and blocks */

struct file *file_of(struct replay *replay, const struct key *key) {
    struct file **first = &replay->files[(key->number * 31 + key->nanoseconds) % HASHES];
    for (struct file *file = *first; file; file = file->next_of_hash)
        if (same_key(&file->key, key)) return file;
    struct file *file = made(sizeof *file);
    file->key = file->first_key = *key;
    file->next_of_hash = *first;
    return *first = file;
}

static struct name *name_of(struct replay *replay, struct file *folder, const char *text) {
    uint64_t place = folder->key.number;
    for (const char *byte = text; *byte; byte++) place = place * 31 + (unsigned char)*byte;
    struct name **first = &replay->names[place % HASHES];
    for (struct name *name = *first; name; name = name->next_of_hash)
        if (name->folder == folder && !strcmp(name->text, text)) return name;
    struct name *name = made(sizeof *name);
    *name = (struct name){.folder = folder, .text = strdup(text), .next_in_folder = folder->names, .next_of_hash = *first};
    folder->names = name;
    return *first = name;
}

struct block *block_of(struct replay *replay, struct file *file, uint64_t index, bool makes) {
    struct block **first = &replay->blocks[(file->key.number * 131071 + index) % HASHES];
    for (struct block *block = *first; block; block = block->next_of_hash)
        if (block->file == file && block->index == index) return block;
    if (!makes) return NULL;
    struct block *block = made(sizeof *block);
    *block = (struct block){.file = file, .index = index, .next_of_hash = *first};
    add_to(&file->blocks, block);
    return *first = block;
}

static struct home *home_of(struct file *file, struct file *folder, uint64_t noted) {
    for (size_t i = 0; i < file->homes.count; i++)
        if (((struct home *)file->homes.items[i])->folder == folder) return file->homes.items[i];
    struct home *home = made(sizeof *home);
    *home = (struct home){.folder = folder, .noted = noted};
    add_to(&file->homes, home);
    if (S_ISDIR(file->key.mode)) add_to(&folder->below, file);
    return home;
}

/* From now on the name leads to that file. */
static void lead(struct name *name, struct file *file, uint64_t noted) {
    if (name->last) home_of(name->last, name->folder, noted)->names--;
    if (file) home_of(file, name->folder, noted)->names++;
    name->last = file;
}

static void touch(struct replay *replay, struct file *file) {
    if (!file->is_touched) add_to(&replay->touched, file);
    if (!file->is_unsynced) add_to(&replay->unsynced, file);
    file->is_touched = file->is_unsynced = true;
}

static void set_known(struct file *file, struct file *folder, const char *name) {
    file->known_folder = folder;
    file->known_name = name;
}

/* ---- what is in a book */

static void read_folder(struct replay *replay, struct file *folder, const char *book, bool is_base);

/* Reads one name of a folder's note. */
static void read_name(struct replay *replay, FILE *note, const char *line, struct file *folder, const char *book, bool is_base) {
    struct key key;
    const char *text = read_noted(line, &key);
    if (!text) refuse(line, "this note is damaged");
    struct file *file = file_of(replay, &key);
    struct name *name = name_of(replay, folder, text);
    file->key = key;
    if (is_base) {
        file->in_base = true;
        name->first = file;
        lead(name, file, 0);
    } else {
        name->found = file;
    }
    if (!file->known_folder) set_known(file, folder, name->text);
    if (S_ISDIR(key.mode)) read_folder(replay, file, book, is_base);
    if (!S_ISLNK(key.mode)) return;
    char *target = NULL;
    size_t size = 0;
    must(getdelim(&target, &size, 0, note) > 0, line);
    file->target = target;
}

static void read_folder(struct replay *replay, struct file *folder, const char *book, bool is_base) {
    char *line = NULL;
    size_t size = 0;
    int names = open_note(book, 'd', &folder->key, O_RDONLY);
    if (names < 0) return;
    FILE *note = fdopen(names, "r");
    must(note, book);
    while (getdelim(&line, &size, 0, note) > 0) read_name(replay, note, line, folder, book, is_base);
    free(line);
    fclose(note);
}

void read_found(struct replay *replay) { read_folder(replay, replay->root, replay->live, false); }

void names_as_found(struct replay *replay) {
    for (size_t i = 0; i < HASHES; i++)
        for (struct name *name = replay->names[i]; name; name = name->next_of_hash) name->now = name->found;
}

void names_of_parts(struct replay *replay) {
    for (size_t i = 0; i < HASHES; i++)
        for (struct name *name = replay->names[i]; name; name = name->next_of_hash) name->now = name->first;
    for (size_t i = 0; i < replay->sequence.count; i++) {
        const struct change *change = replay->sequence.items[i];
        for (unsigned part = 0; part < change->count; part++)
            if (change->parts[part].name && change->parts[part].is_there) change->parts[part].name->now = change->parts[part].file;
    }
}

/* ---- paths, as they are shown */

char *path_of(const struct file *folder, const char *name) {
    char path[LONG_PATH], *begin = path + sizeof path - 1;
    *begin = 0;
    for (int depth = 0; name && depth < 100; depth++) {
        size_t length = strlen(name);
        if (length >= (size_t)(begin - path)) refuse(name, "the path is too long");
        if (depth) *--begin = '/';
        begin -= length;
        memcpy(begin, name, length);
        name = folder ? folder->known_name : NULL;
        folder = folder ? folder->known_folder : NULL;
    }
    return strdup(begin);
}

char *shown_text(const char *text) {
    char *shown = made(4 * strlen(text) + 1);
    *escaped(shown, text) = 0;
    return shown;
}

static char *shown_path(const struct file *folder, const char *name) {
    char *path = path_of(folder, name), *shown = shown_text(path);
    free(path);
    return shown;
}

const char *shown_file(struct file *file) {
    if (!file->shown) file->shown = shown_path(file->known_folder, file->known_name ? file->known_name : "(no name)");
    return file->shown;
}

/* ---- the notes, one by one */

/* A note, which may begin at any byte of the file, and the texts and bytes that follow it. */
struct record {
    struct note note;
    uint64_t at;
    const char *name, *other_name, *bytes;
};

static struct record record_at(const struct replay *replay, uint64_t at) {
    struct record record = {.at = at};
    uint64_t left = replay->noted - at;
    if (left < sizeof record.note) refuse(replay->run, "the notes of this run are damaged");
    memcpy(&record.note, replay->notes + at, sizeof record.note);
    if (record.note.size < sizeof record.note || record.note.size > left) refuse(replay->run, "the notes of this run are damaged");
    record.name = replay->notes + at + sizeof record.note;
    record.other_name = record.name + record.note.name;
    record.bytes = record.other_name + record.note.other_name;
    return record;
}

static struct change *add_change(struct replay *replay, enum kind kind, uint64_t noted, struct file *file) {
    struct change *change = made(sizeof *change);
    *change = (struct change){.kind = kind, .noted = noted, .index = replay->sequence.count, .file = file};
    add_to(&replay->sequence, change);
    return change;
}

/* ---- changes of names */

/* Adds a part. What takes the place of another may take it away alone, or bring back what was there before, if it may come to last at all by another
   file's sync. */
static void add_part(struct replay *replay, struct change *change, struct name *name, struct file *file) {
    bool may = change != change->file->creation && may_last_later(replay, change, name->folder);
    bool may_be_undone = may && name->last && may_be_gone(replay, name->last, file);
    if (may_be_undone && name->part) name->part->is_unsure = name->part->is_again;
    if (may_be_undone && file) change->parts[change->count++] = (struct part){.name = name, .is_gone = true, .may = true};
    change->parts[change->count] = (struct part){.name = name, .file = file, .may = may, .is_again = name->first || name->part};
    name->part = &change->parts[change->count++];
    add_to(&name->folder->entries, change);
    lead(name, file, change->noted);
}

static void add_move(struct replay *replay, const struct record *record, struct change *change, struct file *folder) {
    struct file *other_folder = file_of(replay, &record->note.other_folder);
    struct name *from = name_of(replay, folder, record->name), *to = name_of(replay, other_folder, record->other_name);
    change->other = to->last;
    if (change->kind == EXCHANGED) {
        change->other = file_of(replay, &record->note.other_file);
        set_known(change->other, folder, from->text);
    } else if (change->other) {
        add_to(&change->file->replacings, change);
    }
    set_known(change->file, other_folder, to->text);
    if (change->kind == EXCHANGED) add_part(replay, change, from, change->other);
    add_part(replay, change, to, change->file);
    if (change->kind == RENAMED) add_part(replay, change, from, NULL);
}

static char *shown_names(const struct replay *replay, const struct record *record) {
    char *first = shown_path(file_of((struct replay *)replay, &record->note.folder), record->name), *both = NULL;
    if (record->note.kind != RENAMED && record->note.kind != EXCHANGED) return first;
    char *second = shown_path(file_of((struct replay *)replay, &record->note.other_folder), record->other_name);
    must(asprintf(&both, "%s -> %s", first, second) > 0, "memory");
    free(first);
    free(second);
    return both;
}

/* The name that a synced file gets may come to last with its length, and without its bytes. */
static void note_length(const struct replay *replay, struct file *file) {
    if (file->synced_in == replay->stretch) file->named_at = file->moments.count;
}

static void add_names(struct replay *replay, const struct record *record) {
    const struct note *note = &record->note;
    struct file *file = file_of(replay, &note->file), *folder = file_of(replay, &note->folder);
    struct change *change = add_change(replay, note->kind, record->at, file);
    file->key = note->file;
    change->names = shown_names(replay, record);
    if (note->kind == CREATED && note->other_name) file->target = record->other_name;
    if (note->kind == CREATED) file->creation = change, file->first_key = note->file;
    if (note->kind == CREATED || (note->kind == LINKED && !file->known_name)) set_known(file, folder, record->name);
    if (note->kind == RENAMED || note->kind == EXCHANGED) add_move(replay, record, change, folder);
    else add_part(replay, change, name_of(replay, folder, record->name), note->kind == UNLINKED ? NULL : file);
    if (note->kind != CREATED && note->kind != UNLINKED) note_length(replay, file);
    if (note->kind == EXCHANGED) note_length(replay, change->other);
    add_to(&file->of_names, change);
    if (change->other && change->other != file) add_to(&change->other->of_names, change);
}

static void add_attributes(struct replay *replay, const struct record *record) {
    struct file *file = file_of(replay, &record->note.file);
    struct change *change = add_change(replay, ATTRIBUTES, record->at, file);
    size_t known = file->all_attributes.count;
    change->before = known ? ((struct change *)file->all_attributes.items[known - 1])->attributes : file->first_key;
    change->attributes = file->key = record->note.file;
    change->count = 1;
    add_to(&file->attributes, change);
    add_to(&file->all_attributes, change);
    touch(replay, file);
}

/* ---- changes of bytes */

void measure(const struct replay *replay, struct file *file) {
    struct stat told;
    int base = file->in_base && !file->is_measured ? open_note(replay->base, 'c', &file->key, O_RDONLY) : -1;
    file->is_measured = true;
    if (base < 0) return;
    must(!fstat(base, &told), replay->base);
    close(base);
    file->most_length = file->first_length = (uint64_t)told.st_size;
}

/* The blocks that a change of bytes touches. A new length that no file had makes none of zeros. */
static void touch_blocks(struct replay *replay, struct file *file, struct moment *moment) {
    uint64_t end = moment->end;
    if (moment->kind == RESIZED && end > file->most_length) end = file->most_length;
    if (moment->shortening) end = moment->length % replay->block ? moment->length + 1 : moment->length;
    uint64_t begin = moment->shortening ? moment->length : moment->begin;
    for (uint64_t at = begin / replay->block; begin < end && at * replay->block < end; at++) {
        struct block *block = block_of(replay, file, at, true);
        add_to(&block->versions, moment);
        if (moment->kind == WRITTEN && moment->length > moment->before && (at + 1) * replay->block > moment->before) block->grown = moment->index;
    }
    if (file->lost) heal_blocks(replay, file, moment);
}

static void add_moment(struct replay *replay, struct file *file, struct moment from) {
    struct moment *moment = made(sizeof *moment);
    touch(replay, file);
    measure(replay, file);
    *moment = from;
    moment->before = length_at(file, file->moments.count);
    moment->index = file->moments.count + 1;
    if (moment->kind == RESIZED) moment->begin = moment->before, moment->end = moment->length;
    else if (moment->kind == WRITTEN && moment->end > moment->before) moment->length = moment->end;
    else moment->length = moment->before;
    if (moment->end > moment->length) moment->end = moment->length;
    if (moment->length < moment->before) {
        moment->shortening = add_change(replay, RESIZED, from.noted, file);
        moment->shortening->moment = moment;
        moment->shortening->count = 1;
        add_to(&file->shortened, moment);
        add_to(&file->shortenings, moment->shortening);
    }
    moment->position = replay->sequence.count;
    add_to(&file->moments, moment);
    if (moment->length != moment->before) add_to(&file->resized, moment);
    touch_blocks(replay, file, moment);
    if (moment->length > file->most_length) file->most_length = moment->length;
    if (moment->is_later) add_to(&file->waiting, moment);
}

static void add_contents(struct replay *replay, const struct record *record) {
    const struct note *note = &record->note;
    struct moment moment = {.kind = note->kind, .noted = record->at, .begin = note->at, .end = note->at + note->length,
                            .bytes = (uint64_t)(record->bytes - replay->notes), .is_later = note->flags & LATER, .length = note->at};
    if (note->kind != RESIZED && !note->length) return;
    add_moment(replay, file_of(replay, &note->file), moment);
}

/* A copy of bytes that were noted without one, for all that wait for it. */
static void add_copy(struct replay *replay, const struct record *record) {
    struct file *file = file_of(replay, &record->note.file);
    uint64_t from = record->note.at, to = from + record->note.length;
    size_t left = 0;
    for (size_t i = 0; i < file->waiting.count; i++) {
        struct moment *moment = file->waiting.items[i];
        moment->is_later = moment->begin < from || moment->end > to;
        if (moment->is_later) file->waiting.items[left++] = moment;
        else moment->bytes = (uint64_t)(record->bytes - replay->notes) + (moment->begin - from);
    }
    file->waiting.count = left;
}

static void read_record(struct replay *replay, const struct record *record) {
    switch ((enum kind)record->note.kind) {
    case CREATED: case LINKED: case UNLINKED: case RENAMED: case EXCHANGED: return add_names(replay, record);
    case ATTRIBUTES: return add_attributes(replay, record);
    case WRITTEN: case STORED: case CLEARED: case RESIZED: return add_contents(replay, record);
    case COPIED: return add_copy(replay, record);
    case SYNCED: return sync_changes(replay, &record->note, record->at);
    case SYNC_FAILED: return lose_blocks(replay, file_of(replay, &record->note.file));
    default: refuse(replay->run, "the notes of this run are damaged");
    }
}

static void map_notes(struct replay *replay) {
    char path[LONG_PATH];
    struct stat told;
    joined(path, replay->run, "changes");
    int file = open(path, O_RDONLY | O_CLOEXEC);
    must(file >= 0 && !fstat(file, &told), path);
    if ((uint64_t)told.st_size < replay->noted) refuse(path, "the notes of this run are damaged");
    if (replay->noted) replay->notes = mmap(NULL, replay->noted, PROT_READ, MAP_PRIVATE, file, 0);
    must(replay->notes != MAP_FAILED, path);
    close(file);
}

void read_run(struct replay *replay, const char *run, const struct state *state, uint64_t noted) {
    *replay = (struct replay){.noted = noted, .block = state->block, .stretch = 1};
    read_profile(&replay->profile, state->profile[0] ? state->profile : "linux");
    snprintf(replay->run, sizeof replay->run, "%s", run);
    joined(replay->base, run, "kept");
    joined(replay->live, run, "live");
    replay->root = file_of(replay, &state->root.key);
    replay->root->in_base = true;
    read_folder(replay, replay->root, replay->base, true);
    map_notes(replay);
    for (uint64_t at = 0; at < noted;) {
        struct record record = record_at(replay, at);
        read_record(replay, &record);
        at += record.note.size;
    }
    find_pending(replay);
}
