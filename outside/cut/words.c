#define _GNU_SOURCE
#include "words.h"

#include <stdio.h>
#include <stdlib.h>
#include <sys/stat.h>

/* The text of one question: two paths, each byte of which may be shown as four. */
static char text[12 * PATH_MAX], *end;

uint64_t first_border(const struct replay *replay, const struct file *file, const struct moment *moment) {
    uint64_t from = moment->begin > moment->before ? moment->begin : moment->before;
    uint64_t first = (from / replay->block + 1) * replay->block;
    return file->floor > first ? (file->floor + replay->block - 1) / replay->block * replay->block : first;
}

uint64_t borders_of(const struct replay *replay, const struct file *file, const struct moment *moment) {
    uint64_t first = first_border(replay, file, moment);
    return moment->kind == RESIZED || first >= moment->length ? 0 : (moment->length - 1 - first) / replay->block + 1;
}

/* Whether the first of a moment's lengths isn't pending, as the file is so long at least. */
static bool has_floor(const struct file *file, const struct moment *moment) {
    return file->floor > moment->before && file->floor <= moment->length && moment->index == file->length_since + 1;
}

size_t oldest_version(const struct block *block, size_t since) {
    size_t from = 0, to = block->versions.count;
    while (from < to) {
        size_t middle = (from + to) / 2;
        if (((const struct moment *)block->versions.items[middle])->index <= since) from = middle + 1;
        else to = middle;
    }
    return from;
}

static size_t since_of(const struct block *block) { return block->since > block->file->since ? block->since : block->file->since; }

void number_pending(struct replay *replay) {
    size_t number = 1;
    for (size_t i = 0; i < replay->pending.count; i++) ((struct change *)replay->pending.items[i])->number = number++;
    for (size_t i = 0; i < replay->touched.count; i++) {
        const struct file *file = replay->touched.items[i];
        for (size_t each = 0; each < file->resized.count; each++) {
            struct moment *moment = file->resized.items[each];
            if (moment->shortening || moment->index <= file->length_since) continue;
            moment->number = number;
            number += borders_of(replay, file, moment) + !has_floor(file, moment);
        }
        for (size_t each = 0; each < file->blocks.count; each++) {
            struct block *block = file->blocks.items[each];
            block->number = number;
            number += block->versions.count - oldest_version(block, since_of(block));
        }
    }
}

/* ---- texts */

static void put(const char *more) { end = stpcpy(end, more); }

static void put_number(uint64_t number, unsigned base) {
    char digits[24];
    size_t count = 0;
    do digits[count++] = (char)('0' + number % base); while (number /= base);
    while (count) *end++ = digits[--count];
}

static const char *kind_of(const struct change *change) {
    static const char *const kinds[KINDS] = {
        [CREATED] = "create", [LINKED] = "link", [UNLINKED] = "unlink", [RENAMED] = "rename", [EXCHANGED] = "exchange",
    };
    if (change->kind == CREATED && S_ISDIR(change->file->key.mode)) return "mkdir";
    if (change->kind == CREATED && S_ISLNK(change->file->key.mode)) return "symlink";
    if (change->kind == UNLINKED && S_ISDIR(change->file->key.mode)) return "rmdir";
    return kinds[change->kind];
}

/* What a hit says is undone is none of the changes that are pending. */
static void put_change(const struct change *change, enum about about) {
    const struct key *after = &change->attributes;
    bool is_mode = after->mode != change->before.mode;
    put_number(about == UNDONE_IN_SEQUENCE ? 0 : change->number, 10);
    put(" ");
    put(change->names ? kind_of(change) : change->kind == RESIZED ? "truncate" : is_mode ? "chmod" : "chown");
    put(" ");
    put(change->names ? change->names : shown_file(change->file));
    if (change->names) return;
    put(change->kind == RESIZED ? " to " : " ");
    if (change->kind == RESIZED) return put_number(change->moment->length, 10);
    if (is_mode) return put_number(after->mode & 07777, 8);
    put_number(after->owner, 10);
    put(":");
    put_number(after->group, 10);
}

static void put_part(const struct question *question) {
    const struct part *part = question->part;
    bool is_undone = question->about == UNDONE_IN_SEQUENCE, is_there = part->file && !part->is_gone;
    if (question->change->count == 1 || !part->name) return put(is_undone ? ", undone" : ", alone");
    char *name = shown_text(part->name->text);
    put(is_there || is_undone ? ", of it " : ", of it only that ");
    put(name);
    put(is_undone ? " undone" : is_there ? " alone" : " is gone");
    free(name);
}

static const char *kind_of_moment(const struct moment *moment) {
    return moment->kind == WRITTEN ? "write" : moment->kind == STORED ? "store" : moment->kind == CLEARED ? "clear" : "truncate";
}

/* ---- numbers and texts */

static size_t number_of_length(const struct replay *replay, const struct question *question) {
    const struct moment *moment = question->moment;
    uint64_t first = moment ? first_border(replay, question->file, moment) : 0;
    if (!moment || moment->shortening) return moment ? moment->shortening->number : 0;
    uint64_t place = question->length == moment->length ? borders_of(replay, question->file, moment) : (question->length - first) / replay->block;
    return moment->number + place - has_floor(question->file, moment);
}

static size_t number_of_version(const struct block *block, const struct moment *moment) {
    size_t oldest = oldest_version(block, since_of(block)), place = moment ? oldest_version(block, moment->index) : 0;
    return place > oldest ? block->number + place - oldest - 1 : 0;
}

static void put_length(const struct replay *replay, const struct question *question) {
    put_number(number_of_length(replay, question), 10);
    put(" length of ");
    put(shown_file(question->file));
    put(" ");
    put_number(question->length, 10);
    if (question->about == A_LENGTH_ALONE) put(", alone");
}

static void put_block(const struct question *question) {
    const struct moment *moment = question->moment;
    put_number(number_of_version(question->block, moment), 10);
    put(" block ");
    put_number(question->block->index, 10);
    put(" of ");
    put(shown_file(question->block->file));
    put(moment ? " as after " : " as before write ");
    if (moment) put(kind_of_moment(moment)), put(" ");
    put_number(moment ? moment->index : 1, 10);
    if (question->about == A_BLOCK_UNCLEARED) put(", not cut off");
}

const char *in_words(const struct replay *replay, const struct question *question) {
    const struct change *change = question->change;
    end = text;
    if (change) put_change(change, question->about);
    else if (question->block) put_block(question);
    else put_length(replay, question);
    if (question->about == WITH_ALL_BEFORE && change->number > 1) put(", and all before it");
    if (question->part) put_part(question);
    *end = 0;
    return text;
}

static void print_question(const struct replay *replay, const struct question *question) {
    in_words(replay, question);
    *strchr(text, ' ') = '\t';
    puts(text);
}

static void print_file(const struct replay *replay, struct file *file) {
    for (size_t each = 0; each < file->resized.count; each++) {
        const struct moment *moment = file->resized.items[each];
        uint64_t borders = borders_of(replay, file, moment), first = first_border(replay, file, moment);
        if (moment->shortening || moment->index <= file->length_since) continue;
        for (uint64_t border = has_floor(file, moment); border <= borders; border++) {
            uint64_t length = border < borders ? first + border * replay->block : moment->length;
            print_question(replay, &(struct question){.about = A_LENGTH, .file = file, .moment = moment, .length = length});
        }
    }
    for (size_t each = 0; each < file->blocks.count; each++) {
        const struct block *block = file->blocks.items[each];
        for (size_t version = oldest_version(block, since_of(block)); version < block->versions.count; version++)
            print_question(replay, &(struct question){.about = A_BLOCK, .block = block, .moment = block->versions.items[version]});
    }
}

void print_pending(const struct replay *replay) {
    enum about about = replay->profile.leaves[LEFT_NAMES] == ANY_NAMES ? A_CHANGE : WITH_ALL_BEFORE;
    for (size_t i = 0; i < replay->pending.count; i++) {
        const struct change *change = replay->pending.items[i];
        print_question(replay, &(struct question){.about = about, .change = change});
    }
    for (size_t i = 0; i < replay->touched.count; i++) print_file(replay, replay->touched.items[i]);
}
