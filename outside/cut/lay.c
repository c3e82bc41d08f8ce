#define _GNU_SOURCE
#include "lay.h"

#include "copy.h"

#include <errno.h>
#include <fcntl.h>
#include <stdio.h>
#include <stdlib.h>
#include <sys/stat.h>
#include <unistd.h>

/* ---- contents */

bool open_noted(const char *book, const struct file *file, int *in) {
    *in = open_note(book, 'c', &file->key, O_RDONLY);
    return *in >= 0;
}

static void write_bytes(int out, const char *bytes, uint64_t at, uint64_t length, const char *path) {
    while (length > 0) {
        ssize_t written = pwrite(out, bytes, length, (off_t)at);
        must(written > 0, path);
        bytes += written, at += (uint64_t)written, length -= (uint64_t)written;
    }
}

/* Writes zeros, as a hole if the file system has holes. */
static void write_zeros(int out, uint64_t at, uint64_t length, const char *path) {
    static const char zeros[65536];
    if (!length || !fallocate(out, FALLOC_FL_PUNCH_HOLE | FALLOC_FL_KEEP_SIZE, (off_t)at, (off_t)length)) return;
    for (uint64_t part; length > 0; at += part, length -= part) {
        part = length < sizeof zeros ? length : sizeof zeros;
        write_bytes(out, zeros, at, part, path);
    }
}

/* A part of a file that is laid out: its bytes go to `out`, as far as they are in the block. */
struct piece {
    const struct replay *replay;
    const struct file *file;
    int base, out; /* the file as it was when the run began, or -1; `out` has of it what is before `kept` */
    uint64_t start, end, kept;
    const char *path;
};

static uint64_t smaller(uint64_t one, uint64_t other) { return one < other ? one : other; }
static uint64_t larger(uint64_t one, uint64_t other) { return one > other ? one : other; }

/* Writes what a change did in the piece. Bytes that nobody copied are in the file as the cut found it. */
static void apply(const struct piece *piece, const struct moment *moment) {
    uint64_t from = larger(moment->begin, piece->start), to = smaller(moment->end, piece->end);
    int in;
    if (from >= to) return;
    if (moment->kind == RESIZED || moment->kind == CLEARED) return write_zeros(piece->out, from, to - from, piece->path);
    if (!moment->is_later) return write_bytes(piece->out, piece->replay->notes + moment->bytes + (from - moment->begin), from, to - from, piece->path);
    if (!open_noted(piece->replay->live, piece->file, &in)) return;
    copy_part(in, piece->out, from, to - from, piece->path);
    close(in);
}

/* Clears what is in the piece behind a length. */
static void cut_off(const struct piece *piece, uint64_t length) {
    uint64_t from = larger(length, piece->start);
    if (from < piece->end) write_zeros(piece->out, from, piece->end - from, piece->path);
}

/* Writes a block as of the moment that was chosen: the versions up to it, and between them the shortenings, which clear also what they don't touch. */
static void write_block(const struct piece *piece, const struct block *block) {
    const struct list *shortened = &piece->file->shortened;
    size_t next = 0;
    if (piece->base >= 0 && piece->kept < piece->end) copy_part(piece->base, piece->out, piece->start, piece->end - piece->start, piece->path);
    for (size_t i = 0; i <= block->versions.count; i++) {
        const struct moment *moment = i < block->versions.count ? block->versions.items[i] : NULL;
        size_t until = moment && moment->index < block->chosen ? moment->index : block->chosen;
        for (; next < shortened->count && ((struct moment *)shortened->items[next])->index <= until; next++)
            cut_off(piece, ((struct moment *)shortened->items[next])->length);
        if (!moment || moment->index > block->chosen) return;
        if (!moment->shortening) apply(piece, moment);
    }
}

/* Whether a shortening is there where the file's length is. */
static bool counts(const struct file *file, const struct moment *moment) {
    const struct part *part = &moment->shortening->parts[0];
    return file->is_alone ? part->lasts : part->is_there;
}

/* Writes each block as it was chosen, and zeros behind the later shortenings that are there. */
void write_contents(const struct replay *replay, const struct file *file, int out, const char *path) {
    struct piece piece = {.replay = replay, .file = file, .base = -1, .out = out, .path = path};
    piece.kept = file->moments.count ? file->length_now : UINT64_MAX;
    for (size_t i = 0; i < file->shortened.count; i++)
        if (counts(file, file->shortened.items[i])) piece.kept = smaller(piece.kept, ((struct moment *)file->shortened.items[i])->length);
    if (open_noted(replay->base, file, &piece.base)) copy_whole(piece.base, out, path, piece.kept);
    if (file->moments.count) must(!ftruncate(out, (off_t)file->length_now), path);
    for (size_t i = 0; i < file->blocks.count; i++) {
        const struct block *block = file->blocks.items[i];
        piece.start = block->index * replay->block;
        piece.end = smaller(piece.start + replay->block, file->length_now);
        if (piece.start >= file->length_now || (!block->chosen && !block->is_uncleared)) continue;
        write_block(&piece, block);
        for (size_t each = 0; each < file->shortened.count && !block->is_uncleared; each++) {
            const struct moment *moment = file->shortened.items[each];
            if (moment->index > block->chosen && counts(file, moment)) cut_off(&piece, moment->length);
        }
    }
    if (piece.base >= 0) close(piece.base);
}

/* ---- files and folders */

struct laying {
    struct replay *replay;
    bool as_they_are;
    const struct tree *tree;
    char path[LONG_PATH]; /* the path below the root of what is laid out now */
};

static const struct key *attributes_of(const struct file *file) { return file->all_attributes.count ? &file->attributes_now : &file->key; }

/* Gives a name its owner. This needs the rights of root, or an owner that the name has already; otherwise it belongs to who cuts. */
static void give_owner(const struct file *file, int folder, const char *name, const char *path) {
    int given = fchownat(folder, name, attributes_of(file)->owner, attributes_of(file)->group, AT_SYMLINK_NOFOLLOW);
    must(!given || errno == EPERM || errno == EINVAL, path);
}

static void lay_file(const struct laying *laying, struct file *file, int folder, const char *name) {
    const struct replay *replay = laying->replay;
    int in, out = openat(folder, name, O_RDWR | O_CREAT | O_EXCL | O_NOFOLLOW | O_CLOEXEC, 0600);
    must(out >= 0, laying->path);
    if (laying->as_they_are && (!file->is_touched || file->is_last) && open_noted(replay->live, file, &in)) {
        copy_whole(in, out, laying->path, UINT64_MAX);
        close(in);
    } else {
        write_contents(replay, file, out, laying->path);
    }
    give_owner(file, folder, name, laying->path);
    must(!fchmod(out, attributes_of(file)->mode & 07777) && !close(out), laying->path);
    file->laid = strdup(laying->path);
}

static void lay_folder(struct laying *laying, struct file *folder, int at);

static void lay_name(struct laying *laying, struct file *file, int folder, const char *name) {
    const char *path = laying->path;
    if (S_ISLNK(file->key.mode)) {
        must(!symlinkat(file->target, folder, name), path);
        give_owner(file, folder, name, path);
    } else if (!S_ISDIR(file->key.mode)) {
        if (file->laid) must(!linkat(laying->tree->folder, file->laid, folder, name, 0), path);
        else lay_file(laying, file, folder, name);
    } else if (!file->is_being_laid) { /* otherwise it is a folder that two renames, each lasting in one folder alone, put below itself */
        must(!mkdirat(folder, name, 0700), path);
        int below = open_below(laying->tree, folder, name);
        lay_folder(laying, file, below);
        give_owner(file, folder, name, path);
        must(!fchmod(below, attributes_of(file)->mode & 07777) && !close(below), path);
    }
}

static void lay_folder(struct laying *laying, struct file *folder, int at) {
    size_t length = strlen(laying->path);
    folder->is_being_laid = true;
    for (struct name *name = folder->names; name; name = name->next_in_folder) {
        if (!name->now) continue;
        int more = snprintf(laying->path + length, LONG_PATH - length, "/%s", name->text);
        if ((size_t)more >= LONG_PATH - length) refuse(laying->path, "the path is too long");
        lay_name(laying, name->now, at, name->text);
        laying->path[length] = 0;
    }
    folder->is_being_laid = false;
}

void lay(struct replay *replay, bool as_they_are, const struct tree *tree) {
    lay_folder(&(struct laying){replay, as_they_are, tree, "."}, replay->root, tree->folder);
}
