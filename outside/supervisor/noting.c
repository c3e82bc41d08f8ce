/* Notes what is done to the files: records in the file `changes`, each written under the lock, after the call that it describes. */
#define _GNU_SOURCE
#include "noting.h"

#include "notes_file.h"

#include <errno.h>
#include <fcntl.h>
#include <unistd.h>

enum { MOST_PARTS = IOV_MAX + 8 };

/* ---- a record */

/* Writes a record and what follows it, over anything that a killed supervisor left behind the last whole record. */
static void write_note(struct note *note, const char *name, const char *other_name, const struct iovec *first, int count,
    uint64_t length) {
    struct iovec parts[MOST_PARTS];
    int used = 1, before = errno;
    parts[0] = (struct iovec){note, sizeof *note};
    note->name = name ? (uint32_t)strlen(name) + 1 : 0;
    note->other_name = other_name ? (uint32_t)strlen(other_name) + 1 : 0;
    note->size = sizeof *note + note->name + note->other_name + length;
    if (name) parts[used++] = (struct iovec){(void *)name, note->name};
    if (other_name) parts[used++] = (struct iovec){(void *)other_name, note->other_name};
    for (int i = 0; i < count && length > 0; i++, used++) {
        parts[used] = first[i];
        if (parts[used].iov_len > length) parts[used].iov_len = length;
        length -= parts[used].iov_len;
    }
    if (!append_note(parts, used, note->size)) refuse("can't record a change", strerror(errno));
    state->noted += note->size;
    errno = before;
}

/* ---- bytes that are copied later */

static struct later *later_of(const struct key *file) {
    struct later *free = NULL;
    uint64_t first = file->number * 0x9e3779b97f4a7c15u >> 32;
    for (unsigned tries = 0; tries < 32; tries++) {
        struct later *later = &state->later[(first + tries) % MOST_LATER];
        if (same_key(&later->file, file)) return later;
        if (!free && later->from == later->to && !later->never) free = later;
    }
    if (free) *free = (struct later){.file = *file};
    return free;
}

bool may_come_later(const struct file_facts *before, uint64_t at, uint64_t length) {
    if (!before->links || at < before->length) return false;
    struct later *later = later_of(&before->key);
    if (!later || later->never) return false;
    if (later->from == later->to) later->from = at;
    later->to = at + length;
    return true;
}

/* Reads so many bytes of a file. If it was cut short meanwhile, the rest is zeros. */
static void read_whole_at(int in, char *bytes, size_t length, uint64_t at) {
    size_t done = 0;
    for (ssize_t got; done < length && (got = pread(in, bytes + done, length - done, (off_t)(at + done))) > 0;) done += (size_t)got;
    memset(bytes + done, 0, length - done);
}

/* Writes a record with bytes of a file. The first part is written with the record's head; a short record has only that part. */
static void copy_bytes(enum kind kind, const struct key *file, int in, uint64_t at, uint64_t length) {
    static char bytes[65536];
    struct note note = {.kind = kind, .file = *file, .at = at, .length = length, .size = sizeof note + length};
    uint64_t copied = 0;
    bool written = in >= 0;
    do {
        size_t some = length - copied < sizeof bytes ? (size_t)(length - copied) : sizeof bytes;
        struct iovec parts[] = {{&note, sizeof note}, {bytes, some}};
        if (written) read_whole_at(in, bytes, some, at + copied);
        if (copied) written = written && write_parts_at(parts + 1, 1, state->noted + sizeof note + copied);
        else written = written && append_note(parts, 2, note.size);
        copied += some;
    } while (copied < length);
    if (!written) refuse("can't record a change", strerror(errno));
    state->noted += note.size;
}

void note_from_file(const struct key *file, const char *path, uint64_t at, uint64_t length) {
    int before = errno, in = open(path, O_RDONLY | O_CLOEXEC | O_NONBLOCK);
    copy_bytes(WRITTEN, file, in, at, length);
    close(in);
    errno = before;
}

static void copy_all_later(struct later *later, const char *path) {
    int before = errno, in = open(path, O_RDONLY | O_CLOEXEC | O_NONBLOCK);
    copy_bytes(COPIED, &later->file, in, later->from, later->to - later->from);
    close(in);
    later->from = later->to = 0;
    errno = before;
}

void copy_later(const struct key *file, const char *path, uint64_t from, uint64_t to) {
    struct later *later = later_of(file);
    if (later && later->from < to && from < later->to) copy_all_later(later, path);
}

void copy_later_always(const struct key *file, const char *path) {
    copy_later(file, path, 0, UINT64_MAX);
    struct later *later = later_of(file);
    if (later) later->never = true;
}

/* ---- each kind */

void note_names(enum kind kind, const struct key *file, const struct place *place, const char *target) {
    struct note note = {.kind = kind, .file = *file, .folder = place->folder};
    write_note(&note, place->name, target, NULL, 0, 0);
}

void note_moved(enum kind kind, const struct key *file, const struct key *other_file, const struct place *place,
    const struct place *other) {
    struct note note = {.kind = kind, .file = *file, .folder = place->folder, .other_folder = other->folder};
    if (other_file) note.other_file = *other_file;
    write_note(&note, place->name, other->name, NULL, 0, 0);
}

void note_bytes(enum kind kind, const struct key *file, uint64_t at, const struct iovec *first, int count, uint64_t length) {
    struct note note = {.kind = kind, .file = *file, .at = at, .length = length, .flags = first ? 0 : LATER};
    write_note(&note, NULL, NULL, first, count, first ? length : 0);
}

void note_length(const struct key *file, uint64_t length) {
    struct note note = {.kind = RESIZED, .file = *file, .at = length};
    write_note(&note, NULL, NULL, NULL, 0, 0);
}

void note_cleared(const struct key *file, uint64_t at, uint64_t length) {
    struct note note = {.kind = CLEARED, .file = *file, .at = at, .length = length};
    write_note(&note, NULL, NULL, NULL, 0, 0);
}

void note_attributes(const struct key *file) {
    struct note note = {.kind = ATTRIBUTES, .file = *file};
    write_note(&note, NULL, NULL, NULL, 0, 0);
}

void note_sync(enum sync_call sync, const struct key *file, uint64_t from, uint64_t length) {
    struct note note = {.kind = SYNCED, .flags = sync, .file = *file, .at = state->noted, .from = from, .length = length};
    write_note(&note, NULL, NULL, NULL, 0, 0);
}

void note_failed_sync(const struct key *file) {
    struct note note = {.kind = SYNC_FAILED, .file = *file, .at = state->noted};
    write_note(&note, NULL, NULL, NULL, 0, 0);
}
