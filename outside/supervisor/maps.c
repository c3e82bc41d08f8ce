/* Shared mappings. A store through a mapping is no call. It is seen in the file's own bytes: they are compared with those that the calls left at
   each sync of the file, when a mapping of it goes, and at the end. */
#define _GNU_SOURCE
#include "supervisor.h"
#include "syncs.h"

#include <errno.h>
#include <stdio.h>
#include <stdlib.h>
#include <sys/mman.h>

enum { PAGE = 4096, AT_ONCE = 1 << 20, MOST_MAPPED = 256 };

static struct mapped {
    struct key key;
    int file;
    bool is_written; /* whether a mapping of it could be written to */
    char *before;
    size_t length, room;
} mapped[MOST_MAPPED];
static int mapped_count;

static struct mapped *mapped_of(const struct key *key) {
    for (int i = 0; i < mapped_count; i++)
        if (same_key(&mapped[i].key, key)) return &mapped[i];
    return NULL;
}

/* ---- what the file held */

static size_t length_of(const struct mapped *file) {
    struct stat told;
    return fstat(file->file, &told) ? 0 : (size_t)told.st_size;
}

static void make_room(struct mapped *file, size_t length) {
    size_t room = (length + PAGE) / PAGE * PAGE;
    if (room > file->room) {
        char *memory = file->before ? mremap(file->before, file->room, room, MREMAP_MAYMOVE)
                                    : mmap(NULL, room, PROT_READ | PROT_WRITE, MAP_PRIVATE | MAP_ANONYMOUS | MAP_NORESERVE, -1, 0);
        if (memory == MAP_FAILED) refuse("memory for a mapping", strerror(errno));
        file->before = memory;
        file->room = room;
    }
    if (length < file->length) memset(file->before + length, 0, file->length - length);
    file->length = length;
}

/* Holes are not read: they stay zeros. */
static void read_before(struct mapped *file) {
    for (off_t at = 0; (at = lseek(file->file, at, SEEK_DATA)) >= 0 && (size_t)at < file->length;) {
        off_t hole = lseek(file->file, at, SEEK_HOLE);
        size_t end = hole < 0 || (size_t)hole > file->length ? file->length : (size_t)hole;
        ssize_t got = pread(file->file, file->before + at, end - (size_t)at, at);
        if (got <= 0) return;
        at += got;
    }
}

/* ---- what was stored */

/* Notes a page. The last one ends where the file does, since bytes that are stored behind the file's end are kept nowhere. */
static void note_page(struct mapped *file, size_t at, const char *bytes) {
    size_t length = file->length - at < PAGE ? file->length - at : PAGE;
    struct iovec page = {(void *)bytes, length};
    note_bytes(STORED, &file->key, at, &page, 1, length);
    memcpy(file->before + at, bytes, PAGE);
}

static void note_data(struct mapped *file, size_t from, size_t to) {
    static char bytes[AT_ONCE];
    for (size_t at = from; at < to; at += AT_ONCE) {
        size_t length = to - at < AT_ONCE ? to - at : AT_ONCE;
        ssize_t got = pread(file->file, bytes, length, (off_t)at);
        if (got <= 0) return;
        memset(bytes + got, 0, (size_t)(-got & (PAGE - 1)));
        for (size_t page = 0; page < (size_t)got; page += PAGE)
            if (memcmp(bytes + page, file->before + at + page, PAGE)) note_page(file, at + page, bytes + page);
    }
}

static void note_stores_of(struct mapped *file) {
    size_t length = length_of(file);
    if (!file->is_written) return;
    make_room(file, length);
    for (off_t at = 0; (at = lseek(file->file, at, SEEK_DATA)) >= 0 && (size_t)at < length;) {
        off_t hole = lseek(file->file, at, SEEK_HOLE);
        size_t end = hole < 0 || (size_t)hole > length ? length : (size_t)hole;
        note_data(file, (size_t)at / PAGE * PAGE, end);
        at = (off_t)end;
    }
}

/* ---- what calls changed: never read back, since something may be stored there meanwhile */

static struct mapped *written_mapped(const struct key *key) {
    struct mapped *file = mapped_of(key);
    return file && file->is_written ? file : NULL;
}

void mapped_was_written(const struct key *key, uint64_t at, const char *bytes, uint64_t length) {
    struct mapped *file = written_mapped(key);
    if (!file) return;
    size_t end = bytes ? at + length : file->length;
    if (end > file->length) make_room(file, end);
    if (at + length < end) end = at + length;
    if (at >= end) return;
    if (bytes) memcpy(file->before + at, bytes, end - at);
    else memset(file->before + at, 0, end - at);
}

void mapped_was_resized(const struct key *key) {
    struct mapped *file = written_mapped(key);
    if (file) make_room(file, length_of(file));
}

/* There may be a hole now where there were bytes, so holes are read too. */
bool mapped_was_changed(const struct key *key) {
    struct mapped *file = written_mapped(key);
    if (!file) return false;
    size_t length = length_of(file);
    if (file->length != length) note_length(key, length);
    make_room(file, length);
    note_data(file, 0, length);
    return true;
}

void note_stores(const struct key *key) {
    struct mapped *file = mapped_of(key);
    if (!file) return;
    lock_run();
    note_stores_of(file);
    unlock_run();
}

void note_all_stores(void) {
    lock_run();
    for (int i = 0; i < mapped_count; i++) note_stores_of(&mapped[i]);
    unlock_run();
}

/* ---- mappings, as they are made */

static void begin_stores(struct mapped *file) {
    char link[LINK_LENGTH], path[PATH_MAX];
    struct facts facts;
    if (file->is_written || !look_at(file->file, "", AT_EMPTY_PATH, &facts)) return;
    lock_run();
    copy_later_always(&file->key, link_of(file->file, link));
    file->is_written = true;
    make_room(file, length_of(file));
    read_before(file);
    add_unseen(state, "each store into the mapping of", shown_path(file->file, &facts, path));
    unlock_run();
}

static struct mapped *add_mapped(const struct opened *opened) {
    char link[LINK_LENGTH];
    struct mapped *file = mapped_of(&opened->facts.file.key);
    if (file) return file;
    if (mapped_count == MOST_MAPPED) {
        unseen("more than 256 mapped files, as", opened->path);
        return NULL;
    }
    int own = had(open(link_of(opened->file, link), O_RDONLY | O_CLOEXEC));
    if (own < 0) return NULL;
    file = &mapped[mapped_count++];
    *file = (struct mapped){.key = opened->facts.file.key, .file = own};
    return file;
}

/* A mapping that can only be read may be made writable later. */
void serve_map(struct call *call) {
    struct opened opened;
    bool is_mapped = is_kept && open_of(call, call->row->file, &opened) && S_ISREG(opened.facts.file.key.mode)
        && (opened.flags & O_ACCMODE) == O_RDWR;
    struct mapped *file = is_mapped ? add_mapped(&opened) : NULL;
    if (file && argument(call, call->row->mode) & PROT_WRITE) begin_stores(file);
    go_on(call);
}

/* ---- which file is at a place of a thread's memory */

struct area {
    uint64_t from, to, at; /* the range in memory, and its place in the file */
    struct mapped *file;
};

/* Finds the next shared mapping of a known file in that range of memory. Returns false if there is none. */
static bool next_area(FILE *maps, uint64_t from, uint64_t to, struct area *area) {
    char line[PATH_MAX + 256], flags[8];
    unsigned long first, last, at, number;
    while (fgets(line, sizeof line, maps)) {
        if (sscanf(line, "%lx-%lx %7s %lx %*s %lu", &first, &last, flags, &at, &number) != 5) continue;
        if (last <= from || first >= to || flags[3] != 's') continue;
        for (int i = 0; i < mapped_count; i++)
            if (mapped[i].key.number == number) {
                *area = (struct area){first, last, at, &mapped[i]};
                return true;
            }
    }
    return false;
}

static FILE *maps_of(const struct thread *thread) {
    char path[64];
    snprintf(path, sizeof path, "/proc/%d/maps", thread->number);
    return fopen(path, "re");
}

static void each_area(const struct call *call, void (*does)(struct mapped *file)) {
    uint64_t from = argument(call, call->row->bytes), to = from + argument(call, call->row->length);
    FILE *maps = mapped_count ? maps_of(call->thread) : NULL;
    struct area area;
    while (maps && next_area(maps, from, to, &area)) does(area.file);
    if (maps) fclose(maps);
}

void serve_protect(struct call *call) {
    each_area(call, begin_stores);
    go_on(call);
}

static void end_stores(struct mapped *file) { note_stores(&file->key); }

void serve_unmap(struct call *call) {
    each_area(call, end_stores);
    go_on(call);
}

/* ---- msync, which syncs a part of a file */

static bool find_area(const struct call *call, struct area *area) {
    uint64_t from = argument(call, call->row->bytes);
    FILE *maps = mapped_count ? maps_of(call->thread) : NULL;
    bool found = maps && next_area(maps, from, from + 1, area) && area->file->is_written;
    if (maps) fclose(maps);
    return found;
}

void serve_map_sync(struct call *call) {
    struct area area;
    struct facts facts;
    char path[PATH_MAX];
    uint64_t from = argument(call, call->row->bytes), length = argument(call, call->row->length);
    if (!(argument(call, call->row->flags) & MS_SYNC) || from % PAGE || !find_area(call, &area)) return go_on(call);
    if (length > area.to - from) length = area.to - from;
    if (!look_at(area.file->file, "", AT_EMPTY_PATH, &facts)) return go_on(call);
    note_stores(&area.file->key); /* before a call that fails is answered: its thread stores more as soon as it goes on */
    enum answer answer = hit(call, FSYNC, shown_path(area.file->file, &facts, path), NULL);
    if (answer == NOT_YET || answer == OVER) return;
    lock_run();
    if (answer == FAIL && forgets) note_failed_sync(&area.file->key);
    else if (answer == GO) note_sync(MSYNC_CALL, &area.file->key, area.at + (from - area.from), length);
    unlock_run();
    if (answer == GO) finish_sync(call);
}
