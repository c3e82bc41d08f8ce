/* The file of notes. Short records are written to a part of it that is mapped, so that they cost no call. Its room on the disk is taken beforehand,
   so that a full disk is seen. A long record is written by a call, which costs less than the page faults of fresh pages would. */
#define _GNU_SOURCE
#include "notes_file.h"

#include "supervisor.h"

#include <errno.h>
#include <stdio.h>
#include <sys/mman.h>

enum { WINDOW = 1 << 16, LONGEST = 2000 };

static char *window;
static uint64_t window_from;
static bool has_windows = true;

static int notes_file(void) {
    static int notes = -1;
    char name[LONG_PATH];
    if (notes >= 0) return notes;
    snprintf(name, sizeof name, "%s/changes", run_folder);
    notes = open(name, O_RDWR | O_CLOEXEC);
    if (notes < 0) refuse("can't record a change", strerror(errno));
    return notes;
}

/* Returns false if the file system can't take room beforehand. Then each record is a call. */
static bool move_window(void) {
    uint64_t from = state->noted / WINDOW * WINDOW;
    if (window && from == window_from) return true;
    if (window) munmap(window, 2 * WINDOW);
    window = NULL;
    hold_signals();
    has_windows = !fallocate(notes_file(), 0, (off_t)from, 2 * WINDOW);
    let_signals();
    if (!has_windows && errno != EOPNOTSUPP) refuse("can't record a change", strerror(errno));
    char *memory = has_windows ? mmap(NULL, 2 * WINDOW, PROT_READ | PROT_WRITE, MAP_SHARED, notes_file(), (off_t)from) : MAP_FAILED;
    if (memory == MAP_FAILED) return false;
    window = memory;
    window_from = from;
    return true;
}

bool write_parts_at(struct iovec *parts, int count, uint64_t at) {
    while (count > 0) {
        ssize_t length = pwritev(notes_file(), parts, count < IOV_MAX ? count : IOV_MAX, (off_t)at);
        if (length < 0) return false;
        at += (uint64_t)length;
        for (; count > 0 && (size_t)length >= parts->iov_len; count--) length -= (ssize_t)parts++->iov_len;
        if (count > 0) {
            parts->iov_base = (char *)parts->iov_base + length;
            parts->iov_len -= (size_t)length;
        }
    }
    return true;
}

bool append_note(struct iovec *parts, int count, uint64_t size) {
    if (size > LONGEST || !has_windows || !move_window()) return write_parts_at(parts, count, state->noted);
    char *to = window + (state->noted - window_from);
    for (int i = 0; i < count; i++) to = mempcpy(to, parts[i].iov_base, parts[i].iov_len);
    return true;
}
