/* replace FLAW CHUNK.. [, CHUNK..]..: replaces the file `target` of the current folder, once for each list of chunks, as the
   bundled file replacement does: it writes `tmp`, syncs it, renames it over `target`, and syncs the folder. It prints `begun N`
   and `done N` on standard output, so that the judge knows what was promised.

   FLAW is `sound`, `late_sync` (the file is synced after the folder, and acknowledged then), `ignore_sync` (it goes on if
   the file's sync failed), `retry_write` (a chunk whose write failed is written once more), `rename_first` (the file is
   synced under its new name) or `in_place` (there is no `tmp`: the old file is unlinked and its name made anew). */
#include <fcntl.h>
#include <stdbool.h>
#include <stdio.h>
#include <string.h>
#include <unistd.h>

static bool late_sync, ignore_sync, retry_write, rename_first, in_place;
static int folder;

/* A short write is a failed one, and what it wrote stays. */
static bool write_chunk(int file, const char *chunk) {
    size_t length = strlen(chunk);
    for (int tries = retry_write ? 2 : 1; tries > 0; tries--)
        if (write(file, chunk, length) == (ssize_t)length) return true;
    return false;
}

static bool write_chunks(int file, char **chunks, int count) {
    for (int i = 0; i < count; i++)
        if (!write_chunk(file, chunks[i])) return false;
    return true;
}

/* From the new file to the name; what fails here is cleaned up. */
static bool fill_and_rename(int file, char **chunks, int count) {
    if (!write_chunks(file, chunks, count)) return false;
    if (!late_sync && !rename_first && fsync(file) && !ignore_sync) return false;
    return !rename("tmp", "target");
}

/* After the name is there; what fails here leaves nothing to clean up. */
static bool make_last(int file) {
    if (rename_first && fsync(file)) return false;
    return !fsync(folder) && !(late_sync && fsync(file));
}

static bool replace_in_place(char **chunks, int count) {
    if (!access("target", F_OK) && unlink("target")) return false;
    int file = open("target", O_WRONLY | O_CREAT | O_EXCL, 0600);
    if (file < 0) return false;
    bool done = write_chunks(file, chunks, count) && !fsync(file) && !fsync(folder);
    close(file);
    return done;
}

/* Whether the replacement may be acknowledged. */
static bool replace(char **chunks, int count) {
    if (in_place) return replace_in_place(chunks, count);
    if (!access("tmp", F_OK) && unlink("tmp")) return false;
    int file = open("tmp", O_WRONLY | O_CREAT | O_EXCL, 0600);
    if (file < 0) return false;
    bool done = fill_and_rename(file, chunks, count);
    if (done) done = make_last(file);
    else unlink("tmp");
    close(file);
    return done;
}

static bool set_flaw(const char *flaw) {
    late_sync = !strcmp(flaw, "late_sync");
    ignore_sync = !strcmp(flaw, "ignore_sync");
    retry_write = !strcmp(flaw, "retry_write");
    rename_first = !strcmp(flaw, "rename_first");
    in_place = !strcmp(flaw, "in_place");
    return late_sync || ignore_sync || retry_write || rename_first || in_place || !strcmp(flaw, "sound");
}

static int end_of_list(char **words, int at, int count) {
    while (at < count && strcmp(words[at], ",")) at++;
    return at;
}

int main(int count, char **words) {
    if (count < 2 || !set_flaw(words[1])) {
        fprintf(stderr, "usage: replace sound|late_sync|ignore_sync|retry_write|rename_first|in_place CHUNK.. [, CHUNK..]..\n");
        return 2;
    }
    folder = open(".", O_RDONLY | O_DIRECTORY);
    if (folder < 0) return 1;
    for (int number = 1, at = 2; at < count; number++) {
        int end = end_of_list(words, at, count);
        dprintf(1, "begun %d\n", number);
        if (replace(words + at, end - at)) dprintf(1, "done %d\n", number);
        at = end + 1;
    }
    return 0;
}
