#define _GNU_SOURCE
#include "unseen.h"

#include "copy.h"
#include "lay.h"

#include <fcntl.h>
#include <stdio.h>
#include <stdlib.h>
#include <sys/stat.h>
#include <unistd.h>

/* ---- the names under the root that the script changes itself: each ends with a byte of zero */

static FILE *open_expected(const char *run, const char *mode) {
    char path[LONG_PATH];
    joined(path, run, "expected");
    return fopen(path, mode);
}

void expect_names(const char *run, char **names, int count) {
    FILE *out = open_expected(run, "ae");
    must(out, run);
    for (int i = 0; i < count; i++) {
        size_t length = strlen(names[i]);
        while (length > 0 && names[i][length - 1] == '/') length--;
        if (!length || names[i][0] == '/') refuse(names[i], "give a name below ROOT, as `pending` prints it");
        fprintf(out, "%.*s%c", (int)length, names[i], 0);
    }
    must(!fclose(out), run);
}

/* Whether the script named this path, or a folder above it. */
static bool is_expected(const char *run, const char *path) {
    char *name = NULL;
    size_t size = 0;
    bool found = false;
    FILE *in = open_expected(run, "re");
    while (in && !found && getdelim(&name, &size, 0, in) > 0) {
        size_t length = strlen(name);
        found = !strncmp(path, name, length) && (!path[length] || path[length] == '/');
    }
    if (in) fclose(in);
    free(name);
    return found;
}

/* ---- a file's contents */

/* Whether all changes of a file together give the contents that it had at the cut. */
static bool is_explained(const struct replay *replay, const struct file *file) {
    char path[LONG_PATH];
    int live, base, out;
    bool same = true;
    if (!S_ISREG(file->key.mode) || !open_noted(replay->live, file, &live)) return true;
    if (!file->moments.count) {
        same = open_noted(replay->base, file, &base) ? same_bytes(base, live) : !lseek(live, 0, SEEK_END);
        if (base >= 0) close(base);
    } else {
        joined(path, replay->run, "explained");
        out = open(path, O_RDWR | O_CREAT | O_TRUNC | O_CLOEXEC, 0600);
        must(out >= 0, path);
        write_contents(replay, file, out, path);
        same = same_bytes(out, live);
        must(!unlink(path) && !close(out), path);
    }
    close(live);
    return same;
}

/* ---- the names */

struct paths {
    char **first;
    size_t count;
};

static void add_path(struct paths *paths, char *path) {
    paths->first = realloc(paths->first, (paths->count + 1) * sizeof *paths->first);
    must(paths->first && path, "memory");
    paths->first[paths->count++] = path;
}

/* The paths that lead to another file at the cut than after all changes, or to a file with other contents. */
static struct paths unseen_paths(struct replay *replay) {
    struct paths paths = {0};
    names_as_found(replay);
    for (size_t i = 0; i < HASHES; i++)
        for (struct name *name = replay->names[i]; name; name = name->next_of_hash) {
            if (name->now == name->last && (!name->now || is_explained(replay, name->now))) continue;
            char *path = path_of(name->folder, name->text);
            if (!is_expected(replay->run, path)) add_path(&paths, path);
        }
    return paths;
}

static int by_text(const void *one, const void *other) { return strcmp(*(char *const *)one, *(char *const *)other); }

/* The first few of these paths, in one line. */
static char *told_paths(const struct paths *paths) {
    enum { MOST_TOLD = 5 };
    char *text = NULL;
    size_t size;
    FILE *out = open_memstream(&text, &size);
    must(out, "memory");
    qsort(paths->first, paths->count, sizeof *paths->first, by_text);
    for (size_t i = 0; i < paths->count && i < MOST_TOLD; i++)
        fprintf(out, "%s%s", i ? ", " : "", shown_text(paths->first[i]));
    if (paths->count > MOST_TOLD) fprintf(out, ", and %zu more", paths->count - MOST_TOLD);
    must(!fclose(out), "memory");
    return text;
}

void check_unseen(struct replay *replay, const struct state *state) {
    struct paths paths = unseen_paths(replay);
    if (!paths.count) return;
    const char *why = state->torn ? "the supervisor was killed as it noted a change"
                                  : "by a program that wasn't under the supervisor, by a call that it doesn't see, or by the script"
                                    " (then: powercut expect RUN NAME..)";
    fprintf(stderr, "powercut: changed, and nobody saw how: %s: %s\n", told_paths(&paths), why);
    if (!state->torn) exit(2);
}
