/* rewind RUN NEW NUMBER SCENARIO: makes NEW, the folder of a run that SCENARIO ended at hit NUMBER. It is made from the notes of RUN, a run that
   went on there. If NUMBER is one more than RUN has hits, NEW is RUN at its end, from which it can go on under SCENARIO. RUN must have marks, and
   its power must have been cut once. Neither RUN nor its files are changed.

   It prints how many bytes had been written to standard output by then, or `all`. It ends with 2 if it can't do its work, and with 3 if RUN's notes
   don't show the files at that hit, since stores through a mapping are noted late. */
#define _GNU_SOURCE
#include "../run/run.h"

#include <dirent.h>
#include <errno.h>
#include <fcntl.h>
#include <stddef.h>
#include <stdio.h>
#include <stdlib.h>
#include <sys/mman.h>
#include <sys/stat.h>
#include <unistd.h>

enum { CANNOT = 2, UNTOLD = 3 };

static _Noreturn void stop(const char *what, const char *why) {
    fprintf(stderr, "rewind: %s: %s\n", what, why);
    exit(CANNOT);
}

static void must(bool done, const char *what) {
    if (!done) stop(what, strerror(errno));
}

static char *below(const char *folder, const char *name) {
    char *path;
    must(asprintf(&path, "%s/%s", folder, name) > 0, "memory");
    return path;
}

/* ---- files that are linked or copied */

struct text {
    char *bytes;
    size_t length;
};

static struct text read_whole(const char *path) {
    struct stat told;
    int file = open(path, O_RDONLY | O_CLOEXEC);
    must(file >= 0 && !fstat(file, &told), path);
    struct text text = {malloc((size_t)told.st_size + 1), (size_t)told.st_size};
    must(text.bytes && pread(file, text.bytes, text.length, 0) == told.st_size, path);
    text.bytes[text.length] = 0;
    close(file);
    return text;
}

static int make(const char *path) {
    int file = open(path, O_RDWR | O_CREAT | O_EXCL | O_CLOEXEC, 0600);
    must(file >= 0, path);
    return file;
}

static void write_all(int file, const char *bytes, size_t length, const char *name) {
    for (ssize_t written; length > 0; bytes += written, length -= (size_t)written) must((written = write(file, bytes, length)) > 0, name);
}

/* Links all files of a folder of notes, to which nobody writes any more. */
static void link_all(const char *from, const char *to) {
    DIR *names = opendir(from);
    must(names && !mkdir(to, 0700), from);
    for (struct dirent *name; (name = readdir(names));)
        if (name->d_name[0] != '.') must(!linkat(dirfd(names), name->d_name, AT_FDCWD, below(to, name->d_name), 0), to);
    closedir(names);
}

static void link_book(const char *run, const char *new, const char *name) {
    const char *from = below(run, name), *to = below(new, name);
    must(!mkdir(to, 0700), to);
    link_all(below(from, "c"), below(to, "c"));
    link_all(below(from, "d"), below(to, "d"));
}

static void copy_small(const char *run, const char *new, const char *name) {
    struct text text = read_whole(below(run, name));
    write_all(make(below(new, name)), text.bytes, text.length, name);
}

/* ---- where the run was */

struct place {
    uint64_t number, noted, said;
    bool is_end;
};

/* The marks are numbered as hits are; a run that went on after a cut begins with another number than 1. */
static struct place place_of(const char *run, const struct state *state, uint64_t number) {
    struct place place = {.number = number, .is_end = number == state->cut.number + 1};
    unsigned long long hit, noted, said;
    if (place.is_end) return (struct place){state->cut.number, state->cut.noted, UINT64_MAX, true};
    FILE *marks = fopen(below(run, "marks"), "re");
    must(marks, "marks");
    while (fscanf(marks, "%llu\t%llu\t%llu\n", &hit, &noted, &said) == 3)
        if (hit == number) {
            place.noted = noted;
            place.said = said;
            fclose(marks);
            return place;
        }
    stop(run, "no such hit");
}

/* ---- notes: those up to that hit, and the bytes that later notes have for earlier ones */

static uint64_t write_notes(const char *run, const char *new, uint64_t all, const struct place *place) {
    struct text notes = read_whole(below(run, "changes"));
    uint64_t noted = place->noted, length = noted;
    int out = make(below(new, "changes"));
    write_all(out, notes.bytes, noted, new);
    for (uint64_t at = 0; at < all;) {
        struct note note;
        memcpy(&note, notes.bytes + at, sizeof note);
        if (note.size < sizeof note || note.size > all - at) stop(run, "the notes of this run are damaged");
        if (note.kind == STORED && !place->is_end) exit(UNTOLD);
        if (note.kind == COPIED && at >= noted) {
            write_all(out, notes.bytes + at, note.size, new);
            length += note.size;
        }
        at += note.size;
    }
    close(out);
    return length;
}

/* ---- state and trace */

static struct state *map_state(const char *run, int flags) {
    int file = open(below(run, "state"), O_RDWR | O_CLOEXEC | flags, 0600);
    must(file >= 0 && (!flags || !ftruncate(file, sizeof(struct state))), run);
    struct state *state = mmap(NULL, sizeof *state, PROT_READ | PROT_WRITE, MAP_SHARED, file, 0);
    must(state != MAP_FAILED, run);
    close(file);
    return state;
}

/* The copy has a free lock. Its counts are made anew, since another scenario has other terms. */
static struct state *copy_state(const char *new, const struct state *state) {
    struct state *copy = map_state(new, O_CREAT | O_EXCL);
    memcpy(copy, state, offsetof(struct state, counters));
    memset(copy->later, 0, sizeof copy->later);
    return copy;
}

/* Whether a scenario names points of the supervisor with their files. A name of the program's own may have an at sign too. */
static bool names_files(const char *text) {
    for (const char *piece = text; piece; piece = strchr(piece, ';')) {
        piece += strspn(piece, "; \t\r\n");
        if (!strncmp(piece, "sys::", 5) && piece[strcspn(piece, "@=")] == '@') return true;
    }
    return false;
}

static const struct scenario *scenario_of(const char *text) {
    static struct scenario scenario;
    char *copy = strdup(strcmp(text, "none") ? text : "");
    must(copy, "memory");
    scenario.by_file = names_files(text);
    if (!read_scenario(&scenario, copy)) stop("scenario", scenario.bad.kind);
    return &scenario;
}

/* Writes the last line of the trace: it has the term that ends the run as its answer, and no result. */
static void end_line(FILE *out, const char *line, const char *answer_at, const struct term *term) {
    static char answer[4 * MOST_BYTES + 64];
    const char *rest = strchr(answer_at, '\t'), *result = strrchr(answer_at, '\t');
    if (!term || term->task != PANIC) stop("scenario", "it doesn't end the run there");
    *written_answer(answer, term) = 0;
    fprintf(out, "%.*s%s%.*s\t%-20s\n", (int)(answer_at - line), line, answer, (int)(result - rest), rest, "-");
}

/* Counts the hits of the trace under the scenario, which ends the run at the last one. */
static void count_hits(struct state *copy, struct text trace, const struct place *place, const struct scenario *scenario, FILE *out) {
    char *next, *line = trace.bytes, *end = trace.bytes + trace.length;
    for (; line < end && (next = memchr(line, '\n', (size_t)(end - line))); line = next + 1) {
        *next = 0;
        char *point = strchr(line, '\t') + 1, *which = strchr(point, '\t') + 1, *answer = strchr(which, '\t') + 1;
        char name[MOST_POINT + 1];
        snprintf(name, sizeof name, "%.*s", (int)(which - 1 - point), point);
        struct counter *counter = counter_named(copy, name);
        if (!counter) stop("too many points", name);
        const struct term *term = acting_term(chain_named(scenario, name), counter->used);
        counter->hits++;
        if (!place->is_end && strtoull(line, NULL, 10) == place->number) return end_line(out, line, answer, term);
        fprintf(out, "%s\n", line);
    }
}

static void write_trace(const char *run, const char *new, struct state *copy, const struct place *place, const char *text) {
    struct text trace = read_whole(below(run, "trace"));
    FILE *out = fopen(below(new, "trace"), "wex");
    must(out, new);
    trace.length = copy->cut.trace; /* behind it stand the hits of a cut */
    count_hits(copy, trace, place, scenario_of(text), out);
    copy->cut.trace = (uint64_t)ftell(out);
    must(!fclose(out), new);
}

int main(int count, char **words) {
    if (count != 5) stop("usage", "rewind RUN NEW NUMBER SCENARIO");
    const char *run = words[1], *new = words[2];
    const struct state *state = map_state(run, 0);
    if (!state->cut.done) stop(run, "its power was never cut");
    struct place place = place_of(run, state, strtoull(words[3], NULL, 10));
    must(!mkdir(new, 0700), new);
    struct state *copy = copy_state(new, state);
    copy->cut.number = copy->number = place.number;
    copy->cut.noted = copy->noted = write_notes(run, new, state->cut.noted, &place);
    copy->cut.is_earlier |= !place.is_end;
    if (!place.is_end) copy->ended = PANICKED;
    write_trace(run, new, copy, &place, words[4]);
    link_book(run, new, "kept");
    link_book(run, new, "live");
    copy_small(run, new, "loaded");
    if (!access(below(run, "expected"), F_OK)) copy_small(run, new, "expected");
    char root[PATH_MAX] = {0};
    must(readlink(below(run, "root"), root, sizeof root - 1) > 0 && !symlink(root, below(new, "root")), new);
    if (place.is_end) puts("all");
    else printf("%llu\n", (unsigned long long)place.said);
    return 0;
}
