#define _GNU_SOURCE
#include "run.h"

#include <errno.h>
#include <fcntl.h>
#include <stdio.h>
#include <string.h>
#include <unistd.h>

struct counter *counter_named(struct state *state, const char *name) {
    uint32_t place = 2166136261u;
    for (const char *byte = name; *byte; byte++) place = (place ^ (unsigned char)*byte) * 16777619u;
    for (unsigned tries = 0; tries < MOST_COUNTERS; tries++) {
        struct counter *counter = &state->counters[(place + tries) % MOST_COUNTERS];
        if (!counter->name[0]) strcpy(counter->name, name);
        if (!strcmp(counter->name, name)) return counter;
    }
    return NULL;
}

/* Cuts off a last line without an end. If a process is killed in a write, the system may end the write between two pages of the file. */
static void cut_off_last_line(const char *run) {
    char path[LONG_PATH], byte;
    snprintf(path, sizeof path, "%s/trace", run);
    int trace = open(path, O_RDWR | O_CLOEXEC);
    off_t length = trace < 0 ? 0 : lseek(trace, 0, SEEK_END), whole = length;
    while (whole > 0 && pread(trace, &byte, 1, whole - 1) == 1 && byte != '\n') whole--;
    if (whole < length && ftruncate(trace, whole)) return; /* then whoever reads the trace reports it */
    if (trace >= 0) close(trace);
}

void lock_state(struct state *state, const char *run) {
    if (pthread_mutex_lock(&state->mutex) != EOWNERDEAD) return;
    pthread_mutex_consistent(&state->mutex);
    state->torn = true;
    cut_off_last_line(run);
}

void add_unseen(struct state *state, const char *what, const char *name) {
    char text[MOST_UNSEEN_TEXT];
    int i = 0;
    snprintf(text, sizeof text, "%s %.160s", what, name);
    for (char *byte = text; *byte; byte++)
        if (*byte < ' ') *byte = '?';
    while (i < state->unseen && strcmp(state->unseen_text[i], text)) i++;
    if (i == state->unseen && i < MOST_UNSEEN) strcpy(state->unseen_text[state->unseen++], text);
}

size_t unseen_line(struct state *state, char *line) {
    char *end = stpcpy(line, "faults: not seen: ");
    int from = state->unseen_told, to = state->unseen_told = state->unseen;
    for (int i = from; i < to; i++) end = stpcpy(stpcpy(end, i > from ? ", " : ""), state->unseen_text[i]);
    *end++ = '\n';
    return from < to ? (size_t)(end - line) : 0;
}
