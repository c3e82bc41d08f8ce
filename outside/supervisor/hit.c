/* Hits: each is counted and traced, and gets what the scenario says. */
#define _GNU_SOURCE
#include "../run/whole.h"
#include "crashes.h"
#include "kills.h"
#include "marks.h"
#include "operations.h"
#include "order.h"
#include "own.h"
#include "quiet.h"
#include "supervisor.h"

#include <errno.h>

/* The line of the hit that is being served. It is written in one piece with the result of the call, if that is known at once. */
static char line[LONGEST_LINE];
static char *result_place;

static int open_trace(int flags) {
    char name[LONG_PATH];
    *stpcpy(stpcpy(name, run_folder), "/trace") = 0;
    int trace = open(name, O_WRONLY | O_CLOEXEC | flags);
    if (trace < 0) refuse("can't write the trace", strerror(errno));
    return trace;
}

static void write_line(size_t length) {
    static int trace = -1;
    if (trace < 0) trace = open_trace(O_APPEND);
    if (!write_whole(trace, line, length)) refuse("can't write the trace", strerror(errno));
}

static void write_result(const char *text, long at) {
    int trace = open_trace(0);
    if (!write_whole_at(trace, text, RESULT_WIDTH, at)) refuse("can't write the trace", strerror(errno));
    close(trace);
}

static long end_of_trace(void) {
    struct stat told;
    int trace = open_trace(0);
    long length = fstat(trace, &told) ? 0 : told.st_size;
    close(trace);
    return length;
}

static int locks;

void lock_run(void) {
    if (!locks++) lock_state(state, run_folder);
}

void unlock_run(void) {
    if (!--locks) pthread_mutex_unlock(&state->mutex);
}

/* A call outside has no line. */
static void let_outside(struct call *call) {
    if (call->hit.result_at < 0) unlock_run();
    call->hit.result_at = 0;
}

/* Writes the line without a result, and lets others use the run. */
void flush_hit(struct call *call) {
    if (call->hit.is_outside) return let_outside(call);
    if (!call->hit.seen || !result_place || call->hit.result_at >= 0) return;
    call->hit.result_at = end_of_trace() + (result_place - line);
    write_line((size_t)(result_place + RESULT_WIDTH + 1 - line));
    result_place = NULL;
    unlock_run();
}

void hit_result(struct call *call, long result) {
    char text[RESULT_WIDTH];
    if (!call->hit.seen) return;
    if (call->hit.is_outside) return let_outside(call);
    if (call->hit.result_at >= 0) {
        result_text(text, result, (int)-result);
        write_result(text, call->hit.result_at);
        return;
    }
    result_text(result_place, result, (int)-result);
    write_line((size_t)(result_place + RESULT_WIDTH + 1 - line));
    result_place = NULL;
    unlock_run();
}

/* What a term does to the call. */
static enum answer act(struct call *call, const struct term *term) {
    switch (term->task) {
    case RETURN:
        call->hit.operation = term->operation;
        if (term->operation) return GIVE;
        if (term->error == HALF_DONE) return HALF;
        if (term->error == DROPPED) return DROP;
        if (term->error == TOLD) return call->hit.text = term->argument, TELL;
        if (term->error == FILLED) state->is_full = true;
        if (term->error == KILLED) return end_process(call);
        if (term->error == TERMINATED) return ask_to_end(call);
        call->hit.error = term->error == FILLED ? ENOSPC : term->error;
        return FAIL;
    case PANIC:
    case PAUSE:
        flush_hit(call);
        state->ended = term->task == PANIC ? PANICKED : PAUSED;
        end_run(state->ended);
    case SLEEP: case DELAY:
        flush_hit(call);
        call->hit.wakes = now() + term->millis * 1000000ull;
        return GO;
    default:
        return GO;
    }
}

/* What the scenario says of a hit. A disk gets full where a call takes room, so that it is this call that fails. */
static const struct term *term_of(const struct call *call, struct counter *counter) {
    const struct term *term = acting_term(chain_named(&scenario, counter->name), counter->used);
    bool fills = term && term->task == RETURN && term->error == FILLED;
    return fills && !call->takes_room ? NULL : term;
}

/* What the call does after all. One that takes room fails on a full disk. */
static enum answer answered(struct call *call, enum answer answer) {
    if (!state->is_full || !call->takes_room || !is_done(answer)) return answer;
    call->hit.error = ENOSPC;
    return FAIL;
}

/* Whether a call is none at which a fault may act: it is made before the beginning or behind the end, or on a file of a quiet name. */
static bool is_passed(enum point point, const char *path) { return point != WORK && (is_outside() || (point < CONNECT && is_quiet(path))); }

/* Lets such a call go on. It has the run to itself, as a hit has. A disk that is full is full for a quiet name too, and outside it isn't. */
static void pass(struct call *call) {
    lock_run();
    if (state->ended) end_run(state->ended);
    call->hit = (struct hit){.seen = true, .is_outside = true, .result_at = -1};
    call->hit.answer = is_outside() ? GO : answered(call, GO);
}

/* Counts a hit. The counts are those of all processes of the run, and of all that ran in it before. */
static void count(struct call *call, enum point point, const char *path, const char *flags) {
    char text[MOST_POINT + 1];
    note_crashes();
    const char *name = point_name(&scenario, point, path, text);
    lock_run();
    if (state->ended) end_run(state->ended);
    struct counter *counter = counter_named(state, name);
    if (!counter) refuse("too many points", name);
    const struct term *term = term_of(call, counter);
    state->number++;
    counter->hits++;
    call->hit.seen = true;
    call->hit.result_at = -1;
    mark_hit(state->number);
    result_place = trace_line(line, &(struct hit_line){.number = state->number, .counter = counter, .term = term, .path = point == OWN ? "-" : path,
        .process = call->thread->process, .flags = term && term->operation ? operation_named(term->operation) : flags});
    call->hit.answer = answered(call, term ? act(call, term) : GO);
}

enum answer hit(struct call *call, enum point point, const char *path, const char *flags) {
    if (!call->hit.seen && !may_go(call)) return NOT_YET;
    if (!call->hit.seen && is_passed(point, path)) pass(call);
    if (!call->hit.seen) count(call, point, path, flags);
    if (call->hit.wakes && call->hit.wakes > now()) return NOT_YET;
    if (call->hit.answer == FAIL) finish(call, -call->hit.error);
    return call->hit.answer;
}
