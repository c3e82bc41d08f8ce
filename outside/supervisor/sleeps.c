/* Sleeps, if calls have an order. A sleep ends once its time is over and no other call waits. If there are several, the first to end is the one
   whose time would be over first if only sleeps took time. So it doesn't matter how quickly the machine does what lies between. In a process with
   several threads, one may wait in a loop for what another does after its sleep, as programs in Go do. There a sleep is as long as the system makes
   it. */
#define _GNU_SOURCE
#include "supervisor.h"

#include <errno.h>
#include <stdlib.h>
#include <time.h>

static const uint64_t A_SECOND = 1000000000, LONGEST = 2000000000;

/* The limit of a wait ends in a program that does something else meanwhile. There it isn't so late that the program does much more of that. */
static const uint64_t LONGEST_OF_LIMIT = 200000000;

static uint64_t slept; /* the time as it would be if only sleeps took time */

void begin_sleep(struct call *call, uint64_t length) {
    call->hit.wakes = now() + length;
    call->sleeps_until = slept + length + 1;
    call->waits_turn = true;
}

void note_sleep(const struct call *call) {
    if (call->sleeps_until > slept) slept = call->sleeps_until;
}

static bool is_common(clockid_t clock) {
    return clock == CLOCK_REALTIME || clock == CLOCK_MONOTONIC || clock == CLOCK_BOOTTIME || clock == CLOCK_TAI;
}

static uint64_t nanoseconds(const struct timespec *time) { return (uint64_t)time->tv_sec * A_SECOND + (uint64_t)time->tv_nsec; }

/* Reads how long a sleep lasts. Returns false for a sleep that isn't held here, or that the system refuses. */
static bool read_length(const struct call *call, uint64_t *length) {
    const struct row *row = call->row;
    clockid_t clock = row->mode ? (clockid_t)argument(call, row->mode) : CLOCK_REALTIME;
    struct timespec asked, time;
    if (!is_common(clock) || read_memory(call->thread, argument(call, row->bytes), &asked, sizeof asked) != sizeof asked) return false;
    if (asked.tv_sec < 0 || asked.tv_nsec < 0 || (uint64_t)asked.tv_nsec >= A_SECOND) return false;
    *length = nanoseconds(&asked);
    if (!(argument(call, row->flags) & TIMER_ABSTIME)) return true;
    if (clock_gettime(clock, &time)) return false;
    *length = *length > nanoseconds(&time) ? *length - nanoseconds(&time) : 0;
    return true;
}

/* Whether the process has, or had, several threads. If it had, it may have them again. */
static bool has_company(struct thread *thread) {
    const char *count = thread->has_company ? NULL : status_of(thread, "Threads:");
    if (count && atoi(count) > 1) thread->has_company = true;
    return thread->has_company;
}

void serve_sleep(struct call *call) {
    uint64_t length;
    if (call->sleeps_until) {
        if (!call->chosen) unseen("the order of a sleep, since other calls went on for two seconds:", program_of(call->thread));
        note_sleep(call);
        return finish(call, 0);
    }
    if (has_company(call->thread) || !read_length(call, &length)) return go_on(call);
    begin_sleep(call, length);
}

bool has_slept(const struct call *call) { return call->hit.wakes <= now(); }

bool is_overdue(const struct call *call) {
    return call->sleeps_until && call->hit.wakes + (call->waits_wake ? LONGEST_OF_LIMIT : LONGEST) <= now();
}

/* Ends a sleep early, and writes how much of its time is left if the call asks for that. */
void end_sleep(struct call *call) {
    const struct row *row = call->row;
    uint64_t time = now(), left = call->hit.wakes > time ? call->hit.wakes - time : 0, to = argument(call, row->other_at);
    struct timespec rest = {(time_t)(left / A_SECOND), (long)(left % A_SECOND)};
    if (to && !(argument(call, row->flags) & TIMER_ABSTIME)) write_memory(call->thread, to, &rest, sizeof rest);
    finish(call, -EINTR);
}
