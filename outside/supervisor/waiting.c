#define _GNU_SOURCE
#include "waiting.h"

#include "futexes.h"
#include "operations.h"
#include "order.h"

#include <errno.h>
#include <poll.h>
#include <stdlib.h>
#include <time.h>

enum { LONGEST_WAIT = 10 }; /* milliseconds between two checks of whether the threads that wait are still there */

static const uint64_t A_MILLISECOND = 1000000;

static struct call *list;
static size_t length, room;

bool waits_at_all(void) { return length > 0; }

void keep_waiting(const struct call *call) {
    if (length == room) {
        room = room ? 2 * room : 16;
        list = realloc(list, room * sizeof *list);
        if (!list) refuse("memory", strerror(errno));
    }
    list[length++] = *call;
}

struct call *next_waiting(struct call *before) {
    size_t next = before ? (size_t)(before - list) + 1 : 0;
    return next < length ? &list[next] : NULL;
}

void wait_for(struct call *call, int file, short events) {
    call->waits_for = file;
    call->events = events;
}

/* ---- which calls may go on */

static void sooner(uint64_t *least, uint64_t time, uint64_t then) {
    if (then > time && then - time < *least) *least = then - time;
}

static uint64_t time_left(void) {
    uint64_t time = now(), least = (awaits_operation() ? 1 : LONGEST_WAIT) * A_MILLISECOND;
    for (size_t i = 0; i < length; i++) {
        sooner(&least, time, list[i].hit.wakes);
        sooner(&least, time, list[i].gives_up);
    }
    return least;
}

static bool may_be_served(const struct call *call, short ready) {
    if (call->waits_turn || call->waits_wake) return is_overdue(call);
    if (call->hit.wakes > now()) return false;
    return call->waits_for < 0 || ready || (call->gives_up && call->gives_up <= now());
}

static void take(size_t which, struct call *call) {
    *call = list[which];
    list[which] = list[--length];
    if (call->waits_for >= 0) close(call->waits_for);
    call->waits_for = -1;
}

/* Takes a call out of the list and serves it. It may have to wait again. */
static void serve_again(size_t which) {
    struct call call;
    take(which, &call);
    if (!still_waits(&call)) return;
    call.thread = thread_of((int)call.told.pid);
    serve(&call);
}

/* A signal may interrupt a call that waits for a descriptor, or that sleeps, as in the system itself. */
static void interrupt_one(size_t which) {
    struct call call;
    bool may_be = list[which].waits_for >= 0 || list[which].sleeps_until;
    if (!may_be || list[which].waits_wake || !has_signal(thread_of((int)list[which].told.pid))) return;
    take(which, &call);
    call.thread = thread_of((int)call.told.pid);
    if (call.sleeps_until) end_sleep(&call);
    else interrupt(&call);
}

void forget_ended(void) {
    struct call gone;
    for (size_t i = length; i-- > 0;)
        if (!still_waits(&list[i])) take(i, &gone);
}

/* ---- turns */

static bool waits_here(int thread) {
    for (size_t i = 0; i < length; i++)
        if ((int)list[i].told.pid == thread) return true;
    return false;
}

static size_t all_turns(struct call **calls) {
    size_t count = 0;
    for (size_t i = 0; i < length; i++)
        if (list[i].waits_turn) calls[count++] = &list[i];
    return count;
}

static bool comes_before(const struct call *one, const struct call *other) {
    if ((one->turn == OF_CALL) != (other->turn == OF_CALL)) return one->turn != OF_CALL;
    return one->sleeps_until < other->sleeps_until;
}

/* A call that may get its turn, if there is one. If only sleeps wait, the time of the first one must be over. */
static const struct call *first_turn(void) {
    const struct call *first = NULL;
    for (size_t i = 0; i < length; i++)
        if (list[i].waits_turn && (!first || comes_before(&list[i], first))) first = &list[i];
    return first && (!first->sleeps_until || has_slept(first)) ? first : NULL;
}

static enum patience patience_of(const struct call *call) {
    if (call->turn == OF_CALL) return FOR_CALL;
    return call->row->serve == serve_begin && (int)call->told.pid == call->word.process ? FOR_PROCESS : FOR_THREAD;
}

/* Whether all threads rest. A limit of a wait doesn't wait for a thread that never rests, and is over all the same some time later. */
static bool may_take(const struct call *first) {
    if (!first->waits_wake) return is_settled(waits_here, patience_of(first));
    forget_unsettled();
    return all_at_rest(waits_here);
}

/* Gives a call its turn, once all threads rest and no call has come meanwhile. */
static void take_turn(int listener) {
    struct call *calls[length + 1];
    const struct call *first = first_turn();
    if (!first) return forget_unsettled();
    if (!may_take(first) || poll(&(struct pollfd){listener, POLLIN, 0}, 1, 0) != 0) return;
    see_signals();
    struct call *next = calls[next_of(calls, all_turns(calls))];
    next->waits_turn = false;
    next->chosen = true;
    serve_again((size_t)(next - list));
}

bool all_wait_here(void) {
    for (size_t i = 0; i < length; i++)
        if (list[i].waits_turn || list[i].hit.wakes > now() || list[i].gives_up || list[i].sleeps_until) return false;
    return all_at_rest(waits_here);
}

/* If nothing has happened for some time: lets those waits for futexes end that a signal ends, or whose word has changed though nobody was seen who
   woke them; and if all threads rest, and one of them waits for the input, offers the next operation. Any call that has come meanwhile is served first. */
static void look_at_waits(int listener) {
    see_signals();
    if (first_turn()) return;
    if (sees_change() && all_at_rest(waits_here)) return wake_changed();
    if (!awaits_operation() || !all_at_rest(waits_here) || !is_polled()) return;
    if (poll(&(struct pollfd){listener, POLLIN, 0}, 1, 0) == 0) offer_operation();
}

/* A call that comes is received before those that wait are looked at, but they are looked at each millisecond: until it is received, a signal ends it. */
void wait_for_any(int listener) {
    static uint64_t looks_at;
    size_t count = length;
    struct pollfd files[count + 1];
    files[count] = (struct pollfd){listener, POLLIN, 0};
    for (size_t i = 0; i < count; i++) files[i] = (struct pollfd){list[i].waits_for, list[i].events, 0};
    struct timespec most = {0, (long)(first_turn() ? time_to_next_look() : time_left())};
    bool is_quiet = !ppoll(files, count + 1, &most, NULL) && !first_turn();
    if (files[count].revents && now() < looks_at) return;
    looks_at = now() + A_MILLISECOND;
    for (size_t i = count; i-- > 0;) {
        bool over = !still_waits(&list[i]);
        list[i].is_answered = false;
        if (over || may_be_served(&list[i], files[i].revents)) serve_again(i);
        else interrupt_one(i);
    }
    if (is_quiet) look_at_waits(listener);
    if (!files[count].revents) take_turn(listener);
}
