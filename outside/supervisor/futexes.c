/* Threads that wait for one lock, if calls have an order. A lock and a condition variable of the C library make no call as long as nobody has to
   wait. Otherwise the thread waits for a futex: it asks the system to sleep until it is woken, if the word at that address still has the value that it
   saw. Who unlocks changes the word, and then asks the system to wake one of them. If both were left to the system, the woken thread would run beside
   the one that woke it, and who gets the lock next would be a matter of time.

   Here a wait is kept, and a wake says which of them may end: the first that came. A wait that was woken ends in its turn, so once all threads
   rest. The thread that woke it goes on meanwhile. If it took the lock again before the woken thread had its turn, it gives way the next time.

   No wake is lost. Who wakes changes the word first. If the word was read here before that, the wake comes after the wait, and finds it. If it was read
   later, the wait ends at once with EAGAIN, as in the system. A wake that finds too few waits here goes on to the system, where those waits are that
   were left to it: see is_left. A wake that isn't seen, since the system makes it or a signal ends its call, has changed the word too: once all
   threads rest and nothing else may go on, such a wait ends. A wait may end without a wake, as in the system. */
#define _GNU_SOURCE
#include "futexes.h"

#include "order.h"
#include "supervisor.h"
#include "waiting.h"

#include <errno.h>
#include <linux/futex.h>
#include <linux/kcmp.h>
#include <stdio.h>
#include <stdlib.h>

enum { PAGE = 4096, MOST_SECONDS = 1000000000 };

static const uint64_t A_SECOND = 1000000000;
static const int64_t SHORTEST_LIMIT = 1000000;

static int command_of(const struct call *call) { return (int)argument(call, call->row->mode) & FUTEX_CMD_MASK; }

static bool is_private(const struct call *call) { return argument(call, call->row->mode) & FUTEX_PRIVATE_FLAG; }

static unsigned bits_of(const struct call *call) {
    bool has_bits = command_of(call) == FUTEX_WAIT_BITSET || command_of(call) == FUTEX_WAKE_BITSET;
    return has_bits ? (unsigned)argument(call, call->row->flags) : FUTEX_BITSET_MATCH_ANY;
}

static bool read_value(const struct thread *thread, uint64_t at, unsigned *value) {
    return at % sizeof *value == 0 && read_memory(thread, at, value, sizeof *value) == sizeof *value;
}

/* ---- which waits are kept here */

enum { MOST_LIMITS = 256 };

/* The last moment up to which a thread has waited here. */
static struct { int thread; struct timespec moment; } limits[MOST_LIMITS];

/* Whether a thread waits for the same moment again, and remembers that it does. */
static bool waits_again(int thread, const struct timespec *moment) {
    static size_t next;
    size_t which = 0;
    while (which < MOST_LIMITS && limits[which].thread != thread) which++;
    bool is_same = which < MOST_LIMITS && limits[which].moment.tv_sec == moment->tv_sec && limits[which].moment.tv_nsec == moment->tv_nsec;
    if (which == MOST_LIMITS) which = next++ % MOST_LIMITS;
    limits[which].thread = thread;
    limits[which].moment = *moment;
    return is_same;
}

/* The nanoseconds from one moment to another, at most so many that they can be added to any time. */
static int64_t time_between(const struct timespec *from, const struct timespec *to) {
    int64_t seconds = to->tv_sec - from->tv_sec;
    if (seconds > MOST_SECONDS) seconds = MOST_SECONDS;
    if (seconds < -MOST_SECONDS) seconds = -MOST_SECONDS;
    return seconds * (int64_t)A_SECOND + to->tv_nsec - from->tv_nsec;
}

/* How much time is left of the limit that the wait has, from now on. It is 0 for a wait without one. Returns false for a limit that the system
   refuses, or that is so short that the thread looks again and again. But a thread that was woken before some moment may wait on for that moment, however
   little is left. */
static bool read_limit(const struct call *call, uint64_t *left) {
    struct timespec limit, time = {0};
    uint64_t at = argument(call, call->row->bytes);
    bool is_moment = command_of(call) == FUTEX_WAIT_BITSET, by_clock = argument(call, call->row->mode) & FUTEX_CLOCK_REALTIME;
    *left = 0;
    if (!at) return true;
    if (read_memory(call->thread, at, &limit, sizeof limit) != sizeof limit) return false;
    if (limit.tv_sec < 0 || limit.tv_nsec < 0 || (uint64_t)limit.tv_nsec >= A_SECOND) return false;
    if (is_moment) clock_gettime(by_clock ? CLOCK_REALTIME : CLOCK_MONOTONIC, &time);
    int64_t length = time_between(&time, &limit);
    bool is_again = is_moment && waits_again(call->thread->number, &limit);
    *left = length > 0 ? (uint64_t)length : 1;
    return is_again || length > SHORTEST_LIMIT;
}

/* Whether the page of a word belongs to the process alone. The system finds out in the same way who waits there. */
static bool is_own(const struct thread *thread, uint64_t at) {
    char path[64];
    uint64_t page = 0;
    snprintf(path, sizeof path, "/proc/%d/pagemap", thread->number);
    int file = had(open(path, O_RDONLY | O_CLOEXEC));
    bool is_read = file >= 0 && pread(file, &page, sizeof page, (off_t)(at / PAGE * sizeof page)) == sizeof page;
    if (file >= 0) close(file);
    return is_read && page >> 63 && !(page >> 61 & 1);
}

/* Whether a wait is left to the system. It clears the word itself when a thread ends that is joined, or that holds a robust lock: there the word has the
   number of that thread, and the wait isn't private. Nor is it known which process wakes those that wait in memory that several share. */
static bool is_left(const struct call *call, uint64_t at, unsigned value) {
    char path[64];
    if (is_private(call)) return false;
    snprintf(path, sizeof path, "/proc/%d/task/%u", call->thread->process, value & FUTEX_TID_MASK);
    return !access(path, F_OK) || !is_own(call->thread, at);
}

/* Whether a thread of this program waits here at all. */
static bool is_in_order(const struct call *call) { return keeps_waits() && !is_of_go(call->thread); }

static void begin_wait(struct call *call) {
    static uint64_t waits;
    uint64_t at = argument(call, call->row->at), left;
    unsigned value;
    if (!bits_of(call) || !read_limit(call, &left) || !read_value(call->thread, at, &value)) return go_on(call);
    if (value != (unsigned)argument(call, call->row->length)) return finish(call, -EAGAIN);
    if (!is_in_order(call) || is_left(call, at, value)) return go_on(call);
    call->word = (struct word){.at = at, .value = value, .bits = bits_of(call), .is_private = is_private(call),
        .process = call->thread->process, .came = ++waits};
    call->waits_wake = true;
    if (left) begin_sleep(call, left);
}

/* ---- threads that were overtaken */

enum { MOST_OVERTAKEN = 256 };

/* Threads that found the word changed when they had their turn, since others had been there between the wake and that turn. */
static struct { int thread; uint64_t at; } overtaken[MOST_OVERTAKEN];

static void note_overtaken(int thread, uint64_t at, bool is_overtaken) {
    static size_t next;
    size_t which = 0;
    while (which < MOST_OVERTAKEN && overtaken[which].thread != thread) which++;
    if (which == MOST_OVERTAKEN && !is_overtaken) return;
    if (which == MOST_OVERTAKEN) which = next++ % MOST_OVERTAKEN;
    overtaken[which].thread = is_overtaken ? thread : 0;
    overtaken[which].at = at;
}

static bool was_overtaken(int thread, uint64_t at) {
    for (size_t i = 0; i < MOST_OVERTAKEN; i++)
        if (overtaken[i].thread == thread && overtaken[i].at == at) return true;
    return false;
}

/* ---- how a wait ends */

/* Lets a wait end in its turn. A signal isn't the wake for which it waits. */
static void awake(struct call *call, bool by_signal) {
    call->waits_wake = by_signal;
    call->word.has_signal = by_signal;
    call->turn = AWAKE;
    call->waits_turn = true;
    call->sleeps_until = 0;
}

/* The system ends a wait for which a signal has come, as soon as it makes that call. If the signal is another thread's after all, the wait is kept there. */
static void end_wait(struct call *call) {
    unsigned value = call->word.value;
    if (call->waits_wake && call->word.has_signal) return go_on(call);
    if (call->waits_wake) {
        note_sleep(call);
        return finish(call, -ETIMEDOUT);
    }
    read_value(call->thread, call->word.at, &value);
    note_overtaken(call->thread->number, call->word.at, value != call->word.value);
    finish(call, 0);
}

void see_signals(void) {
    for (struct call *call = NULL; (call = next_waiting(call));)
        if (call->waits_wake && !call->word.has_signal && has_signal(thread_of((int)call->told.pid))) awake(call, true);
}

static bool has_changed(const struct call *call) {
    unsigned value;
    return call->waits_wake && read_value(thread_of((int)call->told.pid), call->word.at, &value) && value != call->word.value;
}

bool sees_change(void) {
    for (struct call *call = NULL; (call = next_waiting(call));)
        if (has_changed(call)) return true;
    return false;
}

void wake_changed(void) {
    for (struct call *call = NULL; (call = next_waiting(call));)
        if (has_changed(call)) awake(call, false);
}

/* ---- wakes */

/* A child of vfork shares the memory of its parent. */
static bool share_memory(int one, int other) { return one == other || !syscall(SYS_kcmp, one, other, KCMP_VM, 0, 0); }

static bool is_for(const struct call *call, uint64_t at, const struct call *wake) {
    const struct word *word = &call->word;
    if (!call->waits_wake || word->at != at || !(word->bits & bits_of(wake)) || word->is_private != is_private(wake)) return false;
    return share_memory(word->process, wake->thread->process);
}

/* The first wait that came, of those that a wake is for. That of a thread that is gone by now is none. */
static struct call *first_wait(uint64_t at, const struct call *wake) {
    struct call *first = NULL;
    for (struct call *call = NULL; (call = next_waiting(call));) {
        if (!is_for(call, at, wake) || (first && first->word.came < call->word.came)) continue;
        if (still_waits(call)) first = call;
        call->is_answered = false;
    }
    return first;
}

/* Wakes at most so many threads that wait at that address, and returns how many. `gives_way` is set if one of them was overtaken before. */
static unsigned wake(struct call *wake, uint64_t at, unsigned most, bool *gives_way) {
    unsigned woken = 0;
    for (struct call *first; woken < most && (first = first_wait(at, wake)); woken++) {
        if (was_overtaken((int)first->told.pid, at)) *gives_way = true;
        read_value(wake->thread, at, &first->word.value);
        awake(first, false);
    }
    return woken;
}

/* Who wakes several threads has no lock for them, and goes on. */
static void wake_some(struct call *call) {
    int asked = (int)argument(call, call->row->length);
    unsigned most = asked > 0 ? (unsigned)asked : 1;
    bool gives_way = false;
    unsigned woken = wake(call, argument(call, call->row->at), most, &gives_way);
    if (woken < most) return go_on(call);
    if (most > 1 || !gives_way || !is_in_order(call)) return finish(call, woken);
    call->turn = GIVES_WAY;
    call->waits_turn = true;
}

/* Wakes all whom such a call may wake or move to another word. Those that it would move ask for that word then by themselves. */
static void wake_all_of(struct call *call) {
    bool ignored;
    wake(call, argument(call, call->row->at), UINT_MAX, &ignored);
    if (command_of(call) == FUTEX_WAKE_OP) wake(call, argument(call, call->row->other_at), UINT_MAX, &ignored);
    go_on(call);
}

void serve_futex(struct call *call) {
    bool is_wait = command_of(call) == FUTEX_WAIT || command_of(call) == FUTEX_WAIT_BITSET;
    if (is_wait && (call->waits_wake || call->chosen)) return end_wait(call);
    if (is_wait) return begin_wait(call);
    if (call->chosen) return finish(call, 1);
    switch (command_of(call)) {
    case FUTEX_WAKE: case FUTEX_WAKE_BITSET:
        return wake_some(call);
    case FUTEX_REQUEUE: case FUTEX_CMP_REQUEUE: case FUTEX_WAKE_OP:
        return wake_all_of(call);
    default:
        return go_on(call);
    }
}

/* ---- threads that begin, and that let others go first */

/* The C library makes this call in each thread, child and program that it begins. Until its turn it doesn't run beside the one that began it. */
void serve_begin(struct call *call) {
    if (call->chosen || !is_in_order(call)) return go_on(call);
    call->word.process = call->thread->process;
    call->turn = AWAKE;
    call->waits_turn = true;
}

/* A thread may wait in a loop until another one that was begun or woken has gone on. */
void serve_yield(struct call *call) {
    bool others = false;
    for (struct call *other = NULL; (other = next_waiting(other));) others = others || (other->waits_turn && other->turn == AWAKE);
    if (!others || call->chosen || !is_in_order(call)) return go_on(call);
    call->turn = GIVES_WAY;
    call->waits_turn = true;
}
