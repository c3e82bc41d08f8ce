#define _GNU_SOURCE
#include "order.h"

#include "keeper.h"
#include "supervisor.h"

#include <errno.h>
#include <stdio.h>
#include <stdlib.h>
#include <sys/wait.h>

enum { MOST_THREADS = 4096, MOST_PIDS = 4194304, TRIES_AT_ONCE = 4, MOST_IN_A_ROW = 1000 };

static const uint64_t LONGEST = 2000000000; /* nanoseconds, after which a thread that doesn't rest isn't waited for any more */

static const uint64_t A_MOMENT = 20000; /* between two looks at all threads */

/* A thread that has computed for so long doesn't keep those waiting that were woken, so that those that share work compute at the same time. It is the
   time of the processor, since other work on the machine doesn't count. */
static const uint64_t A_LONG_TIME = 50000000;

/* Nor do threads that sleep again and again: after this time it is enough that each has rested once. */
static const uint64_t A_WHILE = 100000000;

/* Nor do all together for longer than this in a run. Where that is how threads work the order takes time, and has little to put into order. */
static const uint64_t LONGEST_OF_ALL = 500000000;

static enum order how;

void set_order(enum order order) { how = order; }
bool is_ordered(void) { return how != AS_THEY_COME; }

bool may_go(struct call *call) {
    if (!is_ordered() || call->chosen) return true;
    call->waits_turn = true;
    return false;
}

/* ---- the threads, whose files of /proc are kept open */

static struct looked {
    int number, stat, turns;
    bool is_restless; /* it isn't waited for */
    bool computes;    /* it didn't rest when it was looked at last */
    uint64_t rested;  /* for which turn it rested */
    uint64_t began, computed; /* how long it had computed when it was first seen so, and at that last look */
} all[MOST_THREADS];
static int count;

static int open_proc(int thread, const char *name) {
    char path[64];
    snprintf(path, sizeof path, "/proc/%d/%s", thread, name);
    return had(open(path, O_RDONLY | O_CLOEXEC));
}

static struct looked looked_before(int thread) {
    for (int i = 0; i < count; i++)
        if (all[i].number == thread) return all[i];
    return (struct looked){.number = thread};
}

static struct looked listed[MOST_THREADS];
static int listed_count;

static bool list(pid_t process, pid_t thread) {
    (void)process;
    if (listed_count == MOST_THREADS) return true;
    struct looked *looked = &listed[listed_count++];
    *looked = looked_before(thread);
    looked->stat = open_proc(thread, "stat");
    looked->turns = open_proc(thread, "schedstat");
    return true;
}

static bool list_once(void) {
    int before = count;
    listed_count = 0;
    each_thread(list);
    bool same = listed_count == before;
    for (int i = 0; i < before; i++) {
        same = same && all[i].number == listed[i].number;
        close(all[i].stat), close(all[i].turns);
    }
    memcpy(all, listed, (size_t)listed_count * sizeof *all);
    count = listed_count;
    return same;
}

/* Lists all threads until two lists are the same. If the parent of a process ends meanwhile, that process gets another parent. */
static void list_all(void) {
    for (int i = 0; i < 5 && !list_once(); i++) continue;
}

/* ---- threads that were begun */

static bool read_text_of(int file, char *text, size_t room) {
    ssize_t length = pread(file, text, room - 1, 0);
    text[length < 0 ? 0 : length] = 0;
    return length > 0;
}

/* The number that the system gave last, to a thread of this run or of another. So calls that begin a thread need not be looked at, and a signal
   doesn't end them with EINTR. It is 0 if the system doesn't say. */
static int last_number(void) {
    static int file = -1;
    char text[128];
    if (file < 0) file = open("/proc/loadavg", O_RDONLY | O_CLOEXEC);
    const char *last = read_text_of(file, text, sizeof text) ? strrchr(text, ' ') : NULL;
    return last ? atoi(last) : 0;
}

/* Whether that number can be trusted. In some containers the file is made up, and then all threads are listed each time. */
static bool tells_numbers(void) {
    static int tells = -1;
    if (tells >= 0) return tells;
    int before = last_number();
    pid_t made = fork();
    if (!made) _exit(0);
    while (made > 0 && waitpid(made, NULL, 0) < 0 && errno == EINTR) continue;
    tells = last_number() != before;
    return tells;
}

/* ---- at rest */

static bool (*has_call)(int thread);
static uint64_t turn; /* how many turns were waited for */
static struct looked *unsettled; /* one that isn't at rest */
static enum patience patience;

/* Whether a thread waits for a child that uses its memory. It sleeps in the same way as one that waits for a disk. */
static bool waits_for_child(int thread) {
    char text[128];
    int file = open_proc(thread, "syscall"), number = read_text_of(file, text, sizeof text) ? atoi(text) : -1;
    close(file);
    return number == SYS_vfork || number == SYS_clone || number == SYS_clone3;
}

static bool moves(const struct looked *thread) {
    char text[512];
    const char *name_end = read_text_of(thread->stat, text, sizeof text) ? strrchr(text, ')') : NULL;
    return name_end && (name_end[2] == 'R' || (name_end[2] == 'D' && !waits_for_child(thread->number)));
}

static void tell_of(const struct looked *thread, const char *what) {
    char text[512] = "";
    const char *name = thread && read_text_of(thread->stat, text, sizeof text) ? strchr(text, '(') : NULL;
    if (name) text[strcspn(text, ")")] = 0;
    unseen(what, name ? name + 1 : "");
}

static uint64_t kept_waiting; /* how long threads have computed while woken ones waited for them */

bool keeps_waits(void) { return kept_waiting < LONGEST_OF_ALL; }

static void add_to_waits(const struct looked *thread, uint64_t time) {
    bool kept_before = keeps_waits();
    if (patience == FOR_THREAD) kept_waiting += time;
    if (kept_before && !keeps_waits()) tell_of(thread, "the order of threads that wait for one another, since some compute for long:");
}

/* Looks at a thread, and adds to `turns` how often it had a turn on a processor. Returns false if it isn't at rest. */
static bool look(struct looked *thread, uint64_t *turns) {
    char text[512];
    unsigned long long computed = 0, times = 0;
    bool is_known = thread->is_restless || has_call(thread->number), went_on = thread->computes;
    thread->computes = !is_known && moves(thread);
    if (!thread->computes) thread->rested = turn;
    if (is_known) return true;
    if (read_text_of(thread->turns, text, sizeof text)) sscanf(text, "%llu %*u %llu", &computed, &times);
    if (!went_on) thread->began = computed;
    else if (computed > thread->computed) add_to_waits(thread, computed - thread->computed);
    thread->computed = computed;
    if (thread->computes) unsettled = thread;
    if (thread->computes) return patience != FOR_CALL && computed - thread->began > A_LONG_TIME;
    *turns = *turns * 31 + times * 131 + (unsigned)thread->number;
    return true;
}

/* Whether all threads wait in two looks, without a turn between them. A thread that another one began is there once that one rests. */
static bool all_rest(void) {
    static int listed_until;
    uint64_t turns[2] = {0};
    bool told = tells_numbers();
    int begun = last_number();
    if (!told || begun != listed_until) list_all();
    listed_until = begun;
    unsettled = NULL;
    for (int look_number = 0; look_number < 2; look_number++)
        for (int i = 0; i < count; i++)
            if (!look(&all[i], &turns[look_number])) return false;
    return turns[0] == turns[1] && (told ? last_number() == begun : list_once());
}

static uint64_t since;
static int tries;

static void give_up(void) {
    tell_of(unsettled, "the order of calls, since a thread never rests:");
    if (unsettled) unsettled->is_restless = true;
}

bool all_at_rest(bool (*waits)(int thread)) {
    has_call = waits;
    patience = FOR_CALL;
    return all_rest();
}

void forget_unsettled(void) { tries = 0; }

uint64_t time_to_next_look(void) { return tries > TRIES_AT_ONCE ? A_MOMENT : 0; }

static bool each_has_rested(void) {
    int rested = 0;
    while (rested < count && all[rested].rested == turn) rested++;
    return rested == count;
}

static bool rest_by_now(uint64_t time) {
    if (all_rest()) return true;
    if (patience == FOR_CALL || time < A_WHILE || !each_has_rested()) return false;
    add_to_waits(unsettled, time);
    return true;
}

bool is_settled(bool (*waits)(int thread), enum patience of_it) {
    has_call = waits;
    patience = of_it;
    if (!tries++) since = now(), turn++;
    uint64_t time = now() - since;
    if (time <= LONGEST && !rest_by_now(time)) return false;
    if (time > LONGEST) give_up();
    tries = 0;
    return true;
}

/* ---- the next */

/* The age of a thread by its number. Numbers are given in turn, and begin again after the last one. */
static int age_of(const struct call *call) { return ((int)call->told.pid - command() + MOST_PIDS) % MOST_PIDS; }

/* First of all go threads that don't rest but for the order: so each has come to its next call on a file when one of these is chosen. */
static int rank(const struct call *call) {
    return call->turn == OF_CALL ? 2 : call->turn == GIVES_WAY;
}

/* The order of two calls. Sleeps come after all other calls. */
static int by_turn(const void *first, const void *second) {
    const struct call *one = *(struct call *const *)first, *other = *(struct call *const *)second;
    if (rank(one) != rank(other)) return rank(one) - rank(other);
    if (one->sleeps_until != other->sleeps_until) return one->sleeps_until < other->sleeps_until ? -1 : 1;
    return age_of(one) - age_of(other);
}

/* Whether the choice between two calls is a hit of order::next. A request for random bytes isn't a point, so it goes first, and sleeps wait for all
   others. */
static bool is_asked(const struct call *first, const struct call *second) {
    return how == ASKED && first->row->point != POINTS && !second->sleeps_until;
}

/* Whether the scenario lets the first of several calls go first. */
static bool goes_first(const struct call *call) {
    struct call asked = {.told = call->told, .thread = thread_of((int)call->told.pid), .chosen = true};
    enum answer answer = hit(&asked, NEXT, point_names[call->row->point], NULL);
    if (asked.hit.seen && answer != FAIL) hit_result(&asked, answer == GO ? 0 : 1);
    return answer == GO || answer == NOT_YET;
}

/* Threads that wake one another for ever don't keep a call waiting: it goes once so many of them have gone in a row. */
static size_t first_of(struct call *const *sorted, size_t calls_count) {
    static int in_a_row;
    size_t first = 0;
    while (first < calls_count && rank(sorted[first]) < 2) first++;
    bool both = first && first < calls_count && !sorted[first]->sleeps_until;
    in_a_row = both && in_a_row < MOST_IN_A_ROW ? in_a_row + 1 : 0;
    return both && !in_a_row ? first : 0;
}

size_t next_of(struct call *const *calls, size_t calls_count) {
    struct call *sorted[MOST_THREADS];
    size_t which = 0;
    if (calls_count > MOST_THREADS) calls_count = MOST_THREADS;
    memcpy(sorted, calls, calls_count * sizeof *sorted);
    qsort(sorted, calls_count, sizeof *sorted, by_turn);
    size_t first = first_of(sorted, calls_count);
    while (first + 1 < calls_count && is_asked(sorted[first], sorted[first + 1]) && !goes_first(sorted[first])) first++;
    while (calls[which] != sorted[first]) which++;
    return which;
}
