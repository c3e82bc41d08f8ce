/* faults [--] COMMAND..: runs a command, and all that it starts, under the scenario in FAILPOINTS. It works from outside: the system asks it about
   each call of table.c, by seccomp's user notification. It makes the calls under FAULTS_ROOT itself, or lets them fail. It shares the run's folder,
   FAULTS_RUN, with the power cut. README.md says what is seen. */
#define _GNU_SOURCE
#include "../run/help.h"
#include "../run/whole.h"
#include "crashes.h"
#include "keeper.h"
#include "kills.h"
#include "operations.h"
#include "order.h"
#include "own.h"
#include "pin.h"
#include "supervisor.h"
#include "syncs.h"
#include "waiting.h"

#include <errno.h>
#include <poll.h>
#include <signal.h>
#include <stdio.h>
#include <stdlib.h>
#include <sys/ioctl.h>
#include <sys/resource.h>
#include <sys/time.h>
#include <sys/wait.h>
#include <time.h>

#ifndef SECCOMP_IOCTL_NOTIF_SET_FLAGS
#define SECCOMP_IOCTL_NOTIF_SET_FLAGS SECCOMP_IOW(4, __u64)
#define SECCOMP_USER_NOTIF_FD_SYNC_WAKE_UP 1ul
#endif

enum { TICK = 50000 }; /* microseconds: a signal just before the wait for a call is seen after at most this time */

static int listener = -1;

uint64_t now(void) {
    struct timespec time;
    clock_gettime(CLOCK_MONOTONIC, &time);
    return (uint64_t)time.tv_sec * 1000000000u + (uint64_t)time.tv_nsec;
}

/* ---- ends */

static void tell(const char *what, const char *name) {
    char line[4 * PATH_MAX + 512], *end = stpcpy(stpcpy(stpcpy(line, "faults: "), what), ": ");
    end = escaped(end, strndupa(name, PATH_MAX));
    *end++ = '\n';
    write_whole(2, line, (size_t)(end - line));
}

_Noreturn void refuse(const char *what, const char *why) {
    bool has_too_few = !strcmp(why, strerror(EMFILE)); /* whatever it wanted to open */
    tell(has_too_few ? "the limit of descriptors is too low to follow the run" : what, why);
    end_all();
    _exit(REFUSED);
}

static void tell_unseen(void) {
    char line[UNSEEN_LINE];
    lock_run();
    size_t length = unseen_line(state, line);
    unlock_run();
    if (length) write_whole(2, line, length);
}

_Noreturn void end_run(int status) {
    end_all();
    note_crashes();
    note_all_stores();
    tell_unseen();
    _exit(status);
}

_Noreturn void lose(const char *what, const char *name) {
    tell(what, name);
    end_run(REFUSED);
}

/* Ends as the command did, also if that was by a signal. */
static _Noreturn void end_as(int status) {
    if (WIFEXITED(status)) _exit(WEXITSTATUS(status));
    setrlimit(RLIMIT_CORE, &(struct rlimit){0, 0});
    signal(WTERMSIG(status), SIG_DFL);
    raise(WTERMSIG(status));
    _exit(128 + WTERMSIG(status));
}

static _Noreturn void end_with(int status, const char *name) {
    note_crashes();
    note_status(status, name);
    lock_run();
    note_all_stores();
    bool nothing = state->number == state->started || lacks_begin();
    if (nothing) {
        add_unseen(state, lacks_begin() ? "where faults begin, though =begin was awaited, in" : "any call under FAULTS_ROOT of", name);
        state->others++;
    }
    tell_unseen();
    unlock_run();
    if (nothing) _exit(REFUSED);
    end_as(status);
}

void unseen(const char *what, const char *name) {
    int before = errno;
    lock_run();
    add_unseen(state, what, name);
    unlock_run();
    errno = before;
}

/* ---- answers */

/* Makes a request to the listener again if a signal for the supervisor cut it short. */
static int ask(unsigned long request, void *with) {
    int answered;
    do answered = ioctl(listener, request, with);
    while (answered < 0 && errno == EINTR);
    return answered;
}

/* Closes descriptors before the thread goes on: it may need a file that nobody has open, or a lock that ends with the last descriptor. */
static void let_go(struct call *call) {
    while (call->held_count > 0) {
        int file = call->held[--call->held_count];
        if (file != call->waits_for) close(file);
    }
}

static void send_answer(struct call *call, long result, unsigned flags) {
    let_go(call);
    struct seccomp_notif_resp answer = {.id = call->told.id, .flags = flags};
    if (result < 0) answer.error = (int)result;
    else answer.val = result;
    ask(SECCOMP_IOCTL_NOTIF_SEND, &answer); /* if the thread is gone, no answer is needed */
    call->is_answered = true;
}

long result_of(long answered) { return answered < 0 ? -errno : answered; }

void finish(struct call *call, long result) {
    hit_result(call, result);
    send_answer(call, result, 0);
}

void go_on(struct call *call) {
    flush_hit(call);
    send_answer(call, 0, SECCOMP_USER_NOTIF_FLAG_CONTINUE);
}

void go_on_with(struct call *call, long result) {
    hit_result(call, result);
    send_answer(call, 0, SECCOMP_USER_NOTIF_FLAG_CONTINUE);
}

void give(struct call *call, int file, bool closes_at_exec) {
    struct seccomp_notif_addfd given = {.id = call->told.id, .srcfd = (unsigned)file, .newfd_flags = closes_at_exec ? O_CLOEXEC : 0};
    finish(call, result_of(ask(SECCOMP_IOCTL_NOTIF_ADDFD, &given)));
}

enum { MADE_AGAIN = 512, MADE_IN_ANY_CASE = 513 }; /* the system's own ERESTARTSYS and ERESTARTNOINTR */

/* Lets the system run the handler of a signal. If it makes the call again then, that is no other hit. */
static void answer_signal(struct call *call, int how) {
    struct thread *thread = call->thread;
    thread->interrupted.is_there = true;
    thread->interrupted.data = call->told.data;
    thread->interrupted.hit = call->hit;
    thread->interrupted.gives_up = call->gives_up;
    send_answer(call, -how, 0);
}

void interrupt(struct call *call) {
    if (call->moved) return finish(call, (long)call->moved);
    hit_result(call, -EINTR);
    answer_signal(call, MADE_AGAIN);
}

void let_handle(struct call *call) {
    flush_hit(call);
    answer_signal(call, MADE_IN_ANY_CASE);
}

/* A call that is made again after a signal has had its hit already. */
static void resume(struct call *call) {
    struct thread *thread = call->thread;
    if (!thread->interrupted.is_there || memcmp(&call->told.data, &thread->interrupted.data, sizeof call->told.data)) return;
    call->hit = thread->interrupted.hit;
    call->gives_up = thread->interrupted.gives_up;
    thread->interrupted.is_there = false;
}

int had(int file) {
    if (file < 0 && errno == EMFILE) refuse("descriptors", strerror(errno));
    return file;
}

int hold(struct call *call, int file) {
    if (had(file) < 0) return file;
    if (call->held_count == MOST_HELD) lose("can't follow a call with more than 100 descriptors of", program_of(call->thread));
    return call->held[call->held_count++] = file;
}

bool still_waits(struct call *call) {
    if (!ask(SECCOMP_IOCTL_NOTIF_ID_VALID, &call->told.id)) return true;
    call->is_answered = true;
    return false;
}

/* ---- calls, as they come */

static void begin_program(struct thread *thread) {
    char link[64], program[PATH_MAX];
    struct stat told;
    snprintf(link, sizeof link, "/proc/%d/exe", thread->process);
    if (stat(link, &told) || told.st_ino == thread->program) return;
    ssize_t length = readlink(link, program, sizeof program - 1);
    program[length < 0 ? 0 : length] = 0;
    say_loaded(thread->process, program);
    begins_program(thread);
    thread->program = told.st_ino;
}

void serve(struct call *call) {
    call->row->serve(call);
    let_go(call);
    if (!call->is_answered) keep_waiting(call);
}

static void begin_call(const struct seccomp_notif *told) {
    struct call call = {.told = *told, .row = row_of(told->data.nr), .waits_for = -1};
    if (!told->pid) lose("can't follow the run", "a process is in another PID namespace");
    call.thread = thread_of((int)told->pid);
    if (is_foreign(told->data.arch, told->data.nr)) lose("can't follow a program with 32-bit calls", program_of(call.thread));
    bool begins_another = call.row && call.row->serve == serve_program;
    if (call.thread->number == call.thread->process && !call.thread->program && !begins_another) begin_program(call.thread);
    if (call.row && call.thread->interrupted.is_there) resume(&call);
    if (call.row) serve(&call);
    else go_on(&call);
}

static bool receive(void) {
    static union {
        struct seccomp_notif told;
        char room[1024]; /* a newer system may write more */
    } next;
    memset(&next, 0, sizeof next);
    if (ioctl(listener, SECCOMP_IOCTL_NOTIF_RECV, &next.told)) {
        if (errno != EINTR && errno != ENOENT && errno != ENOTCONN) refuse("can't receive calls", strerror(errno));
        return false;
    }
    begin_call(&next.told);
    return true;
}

/* ---- the beginning */

static volatile sig_atomic_t ended_by, child_ended;

/* Passes a signal that somebody sent on to the command, or if that has ended, ends what it left. A signal of the terminal has come to all
   processes. */
static void on_signal(int number, siginfo_t *told, void *unused) {
    int before = errno;
    (void)unused;
    if (number == SIGCHLD) child_ended = true;
    bool was_sent = number != SIGCHLD && number != SIGALRM && told->si_code <= 0;
    if (was_sent && command_runs()) kill(command(), number);
    else if (was_sent) ended_by = number;
    errno = before;
}

static const int handled[] = {SIGCHLD, SIGALRM, SIGTERM, SIGHUP, SIGINT, SIGQUIT, SIGUSR1, SIGUSR2};

static void mask_signals(int how) {
    sigset_t signals;
    sigemptyset(&signals);
    for (size_t i = 0; i < sizeof handled / sizeof *handled; i++) sigaddset(&signals, handled[i]);
    sigprocmask(how, &signals, NULL);
}

void hold_signals(void) { mask_signals(SIG_BLOCK); }

void let_signals(void) {
    int before = errno;
    mask_signals(SIG_UNBLOCK);
    errno = before;
}

/* The file of the state doesn't have all of its room on the disk yet. If the disk is full, a new part of it can't be had. */
static void on_full(int unused) {
    (void)unused;
    refuse("can't record a change", strerror(ENOSPC));
}

static void set_signals(void) {
    struct sigaction action = {.sa_sigaction = on_signal, .sa_flags = SA_SIGINFO};
    struct itimerval tick = {{0, TICK}, {0, TICK}};
    for (size_t i = 0; i < sizeof handled / sizeof *handled; i++) sigaction(handled[i], &action, NULL);
    signal(SIGBUS, on_full);
    signal(SIGPIPE, SIG_IGN);
    signal(SIGXFSZ, SIG_IGN);
    setitimer(ITIMER_REAL, &tick, NULL);
}

static void take_more_descriptors(void) {
    struct rlimit limit;
    if (!getrlimit(RLIMIT_NOFILE, &limit)) setrlimit(RLIMIT_NOFILE, &(struct rlimit){limit.rlim_max, limit.rlim_max});
}

/* Whether something may be done before the next call comes. */
static bool looks_meanwhile(void) { return waits_at_all() || awaits_operation(); }

/* Whether a call has come before a wait is over. This is only asked if something else may come first. */
static bool has_come(void) { return !looks_meanwhile() || poll(&(struct pollfd){listener, POLLIN, 0}, 1, 0) > 0; }

/* Whether no thread of the run is left. */
static bool is_deserted(void) {
    struct pollfd calls = {listener, POLLIN, 0};
    return poll(&calls, 1, 0) > 0 && calls.revents & POLLHUP;
}

static _Noreturn void watch(const char *name) {
    int status;
    for (;;) {
        if (looks_meanwhile()) wait_for_any(listener);
        if (!child_ended && has_come() && receive()) continue;
        child_ended = false;
        if (is_deserted()) wait_for_end();
        if (has_ended(&status)) end_with(status, name);
        if (is_left_waiting()) end_with(end_all(), name);
        if (ended_by) end_run(128 + ended_by);
    }
}

static const char usage[] = "faults [--order settled|next] [--pin] [--sync] [--] COMMAND.., or faults --help";

/* Returns the number of the command's first word. */
static int read_options(int count, char **words) {
    int at = 1;
    for (; at < count && words[at][0] == '-'; at++) {
        const char *order = !strcmp(words[at], "--order") && at + 1 < count ? words[at + 1] : "";
        if (!strcmp(words[at], "--")) return at + 1;
        if (asks_help(words[at])) _exit(write_help(1) ? 0 : REFUSED);
        if (!strcmp(words[at], "--pin")) is_pinned = true;
        else if (!strcmp(words[at], "--sync")) syncs_disk = true;
        else if (!strcmp(order, "settled") || !strcmp(order, "next")) set_order(*order == 's' ? SETTLED : ASKED), at++;
        else refuse("usage", usage);
    }
    return at;
}

int main(int count, char **words) {
    int first = read_options(count, words);
    if (first >= count) refuse("usage", usage);
    read_variables();
    struct looks looks = {.sockets = sees_sockets, .random = is_pinned, .order = is_ordered()};
    know_root();
    make_input();
    listener = start_command(words + first, &looks);
    set_signals();
    take_more_descriptors();
    unsigned long wakes_at_once = SECCOMP_USER_NOTIF_FD_SYNC_WAKE_UP;
    ioctl(listener, SECCOMP_IOCTL_NOTIF_SET_FLAGS, wakes_at_once); /* quicker, since Linux 6.6 */
    watch(words[first]);
}
