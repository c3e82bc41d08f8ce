#define _GNU_SOURCE
#include "kills.h"

#include "keeper.h"
#include "waiting.h"

#include <errno.h>
#include <poll.h>
#include <signal.h>
#include <stdio.h>

static const uint64_t LONGEST_END = 10000000000; /* nanoseconds, in which a process that was killed has to end */

static const uint64_t A_WHILE = 500000000; /* so long others have to wait, until they are taken for waiting without an end */

static bool ended_command;

/* Waits until no thread of the process is left, so that its files are closed and its locks are free, also those that are open here. */
static enum answer wait_until_ended(struct call *call, int handle) {
    struct pollfd end = {handle, POLLIN, 0};
    uint64_t until = now() + LONGEST_END;
    while (poll(&end, 1, 100) <= 0)
        if (now() > until) lose("can't follow the run, since a process that was killed doesn't end:", call->thread->name);
    close(handle);
    ended_command |= call->thread->process == command();
    call->is_answered = true;
    forget_ended();
    note_all_stores();
    return OVER;
}

static int handle_of_process(const struct call *call) {
    int handle = had((int)syscall(SYS_pidfd_open, call->thread->process, 0));
    if (handle < 0) lose("can't follow the end of a process", strerror(errno));
    return handle;
}

/* By the handle and not by its number, which another process may have as soon as this one has ended. One that has ended needs no signal. */
static void send_signal(int handle, int signal) { (void)!syscall(SYS_pidfd_send_signal, handle, signal, NULL, 0); }

enum answer end_process(struct call *call) {
    int handle = handle_of_process(call);
    flush_hit(call);
    send_signal(handle, SIGKILL);
    return wait_until_ended(call, handle);
}

/* A signal for a process goes to its first thread, unless that blocks it. If it goes to another one, its handler runs beside the call. */
static bool is_for(const struct thread *thread) { return thread->number == thread->process && has_signal(thread); }

enum answer ask_to_end(struct call *call) {
    int handle = handle_of_process(call);
    flush_hit(call);
    send_signal(handle, SIGTERM);
    if (has_fatal_signal(call->thread) || !still_waits(call)) return wait_until_ended(call, handle);
    close(handle);
    if (!is_for(call->thread)) return GO;
    let_handle(call);
    return OVER;
}

/* ---- what is left without the command */

/* The calls that wait for some time at most: the number of the argument that says how long, or 0 if there is a limit in any case. */
static const struct {
    int number, argument;
    bool is_pointer;
} limited[] = {
    {SYS_nanosleep, 0, false},   {SYS_clock_nanosleep, 0, false}, {SYS_restart_syscall, 0, false}, {SYS_poll, 3, false},
    {SYS_epoll_wait, 4, false},  {SYS_epoll_pwait, 4, false},     {SYS_epoll_pwait2, 4, true},     {SYS_ppoll, 3, true},
    {SYS_select, 5, true},       {SYS_pselect6, 5, true},         {SYS_futex, 4, true},            {SYS_rt_sigtimedwait, 3, true},
    {SYS_semtimedop, 4, true},
};

static bool has_limit(int number, const unsigned long long *arguments) {
    for (size_t i = 0; i < sizeof limited / sizeof *limited; i++) {
        if (limited[i].number != number) continue;
        if (!limited[i].argument) return true;
        unsigned long long limit = arguments[limited[i].argument - 1];
        return limited[i].is_pointer ? limit != 0 : (int)limit >= 0;
    }
    return false;
}

static bool is_gone(pid_t thread) {
    const char *state = status_of(&(struct thread){.number = thread}, "State:\t");
    return !state || *state == 'Z' || *state == 'X';
}

static bool waits_without_end(pid_t process, pid_t thread) {
    char path[64];
    int number = -1;
    unsigned long long with[6] = {0};
    (void)process;
    if (is_gone(thread)) return true;
    snprintf(path, sizeof path, "/proc/%d/syscall", thread);
    FILE *file = fopen(path, "re");
    bool waits = file && fscanf(file, "%d %llx %llx %llx %llx %llx %llx", &number, &with[0], &with[1], &with[2], &with[3], &with[4], &with[5]) == 7;
    if (file) fclose(file);
    return waits && !has_limit(number, with);
}

bool is_left_waiting(void) {
    static uint64_t since;
    bool waits = ended_command && !command_runs() && all_wait_here() && each_thread(waits_without_end);
    if (!waits) since = 0;
    else if (!since) since = now();
    return waits && now() - since > A_WHILE;
}
