#define _GNU_SOURCE
#include "crashes.h"

#include "../run/whole.h"
#include "keeper.h"

#include <errno.h>
#include <signal.h>
#include <stdio.h>
#include <sys/epoll.h>
#include <sys/ioctl.h>
#include <sys/wait.h>

enum { MOST_TOLD = 256, AT_ONCE = 64 };

/* What the system says of a process by its handle. It tells how a process ended since Linux 6.15, once somebody has waited for that process. */
struct told_by_handle {
    uint64_t mask, group;
    uint32_t ids[11];
    int32_t status; /* as wait has it */
};
#define TELL_BY_HANDLE _IOWR(0xff, 11, struct told_by_handle)
static const uint64_t TELLS_STATUS = 8;

bool is_crash(int signal) {
    static const int crashes[] = {SIGILL, SIGTRAP, SIGABRT, SIGBUS, SIGFPE, SIGSEGV, SIGSYS};
    for (size_t i = 0; i < sizeof crashes / sizeof *crashes; i++)
        if (crashes[i] == signal) return true;
    return false;
}

/* ---- a line */

/* Whether a process was told. The keeper and a handle may both have seen its end. */
static bool was_told(int process) {
    static int told[MOST_TOLD];
    static unsigned next;
    for (int i = 0; i < MOST_TOLD; i++)
        if (told[i] == process) return true;
    told[next++ % MOST_TOLD] = process;
    return false;
}

static void tell(int process, int signal, const char *program) {
    char path[LONG_PATH], line[5 * NAME_MAX + 64], *end;
    if (was_told(process)) return;
    snprintf(path, sizeof path, "%s/crashes", run_folder);
    int file = had(open(path, O_WRONLY | O_CREAT | O_APPEND | O_CLOEXEC, 0600));
    end = written_number(line, state->number);
    end = escaped(stpcpy(stpcpy(stpcpy(end, "\tSIG"), sigabbrev_np(signal)), "\t"), program);
    *end++ = '\n';
    if (file < 0 || !write_whole(file, line, (size_t)(end - line))) refuse("can't write the crashes", strerror(errno));
    close(file);
}

/* ---- by the handles of threads */

static int ends = -1;

void watch_end(struct thread *thread) {
    struct epoll_event event = {.data.ptr = thread}; /* it comes once somebody has waited for the process */
    if (ends < 0) ends = had(epoll_create1(EPOLL_CLOEXEC));
    epoll_ctl(ends, EPOLL_CTL_ADD, thread->handle, &event);
}

/* Asks how a process ended. Returns false if that isn't known. */
static bool ask_status(int handle, int *status) {
    struct told_by_handle told = {.mask = TELLS_STATUS};
    if (ioctl(handle, TELL_BY_HANDLE, &told) || !(told.mask & TELLS_STATUS)) return false;
    *status = told.status;
    return true;
}

void see_end(const struct thread *thread) {
    int status;
    if (ask_status(thread->handle, &status) && is_crash(WTERMSIG(status))) tell(thread->process, WTERMSIG(status), thread->name);
}

void note_crashes(void) {
    struct epoll_event events[AT_ONCE];
    for (const struct crash *crash; (crash = next_crash());) tell(crash->process, crash->signal, crash->program);
    for (int count; ends >= 0 && (count = epoll_wait(ends, events, AT_ONCE, 0)) > 0;)
        for (int i = 0; i < count; i++) {
            const struct thread *thread = events[i].data.ptr;
            see_end(thread);
            epoll_ctl(ends, EPOLL_CTL_DEL, thread->handle, NULL);
        }
}

/* ---- by the status of the command */

/* Whether the system tells how a process ended. */
static bool is_told(void) {
    int status;
    pid_t made = fork();
    if (!made) _exit(0);
    int handle = made < 0 ? -1 : (int)syscall(SYS_pidfd_open, made, 0);
    while (made > 0 && waitpid(made, NULL, 0) < 0 && errno == EINTR) continue;
    bool told = handle >= 0 && ask_status(handle, &status);
    if (handle >= 0) close(handle);
    return told;
}

void note_status(int status, const char *name) {
    const char *slash = strrchr(name, '/');
    if (WIFEXITED(status) && is_crash(WEXITSTATUS(status) - 128) && !is_told())
        tell(command(), WEXITSTATUS(status) - 128, slash ? slash + 1 : name);
}
