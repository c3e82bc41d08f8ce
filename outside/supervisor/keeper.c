#define _GNU_SOURCE
#include "keeper.h"

#include "crashes.h"
#include "operations.h"

#include "../run/whole.h"
#include "variables.h"

#include <dirent.h>
#include <errno.h>
#include <fcntl.h>
#include <linux/openat2.h>
#include <poll.h>
#include <signal.h>
#include <stdio.h>
#include <stdlib.h>
#include <string.h>
#include <sys/mman.h>
#include <sys/personality.h>
#include <sys/prctl.h>
#include <sys/socket.h>
#include <sys/syscall.h>
#include <sys/uio.h>
#include <sys/wait.h>
#include <time.h>
#include <unistd.h>

enum { MOST_CRASHES = 256 };

/* Memory that the supervisor, the keeper and the command's first process share. Messages between them would be calls that are looked at. */
enum step { STARTED, LISTENS, FAILED };
static struct {
    int step;
    int listener, error;
    pid_t command;
    int status, command_ended;
    int ends_all; /* whether the supervisor wants every process to be ended */
    int crash_count;
    struct crash crashes[MOST_CRASHES]; /* more of them aren't told */
} *shared;

static int hearing[2] = {-1, -1}; /* a pipe to which the supervisor writes once it has the listener */
static int telling[2] = {-1, -1}; /* sockets, of which the command's process shuts one when it has set its step: a call that isn't looked at */
static pid_t keeper;
static sigset_t signals_before;

pid_t command(void) { return shared->command; }

bool command_runs(void) { return shared->command && !__atomic_load_n(&shared->command_ended, __ATOMIC_SEQ_CST); }

/* ---- all processes of the run */

static bool each_thread_of(pid_t process, int depth, bool (*sees)(pid_t process, pid_t thread));

static bool each_child_of(pid_t process, pid_t thread, int depth, bool (*sees)(pid_t process, pid_t thread)) {
    char path[64];
    int child;
    bool all = true;
    snprintf(path, sizeof path, "/proc/%d/task/%d/children", process, thread);
    FILE *children = fopen(path, "re");
    while (children && all && fscanf(children, "%d", &child) == 1) all = each_thread_of(child, depth + 1, sees);
    if (children) fclose(children);
    return all;
}

/* The process at the top, the keeper or this one, isn't one of the run. */
static bool each_thread_of(pid_t process, int depth, bool (*sees)(pid_t process, pid_t thread)) {
    char path[64];
    bool all = true;
    snprintf(path, sizeof path, "/proc/%d/task", process);
    DIR *threads = depth < 1000 ? opendir(path) : NULL;
    for (struct dirent *entry; threads && all && (entry = readdir(threads));) {
        pid_t thread = atoi(entry->d_name);
        if (!thread) continue;
        if (depth) all = sees(process, thread);
        if (all) all = each_child_of(process, thread, depth, sees);
    }
    if (threads) closedir(threads);
    return all;
}

bool each_thread(bool (*sees)(pid_t process, pid_t thread)) { return each_thread_of(keeper, 0, sees); }

static bool end_one(pid_t process, pid_t thread) {
    if (process == thread) kill(process, SIGKILL);
    return true;
}

/* ---- the keeper */

/* Notes a crash of a process that nobody has waited for yet, so that it still has its name. */
static void note_crash(const siginfo_t *ended) {
    char path[64];
    struct crash *crash = &shared->crashes[shared->crash_count];
    bool is_killed = ended->si_code == CLD_KILLED || ended->si_code == CLD_DUMPED;
    if (!is_killed || !is_crash(ended->si_status) || shared->crash_count == MOST_CRASHES) return;
    snprintf(path, sizeof path, "/proc/%d/comm", ended->si_pid);
    int file = open(path, O_RDONLY | O_CLOEXEC);
    ssize_t length = file < 0 ? 0 : read(file, crash->program, sizeof crash->program);
    if (file >= 0) close(file);
    crash->program[length > 0 ? length - 1 : 0] = 0; /* in place of the line feed */
    crash->process = ended->si_pid;
    crash->signal = ended->si_status;
    __atomic_add_fetch(&shared->crash_count, 1, __ATOMIC_SEQ_CST);
}

static bool reap(void) {
    siginfo_t ended;
    int status;
    while (ended.si_pid = 0, !waitid(P_ALL, 0, &ended, WEXITED | WNOHANG | WNOWAIT)) {
        if (!ended.si_pid) return true; /* some children are left */
        note_crash(&ended);
        waitpid(ended.si_pid, &status, 0);
        if (ended.si_pid != shared->command) continue;
        shared->status = status;
        __atomic_store_n(&shared->command_ended, 1, __ATOMIC_SEQ_CST);
    }
    return false;
}

/* Waits until no process is left. If the supervisor is gone, or wants it, it ends every process, also one that starts others meanwhile. For this it
   has all descriptors that the system gives to a process. */
static _Noreturn void keep(pid_t supervisor, const sigset_t *awaited) {
    close_range(0, ~0U, 0);
    for (;;) {
        bool ends_all = getppid() != supervisor || __atomic_load_n(&shared->ends_all, __ATOMIC_SEQ_CST);
        struct timespec pause = {0, 1000000};
        if (!reap()) _exit(0);
        if (ends_all) each_thread(end_one);
        sigtimedwait(awaited, NULL, ends_all ? &pause : NULL);
    }
}

/* ---- the command's first process */

static void say(enum step step) {
    __atomic_store_n(&shared->step, step, __ATOMIC_SEQ_CST);
    shutdown(telling[0], SHUT_RDWR);
}

static bool hears(enum step before, int milliseconds) {
    struct pollfd told = {telling[1], POLLIN, 0};
    while (poll(&told, 1, milliseconds) < 0 && errno == EINTR) continue;
    return __atomic_load_n(&shared->step, __ATOMIC_SEQ_CST) != (int)before;
}

/* Waits for the supervisor. Returns false if that is gone. */
static bool is_heard(void) {
    struct pollfd heard = {hearing[0], POLLIN, 0};
    while (poll(&heard, 1, -1) < 0 && errno == EINTR) continue;
    return heard.revents & POLLIN;
}

/* It runs in the memory of the keeper, which waits meanwhile. */
static _Noreturn void run_command(char **words, const struct looks *looks) {
    shared->command = getpid();
    if (looks->random) personality(ADDR_NO_RANDOMIZE); /* some programs take random numbers from addresses */
    shared->listener = set_filter(looks);
    shared->error = errno;
    say(shared->listener < 0 ? FAILED : LISTENS);
    if (shared->listener < 0 || !is_heard()) _exit(REFUSED);
    close(shared->listener); /* so that calls fail, and don't wait, if the supervisor is killed from now on */
    sigprocmask(SIG_SETMASK, &signals_before, NULL);
    take_input();
    execvp(words[0], words);
    char line[4 * PATH_MAX + 128], *end = escaped(stpcpy(line, "faults: "), strndupa(words[0], PATH_MAX));
    end += sprintf(end, ": %s\n", strerror(errno));
    write_whole(2, line, (size_t)(end - line));
    _exit(127);
}

static _Noreturn void run_keeper(pid_t supervisor, char **words, const struct looks *looks) {
    sigset_t all, awaited;
    sigfillset(&all);
    sigprocmask(SIG_SETMASK, &all, NULL);
    sigemptyset(&awaited);
    sigaddset(&awaited, SIGCHLD);
    sigaddset(&awaited, SIGUSR1);
    keeper = getpid();
    close(hearing[1]);
    close(telling[1]);
    prctl(PR_SET_CHILD_SUBREAPER, 1, 0, 0, 0);
    prctl(PR_SET_PDEATHSIG, SIGUSR1, 0, 0, 0);
    pid_t made = vfork();
    if (!made) run_command(words, looks);
    if (made < 0) say(FAILED);
    keep(supervisor, &awaited);
}

/* ---- the supervisor's side */

/* Gets the listener, and checks what the system must allow in addition to the filter. */
static int hear_listener(void) {
    char probe;
    int handle = (int)syscall(SYS_pidfd_open, shared->command, 0);
    if (handle < 0) refuse("the system lacks pidfd_open, or forbids it", strerror(errno));
    int listener = (int)syscall(SYS_pidfd_getfd, handle, shared->listener, 0);
    if (listener < 0) refuse("the system lacks pidfd_getfd, or forbids it", strerror(errno));
    struct iovec here = {&probe, 1}, there = {shared, 1};
    if (process_vm_readv(shared->command, &here, 1, &there, 1, 0) != 1)
        refuse("the system forbids process_vm_readv", strerror(errno));
    if (process_vm_writev(shared->command, &here, 1, &there, 1, 0) != 1)
        refuse("the system forbids process_vm_writev", strerror(errno));
    close(handle);
    return listener;
}

/* Checks what can be known before the command starts. Without openat2, names with a folder in them would go unseen. */
static void check_system(void) {
    struct open_how how = {.flags = O_PATH | O_CLOEXEC};
    int folder = (int)syscall(SYS_openat2, AT_FDCWD, "/", &how, sizeof how);
    if (folder < 0) refuse("the system lacks openat2, or forbids it", strerror(errno));
    close(folder);
    if (access("/proc/thread-self/children", R_OK)) refuse("the system lacks /proc/PID/task/TID/children", strerror(errno));
}

int start_command(char **words, const struct looks *looks) {
    pid_t supervisor = getpid();
    check_system();
    shared = mmap(NULL, sizeof *shared, PROT_READ | PROT_WRITE, MAP_SHARED | MAP_ANONYMOUS, -1, 0);
    if (shared == MAP_FAILED || pipe2(hearing, O_CLOEXEC)) refuse("memory", strerror(errno));
    if (socketpair(AF_UNIX, SOCK_STREAM | SOCK_CLOEXEC, 0, telling)) refuse("the system forbids a pair of sockets", strerror(errno));
    sigprocmask(SIG_SETMASK, NULL, &signals_before);
    prctl(PR_SET_CHILD_SUBREAPER, 1, 0, 0, 0); /* if the keeper is killed, what it kept can be ended */
    keeper = fork();
    if (keeper < 0) refuse("can't start a process", strerror(errno));
    if (!keeper) run_keeper(supervisor, words, looks);
    close(telling[0]);
    if (!hears(STARTED, 10000)) refuse("can't start a process", "it didn't begin within ten seconds");
    if (shared->step == FAILED)
        refuse("the system lacks seccomp with SECCOMP_FILTER_FLAG_WAIT_KILLABLE_RECV (Linux 5.19), or forbids it",
            strerror(shared->error));
    int listener = hear_listener();
    if (write(hearing[1], "", 1) != 1) refuse("can't start the command", strerror(errno));
    close(hearing[0]);
    close(hearing[1]);
    hearing[1] = -1;
    close(telling[1]);
    return listener;
}

/* Without the keeper: ends what it kept. Other descriptors than those of /proc aren't needed any more. */
static void end_orphans(void) {
    close_range(3, ~0U, 0);
    while (waitpid(-1, NULL, WNOHANG) >= 0 || errno == EINTR) {
        each_thread_of(getpid(), 0, end_one);
        nanosleep(&(struct timespec){0, 200000}, NULL);
    }
}

const struct crash *next_crash(void) {
    static int seen;
    return shared && seen < __atomic_load_n(&shared->crash_count, __ATOMIC_SEQ_CST) ? &shared->crashes[seen++] : NULL;
}

bool has_ended(int *status) {
    int how;
    if (!keeper || waitpid(keeper, &how, WNOHANG) != keeper) return false;
    keeper = 0;
    *status = shared->status;
    if (WIFEXITED(how)) return true;
    end_orphans();
    refuse("can't follow the run", "the process that keeps its processes together was killed");
}

void wait_for_end(void) {
    siginfo_t ended;
    while (waitid(P_PID, (id_t)keeper, &ended, WEXITED | WNOWAIT) && errno == EINTR) continue;
}

int end_all(void) {
    struct timespec pause = {0, 200000};
    int status = 0;
    if (!keeper) return status;
    if (hearing[1] >= 0) close(hearing[1]); /* the command still waits for the listener, and the keeper for the command */
    __atomic_store_n(&shared->ends_all, 1, __ATOMIC_SEQ_CST);
    kill(keeper, SIGUSR1);
    while (!has_ended(&status)) nanosleep(&pause, NULL);
    return status;
}
