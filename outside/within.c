/* within SECONDS BYTES COMMAND [WORD..]: runs a command in a session of its own, and when that ends, ends all that it started, in any session. If root
   runs it, the command also has shared memory, semaphores and message queues (System V) of its own, which end with its last process.

   After SECONDS the command's group gets a TERM. If the command hasn't ended five seconds later, everything is killed. The same happens if this
   program gets a HUP, INT or TERM, if the process that started it has ended, or if descriptor 3 is a pipe that nobody reads any more. Processes
   that the command leaves running at its end have a moment to end too. Then they are killed, and a line on standard error names each of them. At
   most BYTES bytes of the command's standard output are passed on, and then it can't write any more. If BYTES is `-`, the command writes to this
   program's own standard output.

   It ends with the command's status, or with 128 and the number of the signal that ended the command. It ends with 124 if it had the command ended,
   and with 125 if it can't do its work. */
#define _GNU_SOURCE
#include <ctype.h>
#include <dirent.h>
#include <errno.h>
#include <fcntl.h>
#include <poll.h>
#include <sched.h>
#include <signal.h>
#include <stdbool.h>
#include <stdio.h>
#include <stdlib.h>
#include <string.h>
#include <sys/prctl.h>
#include <sys/signalfd.h>
#include <sys/wait.h>
#include <time.h>
#include <unistd.h>

enum { ENDED_IT = 124, CANNOT = 125, NOT_FOUND = 127 };
enum { READER = 3 };

struct run {
    const char *scenario; /* the last word, which names the run in messages */
    pid_t command;
    bool ended, asked; /* whether the command has ended, and whether it was asked to end */
    bool torn;         /* whether its output couldn't be passed on */
    int status;
    long long until;   /* when it is asked to end, and after that, when it is killed; in milliseconds */
    int output;        /* the end of the pipe from which its output is read; -1 once nothing more is passed on */
    size_t left;       /* how many more bytes are passed on; 0 from the beginning if the command has this program's own output */
};

static void refuse(const char *what) {
    fprintf(stderr, "within: %s: %s\n", what, strerror(errno));
    exit(CANNOT);
}

static long long now(void) {
    struct timespec time;
    clock_gettime(CLOCK_MONOTONIC, &time);
    return time.tv_sec * 1000LL + time.tv_nsec / 1000000;
}

static void start(struct run *run, char **words, const sigset_t *signals_before) {
    int ends[2] = {-1, -1};
    if (run->left && (pipe2(ends, O_CLOEXEC) || fcntl(ends[0], F_SETFL, O_NONBLOCK))) refuse("pipe");
    run->output = ends[0];
    run->command = fork();
    if (run->command < 0) refuse("fork");
    if (run->command > 0) {
        if (ends[1] >= 0) close(ends[1]);
        return;
    }
    setsid();
    unshare(CLONE_NEWIPC); /* only root may; for other users the command goes on with the shared memory of the system */
    sigprocmask(SIG_SETMASK, signals_before, NULL);
    if (ends[1] >= 0) dup2(ends[1], STDOUT_FILENO);
    execvp(words[0], words);
    fprintf(stderr, "within: %s: %s\n", words[0], strerror(errno));
    _exit(NOT_FOUND);
}

/* Writes all bytes. Returns false if that can't be done. */
static bool write_all(const char *bytes, ssize_t length) {
    for (ssize_t written; length > 0; bytes += written, length -= written)
        if ((written = write(STDOUT_FILENO, bytes, length)) < 0) return false;
    return true;
}

/* Passes on some of the command's output. Returns whether there was some, and more may come. */
static bool pass_on(struct run *run) {
    char bytes[65536];
    if (run->output < 0) return false;
    ssize_t length = read(run->output, bytes, run->left < sizeof bytes ? run->left : sizeof bytes);
    if (length < 0) return false;
    if (!write_all(bytes, length)) {
        perror("within: standard output");
        run->torn = true;
    }
    run->left -= length;
    if (length > 0 && run->left > 0 && !run->torn) return true;
    close(run->output);
    run->output = -1;
    return false;
}

/* Takes note of the children that have ended. Returns whether there are others. */
static bool has_children(struct run *run) {
    pid_t pid;
    for (int status; (pid = waitpid(-1, &status, WNOHANG)) > 0;)
        if (pid == run->command) run->ended = true, run->status = status;
    return pid == 0;
}

static void ask_to_end(struct run *run) {
    if (run->asked) return;
    if (kill(-run->command, SIGTERM)) kill(run->command, SIGTERM); /* it may not have its session yet */
    run->asked = true;
    run->until = now() + 5000;
}

/* Waits until the command has ended, or until it is time to kill it. */
static void watch(struct run *run, int signals) {
    struct pollfd watched[] = {{.fd = signals, .events = POLLIN}, {.events = POLLIN}, {.fd = READER}};
    while (!run->ended && !(run->asked && now() >= run->until)) {
        struct signalfd_siginfo signal;
        long long left = run->until - now();
        watched[1].fd = run->output;
        poll(watched, 3, left < 0 ? 0 : left < 1000000 ? left : 1000000);
        if (now() >= run->until) ask_to_end(run);
        if (watched[1].revents) pass_on(run);
        if (watched[2].revents) watched[2].fd = -1;
        if (watched[2].revents & (POLLERR | POLLHUP)) ask_to_end(run);
        if (watched[0].revents && read(signals, &signal, sizeof signal) == sizeof signal && signal.ssi_signo != SIGCHLD) ask_to_end(run);
        has_children(run);
    }
}

/* Returns whether a process is a child of this one, and writes its name. */
static bool is_child(const char *pid, char name[100]) {
    char path[300], line[1000];
    int parent = 0;
    snprintf(path, sizeof path, "/proc/%s/status", pid);
    FILE *status = isdigit((unsigned char)pid[0]) ? fopen(path, "re") : NULL;
    while (status && fgets(line, sizeof line, status))
        if (!sscanf(line, "Name: %99[^\n]", name)) sscanf(line, "PPid: %d", &parent);
    if (status) fclose(status);
    return parent == getpid();
}

static void tell(const struct run *run, const char *what, const char *name) {
    fprintf(stderr, "within: %s: ", what);
    for (; *name; name++) fprintf(stderr, iscntrl((unsigned char)*name) ? "\\x%02x" : "%c", (unsigned char)*name);
    fprintf(stderr, ": %s\n", run->scenario);
}

/* Kills the children, and prints the names of those that nobody asked to end. Returns whether there were any: then their own children may have
   become children of this process. */
static bool kill_children(struct run *run) {
    bool killed = false;
    char name[100];
    DIR *processes = opendir("/proc");
    if (!processes) refuse("/proc");
    for (struct dirent *entry; (entry = readdir(processes));) {
        if (!is_child(entry->d_name, name)) continue;
        pid_t pid = atoi(entry->d_name);
        if (kill(pid, SIGKILL)) tell(run, "can't kill a process that was left running", name);
        else if (waitpid(pid, NULL, 0) == pid) {
            killed = true;
            if (!run->asked) tell(run, "killed a process that was left running", name);
        }
    }
    closedir(processes);
    return killed;
}

static long long number(const char *word) {
    char *end;
    long long value = strtoll(word, &end, 10);
    errno = EINVAL;
    if (end == word || *end || value <= 0 || value > 1LL << 40) refuse(word);
    return value;
}

int main(int count, char **words) {
    errno = EINVAL;
    if (count < 4) refuse("SECONDS BYTES COMMAND [WORD..]");
    sigset_t watched, before;
    setvbuf(stderr, NULL, _IOLBF, BUFSIZ); /* lines of several runs at once stay whole */
    sigemptyset(&watched);
    for (int each = 0; each < 4; each++) sigaddset(&watched, (int[]){SIGCHLD, SIGHUP, SIGINT, SIGTERM}[each]);
    sigprocmask(SIG_BLOCK, &watched, &before);
    int signals = signalfd(-1, &watched, SFD_CLOEXEC);
    if (signals < 0 || prctl(PR_SET_CHILD_SUBREAPER, 1) || prctl(PR_SET_PDEATHSIG, SIGTERM)) refuse("can't watch");
    fcntl(READER, F_SETFD, FD_CLOEXEC);

    struct run run = {.scenario = words[count - 1], .until = now() + number(words[1]) * 1000, .left = strcmp(words[2], "-") ? number(words[2]) : 0};
    start(&run, words + 3, &before);
    watch(&run, signals);
    while (pass_on(&run)) continue;
    for (long long moment = now() + 500; run.ended && now() < moment && has_children(&run);) poll(NULL, 0, 10);
    while (has_children(&run) && kill_children(&run)) continue;
    if (run.torn) return CANNOT;
    if (run.asked) return ENDED_IT;
    return WIFSIGNALED(run.status) ? 128 + WTERMSIG(run.status) : WEXITSTATUS(run.status);
}
