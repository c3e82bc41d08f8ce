/* kinds CASE [own]: does what a fault of that kind does to a program, and says how it went, a line for each step. With `own` the system itself does it: a
   signal comes, a process is killed, a limit is there, the disk is full. Without, it goes under the supervisor, whose scenario has the fault. Both must
   say the same. It is started in the folder of its data.

     interrupted   a read that a signal ends, and that is made again
     restarted     the same where the handler has SA_RESTART (with `own` alone)
     short         a write and a read that move a half
     killed        one of two processes is killed between two writes, while it holds locks
     told_to_end   SIGTERM comes before the second write: to a process with a handler, one that ignores it, and one that does neither
     full          the disk is full until something is deleted; `own` fills it, so it has to be a small one */
#define _GNU_SOURCE
#include <errno.h>
#include <fcntl.h>
#include <signal.h>
#include <stdbool.h>
#include <stdio.h>
#include <stdlib.h>
#include <string.h>
#include <sys/file.h>
#include <sys/resource.h>
#include <sys/stat.h>
#include <sys/time.h>
#include <sys/wait.h>
#include <unistd.h>

static bool own;

static void must(bool done, const char *what) {
    if (done) return;
    perror(what);
    exit(1);
}

static void say(const char *what, long result) {
    if (result < 0) printf("%s %s\n", what, strerrorname_np(errno));
    else printf("%s %ld\n", what, result);
    fflush(stdout);
}

static int opened(const char *name, int flags) {
    int file = open(name, flags | O_CLOEXEC, 0600);
    must(file >= 0, name);
    return file;
}

/* ---- signals */

static volatile sig_atomic_t handled;
static volatile off_t length_then = -1; /* of the file, when the handler ran */
static int file = -1;

static void on_signal(int number) {
    struct stat told;
    (void)number;
    handled++;
    length_then = file >= 0 && !fstat(file, &told) ? told.st_size : -1;
}

static void handle(int signal, int flags) {
    struct sigaction action = {.sa_handler = on_signal, .sa_flags = flags};
    must(!sigaction(signal, &action, NULL), "sigaction");
}

static void waits_for_read(int flags) {
    char byte;
    int ends[2];
    must(own ? !pipe(ends) : (ends[0] = opened("old", O_RDONLY)) >= 0, "pipe");
    handle(SIGALRM, flags);
    pid_t writer = own ? fork() : 0;
    if (own && !writer) usleep(200000), _exit(write(ends[1], "0", 1) != 1);
    if (own) setitimer(ITIMER_REAL, &(struct itimerval){.it_value = {0, 50000}}, NULL);
    say("read", read(ends[0], &byte, 1));
    if (!(flags & SA_RESTART)) say("read", read(ends[0], &byte, 1));
    if (flags & SA_RESTART) say("handled", handled);
}

static void interrupted(void) { waits_for_read(0); }
static void restarted(void) { waits_for_read(SA_RESTART); }

/* ---- halves */

static void short_moves(void) {
    char bytes[20];
    int ends[2];
    struct rlimit limit;
    file = opened("new", O_WRONLY | O_CREAT);
    must(!getrlimit(RLIMIT_FSIZE, &limit), "RLIMIT_FSIZE");
    if (own) must(!setrlimit(RLIMIT_FSIZE, &(struct rlimit){5, limit.rlim_max}), "RLIMIT_FSIZE");
    long written = write(file, "0123456789", 10);
    must(!setrlimit(RLIMIT_FSIZE, &limit), "RLIMIT_FSIZE");
    say("write", written);
    say("write", write(file, "56789", 5));
    if (own) must(!pipe(ends) && write(ends[1], "01234", 5) == 5, "pipe");
    else ends[0] = opened("old", O_RDONLY);
    say("read", read(ends[0], bytes, sizeof bytes));
    if (own) must(write(ends[1], "56789", 5) == 5, "pipe");
    say("read", read(ends[0], bytes, sizeof bytes));
}

/* ---- one of two processes */

static void hold_and_write(int told) {
    struct flock record = {.l_type = F_WRLCK};
    int lock = opened("lock", O_RDWR | O_CREAT), log = opened("log", O_WRONLY | O_CREAT);
    must(!flock(lock, LOCK_EX) && !fcntl(log, F_SETLK, &record), "lock");
    must(write(log, "a", 1) == 1 && write(told, "", 1) == 1, "log");
    if (own) pause();
    must(write(log, "b", 1) == 1, "log");
    _exit(0);
}

static void killed(void) {
    struct flock record = {.l_type = F_WRLCK};
    struct stat told;
    int ends[2], status;
    char byte;
    must(!pipe(ends), "pipe");
    pid_t worker = fork();
    if (!worker) hold_and_write(ends[1]);
    close(ends[1]);
    must(read(ends[0], &byte, 1) == 1, "pipe");
    if (own) kill(worker, SIGKILL);
    int lock = opened("lock", O_RDWR), log = opened("log", O_WRONLY);
    say("lock", flock(lock, LOCK_EX));
    say("record", fcntl(log, F_SETLKW, &record));
    say("pipe", read(ends[0], &byte, 1));
    must(waitpid(worker, &status, 0) == worker && !fstat(log, &told), "worker");
    say("signal", WIFSIGNALED(status) ? WTERMSIG(status) : 0);
    say("length", told.st_size);
}

/* ---- SIGTERM */

static void write_twice(void) {
    file = opened("log", O_WRONLY | O_CREAT | O_TRUNC);
    say("write", write(file, "a", 1));
    if (own) kill(getpid(), SIGTERM);
    say("write", write(file, "b", 1));
    say("handled", handled);
    say("length then", length_then);
    exit(0);
}

static void in_child(const char *name, void (*disposes)(void)) {
    int status;
    struct stat told;
    say(name, 0);
    pid_t child = fork();
    if (!child) disposes(), write_twice();
    must(waitpid(child, &status, 0) == child && !stat("log", &told), name);
    say("signal", WIFSIGNALED(status) ? WTERMSIG(status) : 0);
    say("length", told.st_size);
}

static void by_handler(void) { handle(SIGTERM, 0); }
static void by_ignoring(void) { signal(SIGTERM, SIG_IGN); }
static void by_nothing(void) {}

static void told_to_end(void) {
    in_child("handles", by_handler);
    in_child("ignores", by_ignoring);
    in_child("neither", by_nothing);
}

/* ---- a full disk */

static void fill(void) {
    char page[4096] = {0};
    int filler = opened("filler", O_WRONLY | O_CREAT);
    while (write(filler, page, sizeof page) > 0) continue;
    must(errno == ENOSPC, "filler");
    for (char name[] = "a"; *name <= 'z'; ++*name)
        if (mkdir(name, 0700)) return;
    must(false, "more than 26 folders");
}

static void full(void) {
    int spare = opened("spare", O_RDWR | O_CREAT), log = opened("log", O_RDWR | O_CREAT);
    must(write(spare, "0123456789", 10) == 10 && write(log, "01234", 5) == 5, "spare");
    if (own) fill();
    say("write beyond", pwrite(log, "x", 1, 1 << 16));
    say("write within", pwrite(log, "56789", 5, 0));
    say("create", open("new", O_WRONLY | O_CREAT, 0600));
    say("open", open("log", O_RDONLY) < 0);
    say("mkdir", mkdir("folder", 0700));
    say("symlink", symlink("log", "way"));
    say("link", link("log", "other"));
    say("fallocate", fallocate(log, 0, 1 << 16, 1));
    say("unlink", unlink("spare") + close(spare));
    say("create", open("new", O_WRONLY | O_CREAT, 0600) < 0);
    say("write beyond", pwrite(log, "x", 1, 1 << 16));
}

int main(int count, char **words) {
    static const struct {
        const char *name;
        void (*does)(void);
    } cases[] = {{"interrupted", interrupted}, {"restarted", restarted}, {"short", short_moves}, {"killed", killed},
        {"told_to_end", told_to_end}, {"full", full}};
    own = count > 2;
    for (size_t i = 0; count > 1 && i < sizeof cases / sizeof *cases; i++)
        if (!strcmp(cases[i].name, words[1])) return cases[i].does(), 0;
    return 2;
}
