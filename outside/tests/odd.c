/* odd CASE [WORD..]: what a program may do that a library inside of it doesn't see, or falls over. In a folder with the file `old`, ten
   digits, and the folder `sub` with the file `in`. */
#define _GNU_SOURCE
#include <errno.h>
#include <fcntl.h>
#include <grp.h>
#include <linux/capability.h>
#include <linux/filter.h>
#include <linux/openat2.h>
#include <linux/seccomp.h>
#include <pthread.h>
#include <signal.h>
#include <spawn.h>
#include <stdio.h>
#include <stdlib.h>
#include <string.h>
#include <sys/file.h>
#include <sys/ioctl.h>
#include <sys/mman.h>
#include <sys/prctl.h>
#include <sys/resource.h>
#include <sys/sendfile.h>
#include <sys/socket.h>
#include <sys/stat.h>
#include <sys/syscall.h>
#include <sys/time.h>
#include <sys/uio.h>
#include <sys/wait.h>
#include <unistd.h>

enum { PAGE = 4096 };
extern char **environ;

static int old(int flags) { return open("old", flags); }
static int wrong(const char *what) { return fprintf(stderr, "odd: %s: %s\n", what, strerror(errno)), 1; }
static char *mapped(int file, size_t length, int protection) { return mmap(NULL, length, protection, MAP_SHARED, file, 0); }

/* ---- calls by the system's own interface */

static int raw(char **words) {
    (void)words;
    long file = syscall(SYS_open, "a", O_CREAT | O_RDWR, 0644);
    return syscall(SYS_write, file, "hello", 5) != 5 || syscall(SYS_fsync, file);
}

static int bad_parts(char **words) {
    (void)words;
    void *volatile nowhere = (void *)1;
    int file = old(O_RDWR);
    if (syscall(SYS_writev, file, NULL, 1) != -1 || errno != EFAULT) return wrong("writev of nothing");
    if (write(file, nowhere, 4) != -1 || errno != EFAULT) return wrong("write of nothing");
    if (read(file, nowhere, 4) != -1 || errno != EFAULT) return wrong("read to nothing");
    if (lseek(file, 0, SEEK_CUR) != 0) return wrong("where the file is");
    return pwrite(file, "x", 1, -1) != -1 || errno != EINVAL ? wrong("pwrite before the file") : 0;
}

static int read_only(char **words) {
    (void)words;
    return write(old(O_RDONLY), "x", 1) != -1 || errno != EBADF ? wrong("write of a file that is read") : 0;
}

static int direct(char **words) {
    (void)words;
    void *bytes;
    int file = old(O_RDWR | O_DIRECT);
    if (file < 0) return errno == EINVAL ? 0 : wrong("open"); /* a file system in memory of an older system */
    if (posix_memalign(&bytes, PAGE, PAGE)) return 1;
    memset(bytes, 'D', PAGE);
    return pwrite(file, bytes, PAGE, 0) != PAGE ? wrong("pwrite") : 0;
}

static int as_output(char **words) {
    (void)words;
    if (dup2(old(O_RDWR | O_TRUNC), 1) < 0) return 1;
    return printf("through it\n") < 0 || fflush(stdout) || fsync(1);
}

static int own_folder(char **words) {
    char path[64];
    int file = old(O_RDWR);
    sprintf(path, words[0], file);
    if (chdir("sub")) return wrong("sub"); /* which isn't the supervisor's */
    int other = open(path, O_WRONLY | O_TRUNC);
    return other < 0 || write(other, "by proc", 7) != 7 ? wrong(path) : 0;
}

static int beneath(char **words) {
    struct open_how how = {.flags = O_CREAT | O_RDWR, .mode = 0644, .resolve = RESOLVE_BENEATH};
    int folder = open("sub", O_RDONLY | O_DIRECTORY);
    (void)words;
    if (syscall(SYS_openat2, folder, "../old", &how, sizeof how) != -1 || errno != EXDEV) return wrong("a way out of the folder");
    long file = syscall(SYS_openat2, folder, "a", &how, sizeof how);
    how.resolve = RESOLVE_IN_ROOT;
    if (file < 0 || write((int)file, "beneath", 7) != 7) return wrong("a file of the folder");
    return syscall(SYS_openat2, folder, "/in", &how, sizeof how) < 0 ? wrong("a file of a folder that is a root") : 0;
}

/* Opens that the system refuses before it looks for a file, or on the way to one. */
static int refused(char **words) {
    struct { struct open_how how; unsigned long long more; } asked = {{.flags = O_CREAT | O_RDWR | 1ull << 40, .mode = 0644}, 0};
    struct open_how *how = &asked.how;
    (void)words;
    if (syscall(SYS_openat2, AT_FDCWD, "a", how, sizeof *how) != -1 || errno != EINVAL) return wrong("flags that nobody knows");
    *how = (struct open_how){.flags = O_CREAT | O_RDWR, .mode = 0200644};
    if (syscall(SYS_openat2, AT_FDCWD, "a", how, sizeof *how) != -1 || errno != EINVAL) return wrong("a mode with other bits");
    how->mode = 0644;
    asked.more = 1;
    if (syscall(SYS_openat2, AT_FDCWD, "a", how, sizeof asked) != -1 || errno != E2BIG) return wrong("more than the system knows");
    *how = (struct open_how){.flags = O_RDWR, .resolve = RESOLVE_BENEATH};
    if (syscall(SYS_openat2, AT_FDCWD, "../nothing/a", how, sizeof *how) != -1 || errno != EXDEV) return wrong("a way out of the folder");
    asked.more = 0;
    how->resolve = 0;
    return syscall(SYS_openat2, AT_FDCWD, "old", how, sizeof asked) < 0 ? wrong("zeros behind it") : 0;
}

/* The other calls that make a file longer, where it may have 12 bytes. */
static int lengthened(int file, int from) {
    loff_t at = 10;
    if (!ftruncate(file, 13) || errno != EFBIG || ftruncate(file, 11)) return wrong("ftruncate");
    if (!truncate("old", 13) || errno != EFBIG) return wrong("truncate");
    if (!fallocate(file, 0, 0, 13) || errno != EFBIG || fallocate(file, 0, 0, 12)) return wrong("fallocate");
    if (copy_file_range(from, NULL, file, &at, 6, 0) != 2) return wrong("a copy up to the limit");
    if (copy_file_range(from, NULL, file, &at, 2, 0) != -1 || errno != EFBIG) return wrong("a copy behind it");
    if (lseek(file, 12, SEEK_SET) != 12 || sendfile(file, from, NULL, 2) != -1 || errno != EFBIG) return wrong("sendfile");
    return 0;
}

static int limited(char **words) {
    (void)words;
    signal(SIGXFSZ, SIG_IGN);
    setrlimit(RLIMIT_FSIZE, &(struct rlimit){12, 12});
    int file = old(O_RDWR | O_APPEND);
    if (write(file, "abcd", 4) != 2) return wrong("a write up to the limit");
    if (write(file, "ef", 2) != -1 || errno != EFBIG) return wrong("a write behind the limit");
    return lengthened(old(O_RDWR), open("sub/in", O_RDONLY));
}

static int by_path(char **words) {
    struct stat told;
    int folder = open(words[0], O_PATH | O_DIRECTORY), file = openat(folder, "old", O_PATH);
    if (folder < 0 || file < 0 || fstat(file, &told) || told.st_size != 10) return wrong("a descriptor of a path");
    if (fsync(file) != -1 || errno != EBADF) return wrong("its sync");
    return openat(folder, "nothing", O_PATH) != -1 || errno != ENOENT ? wrong("no file") : 0;
}

static int opened_often(char **words) {
    for (int i = atoi(words[0]); i > 0; i--) {
        int file = old(O_RDWR);
        if (file < 0 || close(file)) return wrong("open");
    }
    return 0;
}

static int few_files(char **words) {
    (void)words;
    setrlimit(RLIMIT_NOFILE, &(struct rlimit){8, 8});
    while (old(O_RDONLY) >= 0) continue;
    if (errno != EMFILE || old(O_RDWR | O_TRUNC) >= 0 || errno != EMFILE) return wrong("old");
    return open("a", O_CREAT | O_RDWR, 0644) >= 0 || errno != EMFILE ? wrong("a") : 0;
}

static int written_at(char **words) {
    int file = open(words[0], O_CREAT | O_RDWR, 0644);
    return file < 0 || write(file, "at", 2) != 2 ? wrong(words[0]) : 0;
}

static int masked(char **words) {
    struct stat told;
    umask((mode_t)strtol(words[0], NULL, 8));
    if (mkdir("made", 0777) || close(open("a", O_CREAT | O_RDWR, 0666)) || mknod("node", S_IFREG | 0666, 0)) return wrong("made");
    return printf("%o ", stat("made", &told) ? 0 : told.st_mode & 0777) < 0 || printf("%o ", stat("a", &told) ? 0 : told.st_mode & 0777) < 0
        || printf("%o\n", stat("node", &told) ? 0 : told.st_mode & 0777) < 0;
}

static int as_other(char **words) {
    struct stat told;
    gid_t groups[] = {4321};
    (void)words;
    if (setgroups(1, groups) || setgid(1234) || setuid(2345)) return wrong("another user");
    if (open("closed", O_RDONLY) >= 0 || errno != EACCES) return wrong("a file of somebody else");
    if (close(open("open/a", O_CREAT | O_RDWR, 0644)) || stat("open/a", &told)) return wrong("a file of its own");
    return printf("%d %d\n", told.st_uid, told.st_gid) < 0;
}

/* As root, but without any of its rights beyond those of a user, what belongs to somebody else. */
static int without_rights(char **words) {
    struct __user_cap_header_struct head = {.version = _LINUX_CAPABILITY_VERSION_3};
    struct __user_cap_data_struct none[2] = {0};
    (void)words;
    if (syscall(SYS_capset, &head, none)) return wrong("capset");
    if (open("theirs/closed", O_RDONLY) >= 0 || errno != EACCES) return wrong("a file that nobody may open");
    if (open("theirs/a", O_CREAT | O_RDWR, 0644) >= 0 || errno != EACCES) return wrong("a file in a folder of somebody else");
    if (!truncate("theirs/closed", 0) || errno != EACCES) return wrong("its length");
    if (!mkdir("theirs/d", 0755) || errno != EACCES) return wrong("a folder");
    if (!rename("theirs/closed", "theirs/open") || errno != EACCES) return wrong("its name");
    return close(open("a", O_CREAT | O_RDWR, 0644)) ? wrong("a file of its own") : 0;
}

/* With a folder as its root, of which no name leads out. */
static int jailed(char **words) {
    struct open_how how = {.flags = O_CREAT | O_RDWR, .mode = 0644, .resolve = RESOLVE_NO_SYMLINKS};
    if (chroot(words[0]) || chdir("/")) return wrong("chroot");
    if (close(open("../made", O_CREAT | O_RDWR, 0644)) || mkdir("/../d", 0755)) return wrong("made");
    if (unlink("../old") != -1 || printf("%s ", strerrorname_np(errno)) < 0) return wrong("../old");
    if (unlink("sub/../../../sub/in") != -1 || printf("%s", strerrorname_np(errno)) < 0) return wrong("../sub/in");
    if (close((int)syscall(SYS_openat2, AT_FDCWD, "/../../further", &how, sizeof how))) return wrong("further");
    if (close(open("way/in_way", O_CREAT | O_RDWR, 0644))) return wrong("way");
    return close(open("sub/up", O_CREAT | O_RDWR, 0644)) ? wrong("up") : 0;
}

/* What is let go must be free at once: a program that was just written is started, a lock goes with its last descriptor. */
static int at_once(char **words) {
    for (int i = 0; i < 200; i++) {
        int from = open(words[0], O_RDONLY), to = open("program", O_CREAT | O_TRUNC | O_WRONLY, 0755), status;
        struct stat told;
        if (fstat(from, &told) || sendfile(to, from, NULL, (size_t)told.st_size) != told.st_size) return wrong("a copy");
        close(from), close(to);
        pid_t made = vfork();
        if (!made) execl("program", "program", "nothing", NULL), _exit(126);
        if (waitpid(made, &status, 0) < 0 || WEXITSTATUS(status)) return wrong("a program that was just written");
        int file = old(O_RDWR);
        if (flock(file, LOCK_EX | LOCK_NB)) return wrong("a lock that nobody has");
        close(file);
    }
    return 0;
}

/* ---- memory */

static int made_writable(char **words) {
    (void)words;
    int file = old(O_RDWR);
    char *memory = mapped(file, 10, PROT_READ);
    if (mprotect(memory, PAGE, PROT_READ | PROT_WRITE)) return wrong("mprotect");
    memory[0] = 'N';
    return msync(memory, 10, MS_SYNC);
}

static int closed_memory(char **words) {
    (void)words;
    int file = old(O_RDWR);
    char *memory = mapped(file, 10, PROT_READ | PROT_WRITE);
    memory[0] = 'N';
    return mprotect(memory, PAGE, PROT_NONE) || fsync(file);
}

static int mapped_over(char **words) {
    (void)words;
    int file = old(O_RDWR);
    char *memory = mapped(file, 10, PROT_READ | PROT_WRITE);
    if (mmap(memory, PAGE, PROT_READ | PROT_WRITE, MAP_PRIVATE | MAP_ANONYMOUS | MAP_FIXED, -1, 0) != memory) return 1;
    memset(memory, 'Z', PAGE);
    return fsync(file);
}

static int middle_unmapped(char **words) {
    (void)words;
    int file = open("a", O_CREAT | O_RDWR, 0644);
    if (ftruncate(file, 3 * PAGE)) return 1;
    char *memory = mapped(file, 3 * PAGE, PROT_READ | PROT_WRITE);
    if (munmap(memory + PAGE, PAGE)) return 1;
    memory[2 * PAGE] = 'T';
    return msync(memory + 2 * PAGE, PAGE, MS_SYNC);
}

/* Twenty times: a store, a sync that fails, a store into another page as soon as it has failed, and a sync that doesn't. */
static int stored_at_once(char **words) {
    int file = open("a", O_CREAT | O_RDWR, 0644), is_fsync = !strcmp(words[0], "fsync");
    if (ftruncate(file, 40 * PAGE) || fsync(file)) return 1;
    char *memory = mapped(file, 40 * PAGE, PROT_READ | PROT_WRITE);
    for (int at = 0; at < 40 * PAGE; at += 2 * PAGE) {
        memory[at] = 'L';
        if ((is_fsync ? fsync(file) : msync(memory, 40 * PAGE, MS_SYNC)) != -1) return wrong("a sync that is to fail");
        memory[at + PAGE] = 'S';
        if (is_fsync ? fsync(file) : msync(memory, 40 * PAGE, MS_SYNC)) return wrong("a sync");
    }
    return 0;
}

static int killed(char **words) {
    (void)words;
    mapped(old(O_RDWR), 10, PROT_READ | PROT_WRITE)[0] = 'N';
    return kill(getpid(), SIGKILL);
}

static int left_quickly(char **words) {
    (void)words;
    mapped(old(O_RDWR), 10, PROT_READ | PROT_WRITE)[0] = 'N';
    quick_exit(0);
}

/* ---- threads, signals and programs */

static int pipes[2];
static void *waits(void *unused) {
    char byte;
    return (void)unused, read(pipes[0], &byte, 1) ? NULL : pipes;
}
static int cancelled(char **words) {
    pthread_t thread;
    void *answer;
    (void)words;
    if (old(O_RDONLY) < 0 || pipe(pipes) || pthread_create(&thread, NULL, waits, NULL)) return 1;
    usleep(20000);
    return pthread_cancel(thread) || pthread_join(thread, &answer) || answer != PTHREAD_CANCELED;
}

/* Threads that open a file at once. */
static pthread_barrier_t all_there;
static void *opens(void *unused) {
    pthread_barrier_wait(&all_there);
    int file = old(O_RDWR);
    pthread_barrier_wait(&all_there);
    return file < 0 ? pipes : unused;
}
static int together(char **words) {
    enum { MOST = 1000 };
    pthread_t threads[MOST];
    int count = atoi(words[0]), failed = 0;
    void *answer;
    pthread_barrier_init(&all_there, NULL, (unsigned)count);
    for (int i = 0; i < count; i++)
        if (pthread_create(&threads[i], NULL, opens, NULL)) return wrong("a thread");
    for (int i = 0; i < count; i++) failed += pthread_join(threads[i], &answer) || answer;
    return failed;
}

static void nothing(int unused) { (void)unused; }
static pthread_t writer;
static volatile int is_over;
static void *storm(void *unused) {
    while (!is_over) pthread_kill(writer, SIGURG), usleep(50);
    return unused;
}
static int stormy(char **words) {
    pthread_t thread;
    int file = open("a", O_CREAT | O_RDWR | O_APPEND, 0644), count = atoi(words[0]);
    sigaction(SIGURG, &(struct sigaction){.sa_handler = nothing, .sa_flags = SA_RESTART}, NULL);
    writer = pthread_self();
    if (pthread_create(&thread, NULL, storm, NULL)) return 1;
    for (int i = 0; i < count; i++)
        if (write(file, "1234", 4) != 4) return wrong("write");
    is_over = 1;
    return pthread_join(thread, NULL);
}

static int in_vfork(char **words) {
    int file = old(O_RDWR), status;
    (void)words;
    pid_t made = vfork();
    if (!made) {
        if (write(file, "V", 1) != 1) _exit(1);
        _exit(0);
    }
    return waitpid(made, &status, 0) < 0 || status || fsync(file);
}

static int spawns(char **words) {
    pid_t made;
    int status;
    if (posix_spawn(&made, words[0], NULL, NULL, words, (char *[]){NULL})) return 1;
    return waitpid(made, &status, 0) < 0 || WEXITSTATUS(status);
}

static int by_descriptor(char **words) {
    fexecve(open(words[0], O_RDONLY | O_CLOEXEC), words, environ);
    return 126;
}

/* A process that nobody waits for, in a session of its own, as daemons do it. */
static int leaves(char **words) {
    (void)words;
    if (fork()) return 0;
    setsid();
    if (fork()) _exit(0);
    usleep(100000);
    int file = old(O_RDWR | O_APPEND);
    return write(file, "late", 4) != 4 || fsync(file);
}

static int sleeps(char **words) {
    if (fork()) sleep((unsigned)atoi(words[0]));
    else setsid(), sleep((unsigned)atoi(words[0]));
    return 0;
}

static int rings(char **words) {
    (void)words;
    if (syscall(SYS_io_uring_setup, 8, (char[120]){0}) != -1 || errno != ENOSYS) return wrong("io_uring_setup");
    return syscall(SYS_io_uring_setup, 8, (char[120]){0}) != -1 || old(O_RDONLY) < 0;
}

static int short_call(char **words) {
    long result;
    (void)words;
    if (old(O_RDONLY) < 0) return 1;
    __asm__ volatile("int $0x80" : "=a"(result) : "a"(20) : "memory"); /* getpid of the interface of 32 bits */
    return result < 0;
}

static int closed_process(char **words) {
    (void)words;
    return prctl(PR_SET_DUMPABLE, 0) || old(O_RDONLY) < 0;
}

static int ends[2], alarms;
static void on_alarm(int unused) {
    (void)unused;
    if (++alarms == 2 && write(ends[1], "abc", 3) != 3) _exit(1);
}

/* Waits that end: by what comes, by a handler of a signal, by a limit, and by a signal whose handler doesn't let it go on. */
static int waits_often(char **words) {
    char bytes[9], *many = calloc(1, 1000000);
    struct itimerval soon = {{0, 30000}, {0, 30000}}, never = {{0, 0}, {0, 0}};
    (void)words;
    if (!many || old(O_RDONLY) < 0 || socketpair(AF_UNIX, SOCK_STREAM, 0, ends)) return 1;
    if (!fork()) usleep(30000), _exit(write(ends[1], "late", 4) != 4);
    if (read(ends[0], bytes, 9) != 4) return wrong("a read that waits");
    sigaction(SIGALRM, &(struct sigaction){.sa_handler = on_alarm, .sa_flags = SA_RESTART}, NULL);
    setitimer(ITIMER_REAL, &soon, NULL);
    if (recv(ends[0], bytes, 9, 0) != 3 || alarms < 2) return wrong("a wait that goes on after a handler");
    sigaction(SIGALRM, &(struct sigaction){.sa_handler = on_alarm}, NULL);
    if (recv(ends[0], bytes, 9, 0) != -1 || errno != EINTR) return wrong("a wait that a handler ends");
    setitimer(ITIMER_REAL, &never, NULL);
    setsockopt(ends[0], SOL_SOCKET, SO_RCVTIMEO, &(struct timeval){0, 20000}, sizeof(struct timeval));
    if (recv(ends[0], bytes, 8, 0) != -1 || errno != EAGAIN) return wrong("a wait with a limit");
    if (!fork()) {
        ssize_t got = 0;
        for (ssize_t some; got < 1000000 && (some = read(ends[0], many, 70000)) > 0;) got += some;
        _exit(got != 1000000);
    }
    return write(ends[1], many, 1000000) != 1000000 ? wrong("a write that waits") : 0;
}

/* A pipe with a name, of which who writes comes later. */
static int pipes_by_name(char **words) {
    char bytes[9];
    (void)words;
    if (mkfifo("pipe", 0600)) return 1;
    if (!fork()) usleep(30000), _exit(write(open("pipe", O_WRONLY), "through", 7) != 7);
    int file = open("pipe", O_RDONLY);
    return read(file, bytes, 9) != 7 || read(file, bytes, 9) != 0 ? wrong("a pipe") : 0;
}

/* A copy from an empty pipe: one that mustn't wait, one to the end of a file that is appended to, and one for which bytes come later. */
static int spliced(char **words) {
    int file = open("a", O_CREAT | O_RDWR, 0644), appended = old(O_RDWR | O_APPEND);
    (void)words;
    if (pipe(pipes)) return 1;
    if (splice(pipes[0], NULL, file, NULL, 5, SPLICE_F_NONBLOCK) != -1 || errno != EAGAIN) return wrong("a splice that mustn't wait");
    if (splice(pipes[0], NULL, appended, NULL, 5, 0) != -1 || errno != EINVAL) return wrong("a splice to an end");
    if (copy_file_range(pipes[0], NULL, file, NULL, 5, 0) != -1 || errno != EINVAL) return wrong("a copy from a pipe");
    if (sendfile(file, pipes[0], NULL, 5) != -1 || errno != EINVAL) return wrong("a sendfile from a pipe");
    if (!fork()) usleep(30000), _exit(write(pipes[1], "later", 5) != 5);
    if (splice(pipes[0], NULL, file, NULL, 9, 0) != 5) return wrong("a splice that waits");
    return fcntl(pipes[0], F_SETFL, O_NONBLOCK) || splice(pipes[0], NULL, file, NULL, 5, 0) != -1 || errno != EAGAIN ? wrong("a pipe of which nobody waits") : 0;
}

/* Ends by a signal, after a call. */
static int signalled(char **words) {
    return close(old(O_RDONLY)) || kill(getpid(), atoi(words[0]));
}

/* A command for which the system forbids one call, as a container may. */
static int denied(char **words) {
    struct sock_filter steps[] = {
        BPF_STMT(BPF_LD | BPF_W | BPF_ABS, 0),
        BPF_JUMP(BPF_JMP | BPF_JEQ | BPF_K, (unsigned)atoi(words[0]), 0, 1),
        BPF_STMT(BPF_RET | BPF_K, SECCOMP_RET_ERRNO | EPERM),
        BPF_STMT(BPF_RET | BPF_K, SECCOMP_RET_ALLOW),
    };
    struct sock_fprog filter = {sizeof steps / sizeof *steps, steps};
    if (prctl(PR_SET_NO_NEW_PRIVS, 1, 0, 0, 0) || prctl(PR_SET_SECCOMP, SECCOMP_MODE_FILTER, &filter)) return wrong("a filter");
    execvp(words[1], words + 1);
    return 126;
}

/* A parent, whose calls go first, that sleeps for much less time than its child writes. */
static int overslept(char **words) {
    int file = open("a", O_CREAT | O_RDWR | O_APPEND, 0644), status;
    (void)words;
    pid_t made = fork();
    for (int i = 0; !made && i < 100; i++)
        if (write(file, "x", 1) != 1) _exit(1);
    if (!made) _exit(0);
    usleep(100);
    return write(file, "late", 4) != 4 || waitpid(made, &status, 0) < 0 || status;
}

/* A sleep that a signal ends. It comes again and again, since the first one may come before the sleep. */
static int woken(char **words) {
    struct itimerval soon = {{0, 30000}, {0, 30000}};
    struct timespec long_time = {20, 0}, rest = {0, 0};
    (void)words;
    sigaction(SIGALRM, &(struct sigaction){.sa_handler = nothing, .sa_flags = SA_RESTART}, NULL);
    setitimer(ITIMER_REAL, &soon, NULL);
    if (old(O_RDONLY) < 0 || nanosleep(&long_time, &rest) != -1 || errno != EINTR) return wrong("a sleep");
    return rest.tv_sec < 10 || rest.tv_sec > 19 ? wrong("the rest of it") : 0;
}

/* Random bytes, which a thread waits for where they are the same each time, between two calls. */
static int draws(char **words) {
    char bytes[8];
    (void)words;
    return old(O_RDONLY) < 0 || syscall(SYS_getrandom, bytes, 8, 0) != 8 || old(O_RDONLY) < 0;
}

static int moves(char **words) {
    (void)words;
    if (mkdir("here", 0755) || chdir("here") || close(open("a", O_CREAT | O_RDWR, 0644)) || chdir("..")) return wrong("chdir");
    int folder = open("here", O_RDONLY | O_DIRECTORY);
    if (close(open("b", O_CREAT | O_RDWR, 0644)) || fchdir(folder) || close(open("c", O_CREAT | O_RDWR, 0644))) return wrong("fchdir");
    return 0;
}

static const struct {
    const char *name;
    int (*does)(char **words);
} cases[] = {
    {"raw", raw}, {"bad_parts", bad_parts}, {"read_only", read_only}, {"direct", direct}, {"as_output", as_output},
    {"own_folder", own_folder}, {"beneath", beneath}, {"refused", refused}, {"limited", limited}, {"few_files", few_files},
    {"opened_often", opened_often},    {"by_path", by_path},    {"written_at", written_at}, {"masked", masked}, {"as_other", as_other}, {"without_rights", without_rights}, {"jailed", jailed},
    {"at_once", at_once},
    {"made_writable", made_writable}, {"closed_memory", closed_memory}, {"mapped_over", mapped_over},
    {"middle_unmapped", middle_unmapped}, {"stored_at_once", stored_at_once}, {"killed", killed}, {"left_quickly", left_quickly}, {"cancelled", cancelled}, {"together", together},
    {"stormy", stormy}, {"in_vfork", in_vfork}, {"spawns", spawns}, {"by_descriptor", by_descriptor}, {"leaves", leaves},
    {"sleeps", sleeps}, {"rings", rings}, {"short_call", short_call}, {"denied", denied}, {"moves", moves}, {"waits_often", waits_often},
    {"pipes_by_name", pipes_by_name}, {"spliced", spliced}, {"signalled", signalled},    {"closed_process", closed_process}, {"overslept", overslept}, {"woken", woken}, {"draws", draws},
};

int main(int count, char **words) {
    for (size_t i = 0; count > 1 && i < sizeof cases / sizeof *cases; i++)
        if (!strcmp(words[1], cases[i].name)) return cases[i].does(words + 2);
    return count > 1 && !strcmp(words[1], "nothing") ? 0 : 64;
}
