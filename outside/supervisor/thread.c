/* The threads of the run: their descriptors, memory, umask and user. */
#define _GNU_SOURCE
#include "crashes.h"
#include "supervisor.h"

#include <dirent.h>
#include <errno.h>
#include <grp.h>
#include <linux/capability.h>
#include <signal.h>
#include <stdio.h>
#include <stdlib.h>
#include <sys/fsuid.h>
#include <sys/resource.h>

/* The system doesn't use a thread's number again in so short a time. */
static const uint64_t RECENT = 50000000;

enum { SLOTS = 1024, MOST_STATUS = 8192, PAGE = 4096, SHORT_TEXT = 128 };

#ifndef PIDFD_THREAD
#define PIDFD_THREAD O_EXCL /* since Linux 6.9 */
#endif

static struct thread threads[SLOTS];

/* ---- what /proc says */

static char status[MOST_STATUS];

static void read_status(const struct thread *thread) {
    char path[64];
    snprintf(path, sizeof path, "/proc/%d/status", thread->number);
    int file = had(open(path, O_RDONLY | O_CLOEXEC));
    ssize_t length = file < 0 ? -1 : read(file, status, sizeof status - 1);
    if (file >= 0) close(file);
    status[length < 0 ? 0 : length] = 0;
}

/* Finds a line in the status that was read last. */
static const char *line_of_status(const char *line) {
    const char *found = strstr(status, line);
    return found ? found + strlen(line) : NULL;
}

/* The signals in a line of the status that was read last. */
static uint64_t signals_in(const char *line) {
    const char *text = line_of_status(line);
    return text ? strtoull(text, NULL, 16) : 0;
}

/* Which of these signals the first thread of a process doesn't take. */
static uint64_t left_by_first(int process, uint64_t signals) {
    read_status(&(struct thread){.number = process});
    const char *text = line_of_status("State:\t");
    return !text || *text == 'Z' || *text == 'X' ? signals : signals & signals_in("SigBlk:");
}

/* A signal for a process goes to its first thread, unless that blocks it. */
bool has_signal(const struct thread *thread) {
    read_status(thread);
    uint64_t taken = ~signals_in("SigBlk:"), own = signals_in("SigPnd:") & taken, of_all = signals_in("ShdPnd:") & taken;
    if (own || !of_all || thread->number == thread->process) return own || of_all;
    return left_by_first(thread->process, of_all);
}

/* If a signal ends a process, each of its threads is killed. */
bool has_fatal_signal(const struct thread *thread) {
    read_status(thread);
    return signals_in("SigPnd:") & 1ull << (SIGKILL - 1);
}

const char *status_of(const struct thread *thread, const char *line) {
    read_status(thread);
    return line_of_status(line);
}

/* Whether a thread has the same root or mounts as the supervisor, whose own don't change. */
static bool is_same_by(const struct thread *thread, const char *what, const char *ours, struct stat *own) {
    char path[64];
    struct stat its;
    snprintf(path, sizeof path, "/proc/%d/%s", thread->number, what);
    if (!own->st_ino && stat(ours, own)) return false;
    return !stat(path, &its) && its.st_ino == own->st_ino && its.st_dev == own->st_dev;
}

static bool roots_change;

static bool looks_elsewhere(const struct thread *thread) {
    static struct stat own_root, own_mounts;
    return !is_same_by(thread, "root", "/", &own_root) || !is_same_by(thread, "ns/mnt", "/proc/self/ns/mnt", &own_mounts);
}

void root_changed(void) { roots_change = true; }

/* ---- the current folder */

/* A call that changes the folder goes on by itself. It is over when its thread makes another call, and until then no folder is remembered. */
static uint64_t moves = 1;
static int mover;

void folder_changes(struct thread *thread) {
    moves++;
    mover = mover && mover != thread->number ? -1 : thread->number;
}

static void has_moved(const struct thread *thread) {
    if (mover != thread->number) return;
    mover = 0;
    moves++;
}

int folder_of(struct thread *thread) {
    char path[64];
    if (thread->folder >= 0 && thread->moves == moves && !mover) return thread->folder;
    if (thread->folder >= 0) close(thread->folder);
    snprintf(path, sizeof path, "/proc/%d/cwd", thread->number);
    thread->folder = had(open(path, O_PATH | O_DIRECTORY | O_CLOEXEC));
    thread->moves = moves;
    if (thread->folder < 0 || look_at(thread->folder, "", AT_EMPTY_PATH, &thread->of_folder)) return thread->folder;
    close(thread->folder);
    return thread->folder = -1;
}

/* ---- the threads that are known */

static bool knows_threads = true;

/* Whether a thread is still the same. A handle belongs to one thread, so it shows when a number is used again. If the system has no such handles,
   no thread is remembered. */
static bool is_alive(struct thread *thread) {
    uint64_t time = now();
    if (!knows_threads) return false;
    if (time - thread->seen < RECENT) return true;
    thread->seen = time;
    return !syscall(SYS_pidfd_send_signal, thread->handle, 0, NULL, 0);
}

static int handle_of(const struct thread *thread) {
    int handle = knows_threads ? (int)syscall(SYS_pidfd_open, thread->number, PIDFD_THREAD) : -1;
    if (handle >= 0) return handle;
    if (errno == EINVAL) knows_threads = false;
    return had((int)syscall(SYS_pidfd_open, thread->process, 0));
}

/* How many threads are remembered. Each takes two descriptors, and most of those that the system gives are for calls that wait. */
static int slots(void) {
    static int count;
    struct rlimit limit;
    if (count) return count;
    count = !getrlimit(RLIMIT_NOFILE, &limit) && limit.rlim_cur < 8 * SLOTS ? (int)limit.rlim_cur / 8 : SLOTS;
    return count += !count;
}

/* Takes its name over from the status that was read last, as nobody can read it any more when it has ended. */
static void take_name(struct thread *thread) {
    const char *name = line_of_status("Name:\t");
    snprintf(thread->name, sizeof thread->name, "%.*s", name ? (int)strcspn(name, "\n") : 0, name ? name : "");
}

void begins_program(struct thread *thread) {
    thread->language = NOT_KNOWN;
    read_status(thread);
    take_name(thread);
}

struct thread *thread_of(int number) {
    struct thread *thread = &threads[number % slots()];
    if (thread->number == number && is_alive(thread)) {
        if (roots_change) thread->is_elsewhere = looks_elsewhere(thread);
        if (mover) has_moved(thread);
        return thread;
    }
    uint64_t program = thread->number == number && !knows_threads ? thread->program : 0;
    if (thread->number && knows_threads) see_end(thread);
    if (thread->number) close(thread->handle);
    if (thread->number && thread->folder >= 0) close(thread->folder);
    *thread = (struct thread){.number = number, .folder = -1, .seen = now()};
    read_status(thread);
    const char *process = line_of_status("Tgid:"), *mask = line_of_status("Umask:");
    take_name(thread);
    thread->process = process ? atoi(process) : number;
    thread->mask = mask ? (int)strtol(mask, NULL, 8) : -1;
    thread->handle = handle_of(thread);
    if (knows_threads) watch_end(thread);
    thread->is_elsewhere = looks_elsewhere(thread);
    thread->program = program;
    return thread;
}

/* The path of a thread's program, or its short name if it may not be looked into. */
const char *program_of(const struct thread *thread) {
    static char program[PATH_MAX];
    char link[64];
    snprintf(link, sizeof link, "/proc/%d/exe", thread->process);
    ssize_t length = readlink(link, program, sizeof program - 1);
    program[length < 0 ? 0 : length] = 0;
    if (length > 0) return program;
    const char *name = status_of(thread, "Name:\t");
    return name ? strcpy(program, strndupa(name, strcspn(name, "\n"))) : "";
}

/* The linker of Go leaves a note of type 4 whose owner is Go, in the first page of the file. */
bool is_of_go(struct thread *thread) {
    static const char note[] = "\4\0\0\0Go\0";
    char path[64], page[PAGE];
    if (thread->language != NOT_KNOWN) return thread->language == OF_GO;
    snprintf(path, sizeof path, "/proc/%d/exe", thread->process);
    int file = had(open(path, O_RDONLY | O_CLOEXEC));
    ssize_t length = file < 0 ? 0 : read(file, page, sizeof page);
    if (file >= 0) close(file);
    thread->language = length > 0 && memmem(page, (size_t)length, note, sizeof note) ? OF_GO : OF_ANOTHER;
    return thread->language == OF_GO;
}

/* Ends the run if the system forbids to look into a thread, since its calls would go on unseen. */
static void must_be_allowed(const struct thread *thread) {
    if (errno == EPERM) lose("can't follow a process into which the system lets nobody look", program_of(thread));
}

int fetch(const struct thread *thread, int file) {
    int fetched = (int)syscall(SYS_pidfd_getfd, thread->handle, file, 0);
    if (fetched < 0) must_be_allowed(thread);
    return fetched;
}

/* If the last number that it may have is free, nothing need be counted. */
bool has_free_descriptor(const struct thread *thread) {
    char path[64];
    struct rlimit limit;
    rlim_t used = 0;
    if (prlimit(thread->process, RLIMIT_NOFILE, NULL, &limit) || limit.rlim_cur > INT_MAX) return true;
    int last = (int)syscall(SYS_pidfd_getfd, thread->handle, (int)limit.rlim_cur - 1, 0);
    if (last < 0 && limit.rlim_cur > 0) return true;
    if (last >= 0) close(last);
    snprintf(path, sizeof path, "/proc/%d/fd", thread->number);
    DIR *names = opendir(path);
    for (struct dirent *entry; names && (entry = readdir(names));)
        used += *entry->d_name != '.' && strtoul(entry->d_name, NULL, 10) < limit.rlim_cur;
    if (names) closedir(names);
    return used < limit.rlim_cur;
}

/* ---- memory */

size_t read_memory(const struct thread *thread, uint64_t at, void *to, size_t length) {
    struct iovec here = {to, length}, there = {(void *)at, length};
    ssize_t done = process_vm_readv(thread->number, &here, 1, &there, 1, 0);
    if (done < 0) must_be_allowed(thread);
    return done < 0 ? 0 : (size_t)done;
}

size_t write_memory(const struct thread *thread, uint64_t at, const void *from, size_t length) {
    struct iovec here = {(void *)from, length}, there = {(void *)at, length};
    ssize_t done = process_vm_writev(thread->number, &here, 1, &there, 1, 0);
    return done < 0 ? 0 : (size_t)done;
}

bool read_text(const struct thread *thread, uint64_t at, char *text, size_t room) {
    for (size_t done = 0; done < room;) {
        size_t left = PAGE - (at + done) % PAGE;
        if (!done && left > SHORT_TEXT) left = SHORT_TEXT;
        if (left > room - done) left = room - done;
        size_t got = read_memory(thread, at + done, text + done, left);
        if (memchr(text + done, 0, got)) return true;
        if (got < left) return false;
        done += got;
    }
    return false;
}

/* ---- whose files are made */

static bool masks_change, ids_change;
static bool is_other, is_limited; /* whether it acts as another user now, and with fewer capabilities */
static mode_t own_mask = (mode_t)-1;

void mask_changed(const struct thread *thread) {
    (void)thread;
    masks_change = true;
}

void ids_changed(void) { ids_change = true; }

/* Threads have the supervisor's own limits until one of them sets others. */
static bool limits_change, is_bounded;
static struct rlimit own_limit;
static volatile sig_atomic_t is_exceeded;

void limits_changed(void) { limits_change = true; }

static void on_exceeded(int unused) {
    (void)unused;
    is_exceeded = true;
}

void take_limit(const struct thread *thread) {
    struct rlimit limit;
    is_exceeded = false;
    if (!own_limit.rlim_max) getrlimit(RLIMIT_FSIZE, &own_limit), signal(SIGXFSZ, on_exceeded);
    if (!limits_change && own_limit.rlim_cur == RLIM_INFINITY) return;
    if (prlimit(thread->process, RLIMIT_FSIZE, NULL, &limit)) return;
    if (limit.rlim_cur > own_limit.rlim_max) limit.rlim_cur = own_limit.rlim_max;
    is_bounded = limit.rlim_cur != own_limit.rlim_cur && !setrlimit(RLIMIT_FSIZE, &(struct rlimit){limit.rlim_cur, own_limit.rlim_max});
}

void end_limit(const struct thread *thread) {
    if (is_bounded) setrlimit(RLIMIT_FSIZE, &own_limit);
    is_bounded = false;
    if (is_exceeded) syscall(SYS_tgkill, thread->process, thread->number, SIGXFSZ);
}

static void take_mask(struct thread *thread) {
    if (thread->mask < 0 || masks_change) {
        const char *text = status_of(thread, "Umask:");
        thread->mask = text ? (int)strtol(text, NULL, 8) : 0;
    }
    if (own_mask != (mode_t)thread->mask) umask(own_mask = (mode_t)thread->mask);
}

/* The user or group as which a thread uses files: the last of the four numbers of a line. */
static unsigned file_id(const char *line) {
    unsigned ids[4] = {0};
    const char *text = line_of_status(line);
    if (text) sscanf(text, "%u %u %u %u", &ids[0], &ids[1], &ids[2], &ids[3]);
    return ids[3];
}

static void take_groups(void) {
    gid_t groups[256];
    size_t count = 0;
    char *end;
    const char *text = line_of_status("Groups:");
    for (; text && count < sizeof groups / sizeof *groups; text = end) {
        groups[count] = (gid_t)strtoul(text, &end, 10);
        if (end == text || memchr(text, '\n', (size_t)(end - text))) break;
        count++;
    }
    setgroups(count, groups);
}

/* The capabilities of the supervisor, each a bit: those that it may use, and does use but for the time in which it acts as a thread. */
static uint64_t own_capabilities(void) {
    static uint64_t own;
    static bool is_known;
    struct __user_cap_header_struct head = {.version = _LINUX_CAPABILITY_VERSION_3};
    struct __user_cap_data_struct sets[2] = {0};
    if (!is_known && !syscall(SYS_capget, &head, sets)) own = sets[0].effective | (uint64_t)sets[1].effective << 32;
    is_known = true;
    return own;
}

/* Uses these capabilities alone, of those that it may use. */
static void use_capabilities(uint64_t used) {
    struct __user_cap_header_struct head = {.version = _LINUX_CAPABILITY_VERSION_3};
    struct __user_cap_data_struct sets[2];
    if (syscall(SYS_capget, &head, sets)) return;
    for (int i = 0; i < 2; i++) sets[i].effective = sets[i].permitted & (unsigned)(used >> 32 * i);
    syscall(SYS_capset, &head, sets);
}

void make_as(struct thread *thread) {
    take_mask(thread);
    act_as(thread);
}

/* The supervisor still looks into the thread meanwhile, so it keeps the right to do that. */
void act_as(const struct thread *thread) {
    if (!ids_change || !own_capabilities()) return;
    read_status(thread);
    const char *text = line_of_status("CapEff:");
    unsigned user = file_id("Uid:"), group = file_id("Gid:");
    uint64_t capabilities = text ? strtoull(text, NULL, 16) & own_capabilities() : own_capabilities();
    is_other = user != geteuid() || group != getegid();
    is_limited = capabilities != own_capabilities();
    if (is_other) {
        take_groups();
        setfsgid(group);
        setfsuid(user);
    }
    if (is_other || is_limited) use_capabilities(capabilities | 1ull << CAP_SYS_PTRACE);
}

void act_as_self(void) {
    if (is_other || is_limited) use_capabilities(own_capabilities());
    if (is_other) {
        setfsuid(geteuid());
        setfsgid(getegid());
        setgroups(0, NULL);
    }
    is_other = is_limited = false;
}
