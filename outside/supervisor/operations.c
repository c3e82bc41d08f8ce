#define _GNU_SOURCE
#include "operations.h"

#include "../run/whole.h"
#include "keeper.h"
#include "parts.h"
#include "variables.h"

#include <errno.h>
#include <poll.h>
#include <stdio.h>
#include <stdlib.h>
#include <sys/ioctl.h>
#include <sys/select.h>

enum { LONGEST = 200, USUAL_LENGTH = 3, MOST_POLLED = 256, LONGEST_FILE = MOST_OPERATIONS * (LONGEST + 1) };

static char lines[LONGEST_FILE + 1];
static const char *operations[MOST_OPERATIONS];
static unsigned count;  /* how many there are; 0 if the program's standard input is its own */
static unsigned length; /* how many it gets at most */
static unsigned given;
static const char *variable; /* the one that names the file of operations */
static bool is_workload;     /* whether it gets one after the other, where no return gives another */

/* ---- the variables */

static void take_line(char *line) {
    char what[64];
    snprintf(what, sizeof what, "%s line %u", variable, count + 1);
    if (count == MOST_OPERATIONS) refuse(what, "there may be 64 lines");
    if (!*line) refuse(what, "it is empty");
    if (strlen(line) > LONGEST) refuse(what, "it has more than 200 bytes");
    operations[count++] = line;
}

static void read_lines(const char *name) {
    int file = open(name, O_RDONLY | O_CLOEXEC);
    ssize_t size = file < 0 ? -1 : read(file, lines, LONGEST_FILE + 1);
    if (size < 0) refuse(variable, strerror(errno));
    close(file);
    char *next = lines;
    if (size > LONGEST_FILE || memchr(lines, 0, (size_t)size)) refuse(variable, "it may have 64 lines of 200 bytes, and no byte 0");
    for (char *line; (line = strsep(&next, "\n")) && (*line || next);) take_line(line);
    if (!count) refuse(variable, "it has no line");
}

static void read_length(const char *text) {
    char *end;
    unsigned long value = text ? strtoul(text, &end, 10) : USUAL_LENGTH;
    if (text && (*text < '1' || *text > '9' || *end || value > MOST_OPERATIONS)) refuse("FAULTS_LENGTH must be a number from 1 to 64", text);
    length = (unsigned)value;
}

/* The scenario may give no line that isn't there. */
static void check_scenario(void) {
    char what[64];
    const struct chain *chain = chain_named(&scenario, point_names[WORK]);
    for (unsigned i = 0; chain && i < chain->length; i++) {
        snprintf(what, sizeof what, "scenario: %s has no line %u", variable, chain->terms[i].operation);
        if (chain->terms[i].operation > count) refuse(what, chain->name);
    }
}

void read_operations(void) {
    const char *file = getenv("FAULTS_OPERATIONS"), *workload = getenv("FAULTS_WORKLOAD");
    if (!file && !workload) return;
    if (file && workload) refuse("FAULTS_OPERATIONS and FAULTS_WORKLOAD", "a program is given operations by one of these");
    is_workload = workload;
    variable = is_workload ? "FAULTS_WORKLOAD" : "FAULTS_OPERATIONS";
    read_lines(is_workload ? workload : file);
    if (is_workload) length = count;
    else read_length(getenv("FAULTS_LENGTH"));
    check_scenario();
}

const char *operation_named(unsigned number) { return operations[number - 1]; }

/* ---- the input: a pipe that the supervisor writes to */

static int input[2] = {-1, -1};
static struct stat input_told;

void make_input(void) {
    if (count && (pipe2(input, O_CLOEXEC) || fstat(input[0], &input_told))) refuse("memory", strerror(errno));
}

void take_input(void) {
    if (count) dup2(input[0], STDIN_FILENO);
}

static bool is_input(const struct opened *opened) {
    struct stat told;
    if (input[0] < 0 || opened->file < 0 || !S_ISFIFO(opened->facts.file.key.mode) || fstat(opened->file, &told)) return false;
    return told.st_ino == input_told.st_ino && told.st_dev == input_told.st_dev;
}

static bool has_more(void) {
    int bytes = 0;
    return !ioctl(input[0], FIONREAD, &bytes) && bytes > 0;
}

static bool has_ended_input(void) { return input[1] < 0; }

static void end_input(void) {
    close(input[1]);
    input[1] = -1;
}

static void give_operation(unsigned number) {
    char line[LONGEST + 2], *end = stpcpy(stpcpy(line, operation_named(number)), "\n");
    given++;
    if (!write_whole(input[1], line, (size_t)(end - line))) refuse("can't give an operation", strerror(errno));
}

/* Gives the next operation or ends the input. Returns false if the call has to wait. */
static bool ask(struct call *call) {
    if (given == length) return end_input(), true;
    enum answer answer = hit(call, WORK, "-", is_workload ? operation_named(given + 1) : NULL);
    if (answer == NOT_YET) return false;
    if (answer == GIVE || is_workload) give_operation(answer == GIVE ? call->hit.operation : given + 1);
    else end_input();
    return true;
}

bool serve_operation(struct call *call, const struct opened *opened) {
    struct parts parts;
    if (!is_input(opened)) return false;
    int error = call->row->at ? -ESPIPE : parts_of(call, &parts);
    bool waits = !has_more() && !has_ended_input();
    if (!error && parts.length && waits && fcntl(opened->file, F_GETFL) & O_NONBLOCK) error = -EAGAIN;
    if (error || !parts.length) return finish(call, error), true;
    if (waits && !ask(call)) return true;
    char *bytes = room_for(&parts, LONGEST + 1);
    long got = result_of(read(input[0], bytes, parts.length < LONGEST + 1 ? parts.length : LONGEST + 1));
    size_t taken = got > 0 ? scatter(call, &parts, 0, (size_t)got, bytes) : 0;
    finish(call, got > 0 && taken < (size_t)got ? -EFAULT : got);
    return true;
}

/* ---- programs that wait by poll */

bool awaits_operation(void) { return count && !has_ended_input() && !has_more() && command_runs(); }

static bool is_input_of(pid_t process, long file) {
    char name[64], leads_to[64], ours[64];
    snprintf(name, sizeof name, "/proc/%d/fd/%ld", process, file);
    snprintf(ours, sizeof ours, "pipe:[%lu]", input_told.st_ino);
    ssize_t length = readlink(name, leads_to, sizeof leads_to);
    return length == (ssize_t)strlen(ours) && !memcmp(leads_to, ours, (size_t)length);
}

static bool polls_input(const struct thread *thread, uint64_t at, uint64_t number) {
    struct pollfd files[MOST_POLLED];
    size_t read = read_memory(thread, at, files, (number < MOST_POLLED ? number : MOST_POLLED) * sizeof *files) / sizeof *files;
    for (size_t i = 0; i < read; i++)
        if (files[i].events & (POLLIN | POLLRDNORM) && is_input_of(thread->process, files[i].fd)) return true;
    return false;
}

static bool selects_input(const struct thread *thread, uint64_t number, uint64_t at) {
    fd_set files;
    FD_ZERO(&files);
    if (!at || !read_memory(thread, at, &files, sizeof files)) return false;
    for (uint64_t file = 0; file < number && file < FD_SETSIZE; file++)
        if (FD_ISSET(file, &files) && is_input_of(thread->process, (long)file)) return true;
    return false;
}

/* The files of an epoll stand in a file of /proc, a line each. */
static bool epolls_input(const struct thread *thread, uint64_t epoll) {
    char name[64], line[256];
    long file;
    bool found = false;
    snprintf(name, sizeof name, "/proc/%d/fdinfo/%lu", thread->process, epoll);
    FILE *lines = fopen(name, "re");
    while (lines && !found && fgets(line, sizeof line, lines)) found = sscanf(line, "tfd: %ld", &file) == 1 && is_input_of(thread->process, file);
    if (lines) fclose(lines);
    return found;
}

/* Whether a thread sleeps in a call that ends once the input can be read. */
static bool waits_for_input(const struct thread *thread) {
    char name[64];
    long call = -1;
    uint64_t first = 0, second = 0;
    snprintf(name, sizeof name, "/proc/%d/syscall", thread->number);
    FILE *told = fopen(name, "re");
    if (!told) return false;
    int fields = fscanf(told, "%ld %lx %lx", &call, &first, &second);
    fclose(told);
    if (fields < 3) return false; /* it runs */
    if (call == SYS_poll || call == SYS_ppoll) return polls_input(thread, first, second);
    if (call == SYS_select || call == SYS_pselect6) return selects_input(thread, first, second);
    if (call == SYS_epoll_wait || call == SYS_epoll_pwait || call == SYS_epoll_pwait2) return epolls_input(thread, first);
    return call == SYS_splice && is_input_of(thread->process, (long)first);
}

static bool goes_without(pid_t process, pid_t thread) {
    (void)process;
    return !waits_for_input(thread_of(thread));
}

bool is_polled(void) { return !each_thread(goes_without); }

/* The hit is one of the command: nobody sees which of its threads asks. */
void offer_operation(void) {
    struct call asked = {.told.pid = (unsigned)command(), .thread = thread_of(command()), .row = row_of(SYS_read)};
    asked.chosen = true;
    asked.hit.result_at = -1;
    ask(&asked);
    int bytes = 0;
    ioctl(input[0], FIONREAD, &bytes);
    if (asked.hit.seen) hit_result(&asked, bytes);
}
