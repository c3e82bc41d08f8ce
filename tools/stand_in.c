/* Stands in for the program in a session that is performed without a proof. `tools/tried` builds it as `paklour`, puts that on the PATH, and says there how.

   A call is a line in the pipe `calls` of the FOLDER that it was built with: the number of this process, and the numbers of three of its descriptors, for
   the words, for standard input, and for the exit status, which is waited for. A byte in the pipe `over` there says that nobody answers any more. What a
   call by descriptors doesn't come to as a program of its own would is a line of the session's file BEYOND, after the number of the command. */
#define _GNU_SOURCE
#include <fcntl.h>
#include <poll.h>
#include <stdbool.h>
#include <stdio.h>
#include <stdlib.h>
#include <string.h>
#include <sys/mman.h>
#include <sys/resource.h>
#include <sys/stat.h>
#include <unistd.h>

enum { NOT_ANSWERED = 125 };

/* Paths that each process sees in its own way. */
static const char *const own_paths[] = {"/dev/stdin", "/dev/stdout", "/dev/stderr", "/dev/fd", "/proc/self"};

static _Noreturn void fail(const char *what) {
    perror(what);
    exit(NOT_ANSWERED);
}

static _Noreturn void beyond(const char *why) {
    const char *path = getenv("BEYOND"), *command = getenv("SESSION_COMMAND");
    FILE *notes = path && command ? fopen(path, "a") : NULL;
    if (!notes || fprintf(notes, "%s %s\n", command, why) < 0 || fclose(notes)) fail("stand_in: BEYOND");
    exit(NOT_ANSWERED);
}

static bool is_own_path(const char *word) {
    for (size_t i = 0; i < sizeof own_paths / sizeof *own_paths; i++)
        if (!strncmp(word, own_paths[i], strlen(own_paths[i]))) return true;
    return false;
}

static bool is_file(int descriptor) {
    struct stat status;
    return !fstat(descriptor, &status) && S_ISREG(status.st_mode);
}

static bool is_socket(int descriptor) {
    struct stat status;
    return !fstat(descriptor, &status) && S_ISSOCK(status.st_mode);
}

/* Looks whether a call can be made by descriptors. */
static void look(char **words) {
    struct rlimit memory;
    if (fcntl(0, F_GETFD) < 0) beyond("standard input that is closed");
    if (getrlimit(RLIMIT_AS, &memory)) fail("stand_in: getrlimit");
    if (memory.rlim_cur != RLIM_INFINITY) beyond("a limit of memory");
    while (*++words)
        if (is_own_path(*words)) beyond("a path that each process has for itself");
    if (fcntl(1, F_GETFD) < 0 || fcntl(2, F_GETFD) < 0) beyond("an output that is closed");
    if (is_socket(0) || is_socket(1) || is_socket(2)) beyond("a socket");
    if (is_file(0) && lseek(0, 0, SEEK_CUR) != 0) beyond("standard input of which a part is read");
}

/* A descriptor from which the words are read, each ended by NUL. */
static int given(char **words) {
    int descriptor = memfd_create("words", 0);
    if (descriptor < 0) fail("stand_in: memfd_create");
    for (; *words; words++) {
        size_t size = strlen(*words) + 1;
        if (write(descriptor, *words, size) != (ssize_t)size) fail("stand_in: the words");
    }
    return descriptor;
}

/* Makes a call, and returns what is told of its end. */
static int status_of(char **words) {
    char text[64];
    int answer[2], words_given = given(words);
    int calls = open(FOLDER "/calls", O_WRONLY), over = open(FOLDER "/over", O_RDONLY | O_NONBLOCK);
    if (calls < 0 || over < 0 || pipe(answer)) fail("stand_in: pipe");
    int size = snprintf(text, sizeof text, "%d %d 0 %d\n", getpid(), words_given, answer[1]);
    if (write(calls, text, size) != size) fail("stand_in: the call");
    struct pollfd ends[] = {{.fd = answer[0], .events = POLLIN}, {.fd = over, .events = POLLIN}};
    if (poll(ends, 2, -1) < 0) fail("stand_in: poll");
    ssize_t told = ends[0].revents & POLLIN ? read(answer[0], text, sizeof text - 1) : 0;
    if (told <= 0) beyond("a call that nobody answers");
    text[told] = 0;
    return atoi(text);
}

int main(int argc, char **words) {
    (void)argc;
    look(words);
    words[0] = "paklour";
    int status = status_of(words);
    for (int output = 1; output <= 2; output++)
        if (is_file(output)) lseek(output, 0, SEEK_END); /* there others that have this descriptor go on */
    return status;
}
