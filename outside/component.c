/* component STEP..: does one call of the C library after the other and writes what each came to, a line each: what it
   answered, or the name of its error. A step is a word and its arguments; the calls without a name use the file opened last.

     open NAME, create NAME, creat NAME (the same by that call), log NAME (its writes sync by themselves), folder NAME,
        tmpfile FOLDER (it has no name)
     write TEXT, pwrite TEXT, writev TEXT TEXT, pwritev TEXT TEXT, pwritev2 TEXT (synced by itself), fill N (so many bytes)
     read N, pread N, readv N N, preadv N N, preadv2 N
     writev_nowhere, readv_nowhere: with a list of parts that isn't there
     fsync, fdatasync, sync_file_range, sync, syncfs, ftruncate N, truncate NAME N, fallocate MODE PLACE N, posix_fallocate N
     chmod MODE (in digits to the base 8)
     copy NAME N, sendfile NAME N: so many bytes of that file into the open one
     rename FROM TO, exchange ONE OTHER, link FROM TO, name NAME (gives the open file a name), unlink NAME, remove NAME
     mkdir NAME, rmdir NAME, symlink TEXT NAME, target NAME N (what that link leads to, into so much room), mkstemp PATTERN, mkstemps PATTERN N, mkdtemp PATTERN
     stream NAME MODE, reopened MODE (a stream of the open file), moved NAME (the stream is one of that file from now on)
     print TEXT, gets N, flush, stream_sync, close_stream; dprint TEXT, vdprint TEXT
     map N, store PLACE TEXT, msync PLACE N, remap N, unmap
     pair (of sockets), listen NAME, connect NAME, accept, send TEXT, recv N, tell TEXT (by write), hear N (by read), sendmsg
        TEXT,
     sendmmsg TEXT, recvmsg N
     child: a child does the steps that follow, up to `parent`, while this process waits
     splice TEXT, aio_write TEXT, aio_fsync
     direct NAME TEXT: makes that file of that text past the C library, as a program in Go calls the system
     threads N: so many threads write a byte each; answers how many of them failed
     end N, quit N (the same by _Exit): ends at once with that status
     forget: closes each descriptor above 2, also those that it doesn't know
     cover N: makes every descriptor above 2 and up to N one of the open file */
#define _GNU_SOURCE
#include <aio.h>
#include <errno.h>
#include <fcntl.h>
#include <pthread.h>
#include <stdarg.h>
#include <stdbool.h>
#include <stdio.h>
#include <stdlib.h>
#include <string.h>
#include <sys/mman.h>
#include <sys/sendfile.h>
#include <sys/socket.h>
#include <sys/stat.h>
#include <sys/syscall.h>
#include <sys/uio.h>
#include <sys/un.h>
#include <sys/wait.h>
#include <unistd.h>

/* The same steps by the calls that take a folder, or more arguments. */
#ifdef AT
#define open(name, ...) openat(AT_FDCWD, name, __VA_ARGS__)
#define mkdir(name, mode) mkdirat(AT_FDCWD, name, mode)
#define rename(from, to) renameat(AT_FDCWD, from, AT_FDCWD, to)
#define link(from, to) linkat(AT_FDCWD, from, AT_FDCWD, to, 0)
#define symlink(target, name) symlinkat(target, AT_FDCWD, name)
#define readlink(name, text, room) readlinkat(AT_FDCWD, name, text, room)
#define unlink(name) unlinkat(AT_FDCWD, name, 0)
#define rmdir(name) unlinkat(AT_FDCWD, name, AT_REMOVEDIR)
#define mkstemp(pattern) mkostemp(pattern, 0)
#define mkostemps(pattern, suffix, flags) mkstemps(pattern, suffix)
#define fileno(stream) fileno_unlocked(stream)
#define send(file, bytes, length, flags) sendto(file, bytes, length, flags, NULL, 0)
#define recv(file, bytes, length, flags) recvfrom(file, bytes, length, flags, NULL, NULL)
#define accept(file, from, length) accept4(file, from, length, 0)
#endif

static int file = -1, ends[2] = {-1, -1};
static FILE *stream;
static char bytes[4096], *memory;
static size_t mapped;

static size_t number(const char *text) { return strtoul(text, NULL, 10); }
static struct iovec text_part(char *text) { return (struct iovec){text, strlen(text)}; }

/* ---- files */

static long keep(int made) {
    if (made >= 0) file = made;
    return made < 0 ? -1 : 0;
}
static long opened(const char *name, int flags) { return keep(open(name, flags | O_CLOEXEC, 0644)); }

static long do_open(char **with) { return opened(with[0], O_RDWR); }
static long do_create(char **with) { return opened(with[0], O_RDWR | O_CREAT | O_TRUNC); }
static long do_creat(char **with) { return keep(creat(with[0], 0644)); }
static long do_log(char **with) { return opened(with[0], O_RDWR | O_CREAT | O_APPEND | O_DSYNC); }
static long do_folder(char **with) {
    volatile int flags = O_RDONLY | O_DIRECTORY | O_CLOEXEC; /* so that no compiler knows that no mode is needed */
    return keep(open(with[0], flags));
}
static long do_tmpfile(char **with) { return opened(with[0], O_RDWR | O_TMPFILE); }

static long do_write(char **with) { return write(file, with[0], strlen(with[0])); }
static long do_pwrite(char **with) { return pwrite(file, with[0], strlen(with[0]), 0); }
static long do_writev(char **with) { return writev(file, (struct iovec[]){text_part(with[0]), text_part(with[1])}, 2); }
static long do_pwritev(char **with) { return pwritev(file, (struct iovec[]){text_part(with[0]), text_part(with[1])}, 2, 0); }
static long do_pwritev2(char **with) { return pwritev2(file, (struct iovec[]){text_part(with[0])}, 1, 0, RWF_DSYNC); }
static long do_fill(char **with) {
    size_t length = number(with[0]);
    char *filling = malloc(length);
    memset(filling, 'x', length);
    long result = write(file, filling, length);
    free(filling);
    return result;
}

static long do_read(char **with) { return read(file, bytes, number(with[0])); }
static long do_pread(char **with) { return pread(file, bytes, number(with[0]), 0); }
static long do_readv(char **with) {
    return readv(file, (struct iovec[]){{bytes, number(with[0])}, {bytes + 2048, number(with[1])}}, 2);
}
static long do_preadv(char **with) {
    return preadv(file, (struct iovec[]){{bytes, number(with[0])}, {bytes + 2048, number(with[1])}}, 2, 0);
}
static const struct iovec *volatile nowhere;
static long do_writev_nowhere(char **with) { return (void)with, writev(file, nowhere, 1); }
static long do_readv_nowhere(char **with) { return (void)with, readv(file, nowhere, 1); }
static long do_preadv2(char **with) { return preadv2(file, (struct iovec[]){{bytes, number(with[0])}}, 1, 0, 0); }

static long do_fsync(char **with) { return (void)with, fsync(file); }
static long do_fdatasync(char **with) { return (void)with, fdatasync(file); }
static long do_sync_file_range(char **with) { return (void)with, sync_file_range(file, 0, 0,
    SYNC_FILE_RANGE_WRITE | SYNC_FILE_RANGE_WAIT_AFTER); }
static long do_sync(char **with) { return (void)with, sync(), 0; }
static long do_syncfs(char **with) { return (void)with, syncfs(file); }
static long do_ftruncate(char **with) { return ftruncate(file, atol(with[0])); }
static long do_chmod(char **with) { return fchmod(file, (mode_t)strtoul(with[0], NULL, 8)); }
static long do_truncate(char **with) { return truncate(with[0], atol(with[1])); }
static long do_fallocate(char **with) { return fallocate(file, atoi(with[0]), atol(with[1]), atol(with[2])); }
static long do_posix_fallocate(char **with) {
    int error = posix_fallocate(file, 0, atol(with[0]));
    if (error) errno = error;
    return error ? -1 : 0;
}

static long copied(char **with, bool by_range) {
    int from = open(with[0], O_RDONLY | O_CLOEXEC);
    long result = by_range ? copy_file_range(from, NULL, file, NULL, number(with[1]), 0) : sendfile(file, from, NULL,
        number(with[1]));
    int error = errno;
    close(from);
    errno = error;
    return result;
}
static long do_copy(char **with) { return copied(with, true); }
static long do_sendfile(char **with) { return copied(with, false); }

/* ---- names */

static long do_rename(char **with) { return rename(with[0], with[1]); }
static long do_exchange(char **with) { return renameat2(AT_FDCWD, with[0], AT_FDCWD, with[1], RENAME_EXCHANGE); }
static long do_link(char **with) { return link(with[0], with[1]); }
static long do_name(char **with) {
    snprintf(bytes, sizeof bytes, "/proc/self/fd/%d", file);
    return linkat(AT_FDCWD, bytes, AT_FDCWD, with[0], AT_SYMLINK_FOLLOW);
}
static long do_unlink(char **with) { return unlink(with[0]); }
static long do_remove(char **with) { return remove(with[0]); }
static long do_mkdir(char **with) { return mkdir(with[0], 0755); }
static long do_rmdir(char **with) { return rmdir(with[0]); }
static long do_symlink(char **with) { return symlink(with[0], with[1]); }

static long do_target(char **with) {
    char text[4096];
    long length = readlink(with[0], text, (size_t)atoi(with[1]));
    if (length > 0) dprintf(1, "%.*s\n", (int)length, text);
    return length;
}

static long do_mkstemp(char **with) { return keep(mkstemp(strcpy(bytes, with[0]))); }
static long do_mkstemps(char **with) { return keep(mkostemps(strcpy(bytes, with[0]), atoi(with[1]), O_CLOEXEC)); }
static long do_mkdtemp(char **with) { return mkdtemp(strcpy(bytes, with[0])) ? 0 : -1; }

/* ---- streams */

static long kept_stream(FILE *made) {
    stream = made;
    return made ? 0 : -1;
}
static long do_stream(char **with) { return kept_stream(fopen(with[0], with[1])); }
static long do_reopened(char **with) { return kept_stream(fdopen(file, with[0])); }
static long do_moved(char **with) { return kept_stream(freopen(with[0], "w", stream)); }
static long do_print(char **with) { return fprintf(stream, "%s", with[0]); }
static long do_gets(char **with) { return fgets(bytes, atoi(with[0]) + 1, stream) ? (long)strlen(bytes) : ferror(stream)
    ? -1 : 0; }
static long do_flush(char **with) { return (void)with, fflush(stream); }
static long do_stream_sync(char **with) { return (void)with, fsync(fileno(stream)); }
static long do_close_stream(char **with) { return (void)with, fclose(stream); }
static long do_dprint(char **with) { return dprintf(file, "%s", with[0]); }
static long printed(const char *format, ...) {
    va_list rest;
    va_start(rest, format);
    long result = vdprintf(file, format, rest);
    va_end(rest);
    return result;
}
static long do_vdprint(char **with) { return printed("%s", with[0]); }

/* ---- mappings */

static long do_map(char **with) {
    mapped = number(with[0]);
    memory = mmap(NULL, mapped, PROT_READ | PROT_WRITE, MAP_SHARED, file, 0);
    return memory == MAP_FAILED ? -1 : 0;
}
static long do_store(char **with) { return memcpy(memory + number(with[0]), with[1], strlen(with[1])), 0; }
static long do_msync(char **with) { return msync(memory + number(with[0]), number(with[1]), MS_SYNC); }
static long do_remap(char **with) {
    memory = mremap(memory, mapped, number(with[0]), MREMAP_MAYMOVE);
    mapped = number(with[0]);
    return memory == MAP_FAILED ? -1 : 0;
}
static long do_unmap(char **with) { return (void)with, munmap(memory, mapped); }

/* ---- sockets */

static struct sockaddr_un address_of(const char *name) {
    struct sockaddr_un address = {.sun_family = AF_UNIX};
    snprintf(address.sun_path, sizeof address.sun_path, "%s", name);
    return address;
}
static long do_pair(char **with) { return (void)with, socketpair(AF_UNIX, SOCK_STREAM, 0, ends); }
static long do_listen(char **with) {
    struct sockaddr_un address = address_of(with[0]);
    ends[1] = socket(AF_UNIX, SOCK_STREAM, 0);
    return bind(ends[1], (struct sockaddr *)&address, sizeof address) ? -1 : listen(ends[1], 8);
}
static long do_connect(char **with) {
    struct sockaddr_un address = address_of(with[0]);
    ends[0] = socket(AF_UNIX, SOCK_STREAM, 0);
    return connect(ends[0], (struct sockaddr *)&address, sizeof address);
}
static long do_accept(char **with) {
    int made = accept(ends[1], NULL, NULL);
    (void)with;
    if (made >= 0) ends[1] = made;
    return made < 0 ? -1 : 0;
}
static long do_send(char **with) { return send(ends[0], with[0], strlen(with[0]), 0); }
static long do_recv(char **with) { return recv(ends[1], bytes, number(with[0]), MSG_DONTWAIT); }
static long do_tell(char **with) { return write(ends[0], with[0], strlen(with[0])); }
static long do_hear(char **with) { return read(ends[1], bytes, number(with[0])); }

static long do_sendmsg(char **with) {
    struct iovec part = text_part(with[0]);
    return sendmsg(ends[0], &(struct msghdr){.msg_iov = &part, .msg_iovlen = 1}, 0);
}
static long do_sendmmsg(char **with) {
    struct iovec part = text_part(with[0]);
    return sendmmsg(ends[0], &(struct mmsghdr){.msg_hdr = {.msg_iov = &part, .msg_iovlen = 1}}, 1, 0);
}
static long do_recvmsg(char **with) {
    struct iovec part = {bytes, number(with[0])};
    return recvmsg(ends[1], &(struct msghdr){.msg_iov = &part, .msg_iovlen = 1}, MSG_DONTWAIT);
}

/* ---- programs and threads */

static long do_splice(char **with) {
    int pipes[2];
    if (pipe(pipes) || write(pipes[1], with[0], strlen(with[0])) < 0) return -1;
    return splice(pipes[0], NULL, file, NULL, strlen(with[0]), 0);
}
static long ended(struct aiocb *what) {
    while ((errno = aio_error(what)) == EINPROGRESS) usleep(1000);
    return aio_return(what);
}
static long do_aio_write(char **with) {
    struct aiocb what = {.aio_fildes = file, .aio_buf = with[0], .aio_nbytes = strlen(with[0])};
    if (aio_write(&what)) return -1;
    return ended(&what);
}
static long do_aio_fsync(char **with) {
    struct aiocb what = {.aio_fildes = file};
    (void)with;
    if (aio_fsync(O_SYNC, &what)) return -1;
    return ended(&what);
}
static long do_direct(char **with) {
    file = (int)syscall(SYS_openat, AT_FDCWD, with[0], O_WRONLY | O_CREAT | O_TRUNC, 0644);
    long written = file < 0 ? -1 : syscall(SYS_write, file, with[1], strlen(with[1]));
    return written < 0 || syscall(SYS_fsync, file) || syscall(SYS_close, file) ? -1 : written;
}
static long do_end(char **with) { _exit(atoi(with[0])); }
static long do_quit(char **with) { _Exit(atoi(with[0])); }
static long do_forget(char **with) { return (void)with, close_range(3, ~0U, 0); }
static long do_cover(char **with) {
    int from = file, to = (int)number(with[0]);
    for (int other = 3; other <= to; other++)
        if (other != from && dup2(from, other) < 0) return -1;
    return 0;
}

static void *write_byte(void *unused) {
    (void)unused;
    return write(file, "x", 1) == 1 ? NULL : bytes;
}

static long do_threads(char **with) {
    pthread_t made[64];
    long failed = 0, count = atol(with[0]);
    void *answer;
    for (int i = 0; i < count; i++)
        if (pthread_create(&made[i], NULL, write_byte, NULL)) exit(65);
    for (int i = 0; i < count; i++) {
        pthread_join(made[i], &answer);
        failed += answer != NULL;
    }
    return failed;
}

/* ---- steps */

#define STEP(name, arguments) {#name, arguments, do_##name}
static const struct step {
    const char *name;
    int arguments;
    long (*does)(char **with);
} all_steps[] = {
    STEP(open, 1), STEP(create, 1), STEP(creat, 1), STEP(log, 1), STEP(folder, 1), STEP(tmpfile, 1), STEP(write, 1),
    STEP(pwrite, 1), STEP(writev, 2), STEP(pwritev, 2), STEP(pwritev2, 1), STEP(fill, 1), STEP(read, 1), STEP(pread, 1),
    STEP(readv, 2), STEP(preadv, 2), STEP(preadv2, 1), STEP(fsync, 0), STEP(fdatasync, 0), STEP(sync_file_range, 0),
    STEP(sync, 0), STEP(syncfs, 0), STEP(ftruncate, 1), STEP(chmod, 1), STEP(truncate, 2), STEP(fallocate, 3), STEP(posix_fallocate, 1),
    STEP(copy, 2), STEP(sendfile, 2), STEP(rename, 2), STEP(exchange, 2), STEP(link, 2), STEP(name, 1), STEP(unlink, 1),
    STEP(remove, 1), STEP(mkdir, 1), STEP(rmdir, 1), STEP(symlink, 2), STEP(target, 2), STEP(mkstemp, 1), STEP(mkstemps, 2), STEP(mkdtemp, 1),
    STEP(stream, 2), STEP(reopened, 1), STEP(moved, 1), STEP(print, 1), STEP(gets, 1), STEP(flush, 0), STEP(stream_sync, 0),
    STEP(close_stream, 0), STEP(dprint, 1), STEP(vdprint, 1), STEP(map, 1), STEP(store, 2), STEP(msync, 2), STEP(remap, 1),
    STEP(unmap, 0), STEP(pair, 0), STEP(listen, 1), STEP(connect, 1), STEP(accept, 0), STEP(send, 1), STEP(recv, 1),
    STEP(tell, 1), STEP(hear, 1), STEP(sendmsg, 1), STEP(sendmmsg, 1), STEP(recvmsg, 1), STEP(splice, 1),
    STEP(aio_write, 1), STEP(aio_fsync, 0), STEP(end, 1), STEP(quit, 1), STEP(forget, 0), STEP(cover, 1), STEP(threads, 1),
    STEP(direct, 2), STEP(writev_nowhere, 0), STEP(readv_nowhere, 0),
};

static const struct step *step_of(const char *name) {
    for (size_t i = 0; i < sizeof all_steps / sizeof *all_steps; i++)
        if (!strcmp(name, all_steps[i].name)) return &all_steps[i];
    dprintf(2, "component: no step %s\n", name);
    exit(64);
}

static void say(const char *step, long result) {
    if (result < 0) dprintf(1, "%s %s\n", step, strerrorname_np(errno));
    else dprintf(1, "%s %ld\n", step, result);
}

/* The steps up to `parent`, in a child; answers the place behind them. */
static int child(char **words, int at, int count);

static int steps(char **words, int at, int count) {
    while (at < count && strcmp(words[at], "parent")) {
        const char *name = words[at++];
        if (!strcmp(name, "child")) {
            at = child(words, at, count);
            continue;
        }
        const struct step *step = step_of(name);
        if (at + step->arguments > count) exit(64);
        say(name, step->does(words + at));
        at += step->arguments;
    }
    return at;
}

static int child(char **words, int at, int count) {
    int status = 0;
    pid_t made = fork();
    if (made == 0) {
        steps(words, at, count);
        _exit(0);
    }
    if (made < 0 || waitpid(made, &status, 0) < 0) exit(65);
    dprintf(1, "child %d\n", WEXITSTATUS(status));
    while (at < count && strcmp(words[at], "parent")) at++;
    return at + 1;
}

int main(int count, char **words) {
    steps(words, 1, count);
    return 0;
}
