/* random_files SEED STEPS TASKS: that many random steps on the files of the folder that it is started in, by so many threads, every
   other of which goes on in a process of its own. `sync` behind them syncs all; `each` syncs each file and folder by itself. */
#define _GNU_SOURCE
#include <dirent.h>
#include <errno.h>
#include <fcntl.h>
#include <pthread.h>
#include <stdbool.h>
#include <stdio.h>
#include <stdlib.h>
#include <string.h>
#include <sys/mman.h>
#include <sys/sendfile.h>
#include <sys/stat.h>
#include <sys/syscall.h>
#include <sys/uio.h>
#include <sys/wait.h>
#include <unistd.h>

enum { MOST_TASKS = 6, MOST_LENGTH = 20000, OPENED = 6, PAGE = 4096 };

struct actor {
    unsigned state;
    int steps;
    bool is_alone; /* else a file could come back to the folder while somebody writes to it elsewhere, unseen */
    int files[OPENED];
};

static unsigned some(struct actor *actor, unsigned below) { return (unsigned)rand_r(&actor->state) % below; }

/* One of a few names, so that they meet: in folders, through a link, by way of `..`. */
static const char *some_name(struct actor *actor, char *name) {
    static const char *const folders[] = {"", "one/", "two/", "one/deep/", "way/", "one/../two/", "./"};
    sprintf(name, "%s%c", folders[some(actor, 7)], 'a' + (int)some(actor, 6));
    return name;
}

static const char *some_folder(struct actor *actor) {
    static const char *const folders[] = {"one", "two", "one/deep", "two/deep", "three"};
    return folders[some(actor, 5)];
}

static int *some_file(struct actor *actor) { return &actor->files[some(actor, OPENED)]; }

static char *some_bytes(struct actor *actor, char *bytes, size_t length) {
    for (size_t i = 0; i < length; i++) bytes[i] = (char)('a' + (int)some(actor, 26));
    return bytes;
}

static size_t some_length(struct actor *actor) { return some(actor, 4) ? some(actor, 300) : some(actor, MOST_LENGTH); }

/* ---- steps */

static void open_one(struct actor *actor) {
    static const int ways[] = {O_RDWR, O_RDWR | O_CREAT, O_RDWR | O_CREAT | O_TRUNC, O_RDWR | O_CREAT | O_EXCL, O_RDWR | O_CREAT | O_APPEND,
        O_WRONLY | O_CREAT | O_DSYNC};
    char name[64];
    int *file = some_file(actor);
    if (*file >= 0) close(*file);
    if (some(actor, 8)) *file = open(some_name(actor, name), ways[some(actor, 6)], 0644);
    else *file = open(some_folder(actor), O_RDWR | O_TMPFILE, 0600);
}

static void write_one(struct actor *actor) {
    char bytes[MOST_LENGTH], more[300];
    size_t length = some_length(actor);
    int file = *some_file(actor);
    off_t at = some(actor, 12000);
    struct iovec parts[] = {{some_bytes(actor, bytes, length), length}, {some_bytes(actor, more, 300), some(actor, 300)}};
    static const int flags[] = {0, RWF_APPEND, RWF_DSYNC, RWF_SYNC};
    switch (some(actor, 5)) {
    case 0: if (write(file, bytes, length) < 0) return; break;
    case 1: if (pwrite(file, bytes, length, at) < 0) return; break;
    case 2: if (writev(file, parts, 2) < 0) return; break;
    case 3: if (pwritev(file, parts, 2, at) < 0) return; break;
    default: if (pwritev2(file, parts, 2, some(actor, 2) ? -1 : at, flags[some(actor, 4)]) < 0) return;
    }
}

static void resize_one(struct actor *actor) {
    static const int modes[] = {0, FALLOC_FL_KEEP_SIZE, FALLOC_FL_PUNCH_HOLE | FALLOC_FL_KEEP_SIZE, FALLOC_FL_ZERO_RANGE,
        FALLOC_FL_ZERO_RANGE | FALLOC_FL_KEEP_SIZE, FALLOC_FL_COLLAPSE_RANGE, FALLOC_FL_INSERT_RANGE};
    char name[64];
    unsigned which = some(actor, 4);
    if (which == 0) { if (ftruncate(*some_file(actor), some(actor, MOST_LENGTH))) return; }
    else if (which == 1) { if (truncate(some_name(actor, name), some(actor, MOST_LENGTH))) return; }
    else {
        int mode = modes[some(actor, 7)];
        off_t step = mode >= FALLOC_FL_COLLAPSE_RANGE && mode != FALLOC_FL_ZERO_RANGE ? PAGE : 1;
        if (fallocate(*some_file(actor), mode, (off_t)some(actor, 3) * step, (1 + (off_t)some(actor, 2)) * PAGE)) return;
    }
}

static void rename_one(struct actor *actor) {
    char from[64], to[64];
    unsigned which = some(actor, 8);
    if (which == 0) renameat2(AT_FDCWD, some_folder(actor), AT_FDCWD, some_folder(actor), some(actor, 3) ? 0 : RENAME_EXCHANGE);
    else if (which == 1) renameat2(AT_FDCWD, some_name(actor, from), AT_FDCWD, some_name(actor, to), RENAME_EXCHANGE);
    else if (which == 2) renameat2(AT_FDCWD, some_name(actor, from), AT_FDCWD, some_name(actor, to), RENAME_NOREPLACE);
    else if (which == 3 && actor->is_alone) rename(some_name(actor, from), "../outside");
    else if (which == 4 && actor->is_alone) rename("../outside", some_name(actor, to));
    else rename(some_name(actor, from), some_name(actor, to));
}

static void name_one(struct actor *actor) {
    char from[64], to[64];
    switch (some(actor, 6)) {
    case 0: if (link(some_name(actor, from), some_name(actor, to))) return; break;
    case 1: if (symlink(some_name(actor, from), some_name(actor, to))) return; break;
    case 2: unlink(some_name(actor, from)); break;
    case 3: mkdir(some_folder(actor), 0755); break;
    case 4: rmdir(some_folder(actor)); break;
    default:
        sprintf(from, "/proc/self/fd/%d", *some_file(actor));
        linkat(AT_FDCWD, from, AT_FDCWD, some_name(actor, to), AT_SYMLINK_FOLLOW);
    }
}

static void copy_one(struct actor *actor) {
    int from = *some_file(actor), to = *some_file(actor), pipes[2];
    size_t length = some_length(actor);
    loff_t at = some(actor, 9000), in_at = some(actor, 9000);
    switch (some(actor, 3)) {
    case 0: copy_file_range(from, &in_at, to, some(actor, 2) ? &at : NULL, length, 0); break;
    case 1: lseek(from, 0, SEEK_SET); sendfile(to, from, some(actor, 2) ? &in_at : NULL, length); break;
    default:
        if (pipe(pipes)) return;
        if (write(pipes[1], "piped bytes", 11) == 11) splice(pipes[0], NULL, to, some(actor, 2) ? &at : NULL, 1 + some(actor, 11), 0);
        close(pipes[0]);
        close(pipes[1]);
    }
}

static void map_one(struct actor *actor) {
    struct stat told;
    int file = *some_file(actor);
    if (fstat(file, &told) || told.st_size < 1) return;
    int protection = some(actor, 2) ? PROT_READ | PROT_WRITE : PROT_READ;
    char *memory = mmap(NULL, (size_t)told.st_size, protection, MAP_SHARED, file, 0);
    if (memory == MAP_FAILED) return;
    if (!(protection & PROT_WRITE)) mprotect(memory, (size_t)told.st_size, PROT_READ | PROT_WRITE);
    size_t at = some(actor, (unsigned)told.st_size);
    struct iovec here = {(char[]){"stored"}, 6}, there = {memory + at, at + 6 <= (size_t)told.st_size ? 6 : 1};
    process_vm_writev(getpid(), &here, 1, &there, 1, 0); /* who cut the file meanwhile gets an error, no signal */
    if (some(actor, 3) == 0) msync(memory, (size_t)told.st_size, MS_SYNC);
    munmap(memory, (size_t)told.st_size);
}

static void sync_one(struct actor *actor) {
    int folder;
    switch (some(actor, 4)) {
    case 0: fsync(*some_file(actor)); break;
    case 1: fdatasync(*some_file(actor)); break;
    case 2:
        folder = open(some(actor, 2) ? "." : some_folder(actor), O_RDONLY | O_DIRECTORY);
        fsync(folder);
        close(folder);
        break;
    default: lseek(*some_file(actor), some(actor, 9000), SEEK_SET);
    }
}

static void *act(void *with) {
    static void (*const all[])(struct actor *) = {open_one, open_one, write_one, write_one, write_one, resize_one, rename_one, name_one,
        name_one, copy_one, map_one, sync_one};
    struct actor *actor = with;
    for (int i = 0; i < actor->steps; i++) all[some(actor, sizeof all / sizeof *all)](actor);
    return NULL;
}

/* ---- the end */

static void sync_tree(int folder) {
    struct stat told;
    DIR *names = fdopendir(folder);
    for (struct dirent *entry; names && (entry = readdir(names));) {
        if (!strcmp(entry->d_name, ".") || !strcmp(entry->d_name, "..")) continue;
        if (fstatat(folder, entry->d_name, &told, AT_SYMLINK_NOFOLLOW) || S_ISLNK(told.st_mode)) continue;
        int file = openat(folder, entry->d_name, O_RDONLY | O_NOFOLLOW);
        fsync(file);
        if (S_ISDIR(told.st_mode)) sync_tree(file);
        else close(file);
    }
    fsync(folder);
    if (names) closedir(names);
}

int main(int count, char **words) {
    struct actor actors[MOST_TASKS];
    pthread_t threads[MOST_TASKS];
    if (count < 4) return 64;
    int seed = atoi(words[1]), tasks = atoi(words[3]);
    mkdir("one", 0755), mkdir("two", 0755), mkdir("one/deep", 0755);
    if (symlink("one/deep", "way")) return 65;
    for (int i = 0; i < tasks; i++) {
        actors[i] = (struct actor){.state = (unsigned)(seed * 31 + i), .steps = atoi(words[2]) / tasks,
            .is_alone = tasks == 1, .files = {-1, -1, -1, -1, -1, -1}};
        if (i % 2 && !fork()) {
            act(&actors[i]);
            _exit(0);
        }
        if (i % 2 == 0 && pthread_create(&threads[i], NULL, act, &actors[i])) return 66;
    }
    for (int i = 0; i < tasks; i += 2) pthread_join(threads[i], NULL);
    while (wait(NULL) > 0) continue;
    if (count > 4 && !strcmp(words[4], "sync")) sync();
    if (count > 4 && !strcmp(words[4], "each")) sync_tree(open(".", O_RDONLY | O_DIRECTORY));
    return 0;
}
