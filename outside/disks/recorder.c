/* recorder IMAGE LOG FOLDER: mounts a folder with two files. `device` has the bytes of IMAGE and takes writes, of which IMAGE gets none: each write and
   each flush is a record of LOG, in the order in which they took effect. A loop device over it is a disk whose power can be cut at any record.

   A line written to `control` is a command:
     reset           all writes are undone, LOG is emptied, and what slow and fail said is forgotten
     mark TEXT       TEXT is a record, between those of the device
     slow MS TEXT    from now on a write with TEXT in it takes up to MS milliseconds, during which others overtake it
     fail TEXT       a write with TEXT in it fails, until `fail` alone
     fail flush      each flush fails, likewise

   A record is its kind, length and offset, three numbers of 8 bytes, and then its bytes. The program ends when FOLDER is unmounted, or the process
   that started it ends. */
#define _GNU_SOURCE
#define FUSE_USE_VERSION 31
#include <errno.h>
#include <fcntl.h>
#include <fuse3/fuse.h>
#include <pthread.h>
#include <signal.h>
#include <stdbool.h>
#include <stdint.h>
#include <stdio.h>
#include <stdlib.h>
#include <string.h>
#include <sys/mman.h>
#include <sys/prctl.h>
#include <sys/stat.h>
#include <time.h>
#include <unistd.h>

enum { BLOCK = 4096, LONGEST_TEXT = 128 };
enum kind { WRITE, FLUSH, MARK };

struct record {
    uint64_t kind, length, offset;
};

static struct {
    pthread_mutex_t lock;
    const char *image; /* as it was at the start */
    char *bytes;       /* as the device is */
    bool *changed;     /* for each block, whether it was written since then */
    uint64_t size;
    int log;
    unsigned delay, random; /* milliseconds at most, and what they are drawn by */
    char slow[LONGEST_TEXT], fail[LONGEST_TEXT];
    bool flush_fails;
} device = {.lock = PTHREAD_MUTEX_INITIALIZER, .random = 1};

static void must(bool done, const char *what) {
    if (done) return;
    perror(what);
    exit(2);
}

static void note(enum kind kind, uint64_t offset, const char *bytes, uint64_t length) {
    struct record record = {kind, length, offset};
    must(write(device.log, &record, sizeof record) == sizeof record, "log");
    must(write(device.log, bytes, length) == (ssize_t)length, "log");
}

static bool has(const char *bytes, size_t length, const char *text) { return *text && memmem(bytes, length, text, strlen(text)); }

/* ---- commands */

static void undo_all(void) {
    for (uint64_t block = 0; block < device.size / BLOCK; block++) {
        if (device.changed[block]) memcpy(device.bytes + block * BLOCK, device.image + block * BLOCK, BLOCK);
        device.changed[block] = false;
    }
    must(!ftruncate(device.log, 0) && !lseek(device.log, 0, SEEK_SET), "log");
    *device.slow = *device.fail = 0;
    device.flush_fails = false;
}

/* The text behind a command's word, or NULL if the line has another word. */
static const char *behind(const char *line, const char *word) {
    size_t length = strlen(word);
    if (strncmp(line, word, length) || (line[length] && line[length] != ' ')) return NULL;
    return line[length] ? line + length + 1 : "";
}

static int obey(const char *line) {
    const char *text;
    int begin = 0;
    if (behind(line, "reset")) {
        undo_all();
    } else if ((text = behind(line, "mark"))) {
        note(MARK, 0, text, strlen(text));
    } else if ((text = behind(line, "slow")) && sscanf(text, "%u %n", &device.delay, &begin) == 1 && begin) {
        snprintf(device.slow, sizeof device.slow, "%s", text + begin);
    } else if ((text = behind(line, "fail"))) {
        device.flush_fails = !strcmp(text, "flush");
        snprintf(device.fail, sizeof device.fail, "%s", device.flush_fails ? "" : text);
    } else {
        return -EINVAL;
    }
    return 0;
}

static int command(const char *bytes, size_t length) {
    char line[LONGEST_TEXT];
    if (length >= sizeof line) return -EINVAL;
    memcpy(line, bytes, length);
    line[length] = 0;
    pthread_mutex_lock(&device.lock);
    int result = obey(line);
    pthread_mutex_unlock(&device.lock);
    return result ? result : (int)length;
}

/* ---- the device */

static int change(const char *bytes, size_t length, uint64_t offset) {
    if (has(bytes, length, device.fail)) return -EIO;
    memcpy(device.bytes + offset, bytes, length);
    for (uint64_t block = offset / BLOCK; block * BLOCK < offset + length; block++) device.changed[block] = true;
    note(WRITE, offset, bytes, length);
    return (int)length;
}

/* How long this write takes, in nanoseconds. */
static long delay_of(const char *bytes, size_t length) {
    if (!has(bytes, length, device.slow)) return 0;
    return (long)(rand_r(&device.random) % (device.delay + 1)) * 1000000;
}

static int write_device(const char *bytes, size_t length, uint64_t offset) {
    if (offset + length > device.size) return -ENOSPC;
    if (!length) return 0;
    pthread_mutex_lock(&device.lock);
    struct timespec delay = {.tv_nsec = delay_of(bytes, length)};
    if (delay.tv_nsec) {
        pthread_mutex_unlock(&device.lock);
        nanosleep(&delay, NULL);
        pthread_mutex_lock(&device.lock);
    }
    int result = change(bytes, length, offset);
    pthread_mutex_unlock(&device.lock);
    return result;
}

static int read_device(char *bytes, size_t length, uint64_t offset) {
    if (offset >= device.size) return 0;
    if (length > device.size - offset) length = device.size - offset;
    pthread_mutex_lock(&device.lock);
    memcpy(bytes, device.bytes + offset, length);
    pthread_mutex_unlock(&device.lock);
    return (int)length;
}

static int flush_device(void) {
    pthread_mutex_lock(&device.lock);
    bool fails = device.flush_fails;
    if (!fails) note(FLUSH, 0, "", 0);
    pthread_mutex_unlock(&device.lock);
    return fails ? -EIO : 0;
}

/* ---- the two files, as FUSE asks for them */

static bool is_device(const char *path) { return !strcmp(path, "/device"); }

static bool is_file(const char *path) { return is_device(path) || !strcmp(path, "/control"); }

static int on_getattr(const char *path, struct stat *told, struct fuse_file_info *file) {
    (void)file;
    if (strcmp(path, "/") && !is_file(path)) return -ENOENT;
    *told = (struct stat){.st_nlink = 1, .st_mode = is_file(path) ? S_IFREG | 0600 : S_IFDIR | 0700};
    if (is_device(path)) told->st_size = (off_t)device.size;
    return 0;
}

static int on_readdir(const char *path, void *into, fuse_fill_dir_t fill, off_t from, struct fuse_file_info *file, enum fuse_readdir_flags flags) {
    (void)path, (void)from, (void)file, (void)flags;
    fill(into, "device", NULL, 0, 0);
    fill(into, "control", NULL, 0, 0);
    return 0;
}

/* What is written goes to the device at once, and isn't kept by the kernel on the way. */
static int on_open(const char *path, struct fuse_file_info *file) {
    file->direct_io = 1;
    return is_file(path) ? 0 : -ENOENT;
}

static int on_read(const char *path, char *bytes, size_t length, off_t offset, struct fuse_file_info *file) {
    (void)file;
    return is_device(path) ? read_device(bytes, length, (uint64_t)offset) : 0;
}

static int on_write(const char *path, const char *bytes, size_t length, off_t offset, struct fuse_file_info *file) {
    (void)file;
    return is_device(path) ? write_device(bytes, length, (uint64_t)offset) : command(bytes, length);
}

static int on_fsync(const char *path, int only_data, struct fuse_file_info *file) {
    (void)only_data, (void)file;
    return is_device(path) ? flush_device() : 0;
}

static int on_truncate(const char *path, off_t length, struct fuse_file_info *file) {
    (void)length, (void)file;
    return is_device(path) ? -EPERM : 0;
}

int main(int count, char **words) {
    if (count != 4) return fprintf(stderr, "recorder IMAGE LOG FOLDER\n"), 2;
    must(!prctl(PR_SET_PDEATHSIG, SIGKILL), "prctl");
    int image = open(words[1], O_RDONLY | O_CLOEXEC);
    struct stat told;
    must(image >= 0 && !fstat(image, &told), words[1]);
    device.size = (uint64_t)told.st_size;
    device.image = mmap(NULL, device.size, PROT_READ, MAP_SHARED, image, 0);
    device.bytes = mmap(NULL, device.size, PROT_READ | PROT_WRITE, MAP_PRIVATE, image, 0);
    must(device.image != MAP_FAILED && device.bytes != MAP_FAILED, words[1]);
    must((device.changed = calloc(device.size / BLOCK + 1, sizeof *device.changed)), "memory");
    device.log = open(words[2], O_RDWR | O_CREAT | O_TRUNC | O_CLOEXEC, 0600);
    must(device.log >= 0, words[2]);
    struct fuse_operations answers = {
        .getattr = on_getattr,
        .readdir = on_readdir,
        .open = on_open,
        .read = on_read,
        .write = on_write,
        .fsync = on_fsync,
        .truncate = on_truncate,
    };
    char *told_to_fuse[] = {words[0], "-f", words[3], NULL};
    return fuse_main(3, told_to_fuse, &answers, NULL);
}
