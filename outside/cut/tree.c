#define _GNU_SOURCE
#include "tree.h"

#include "book.h"

#include <errno.h>
#include <fcntl.h>
#include <stdio.h>
#include <sys/resource.h>
#include <sys/stat.h>
#include <unistd.h>

void raise_limit_of_descriptors(void) {
    struct rlimit limit;
    if (getrlimit(RLIMIT_NOFILE, &limit)) return;
    limit.rlim_cur = limit.rlim_max;
    setrlimit(RLIMIT_NOFILE, &limit);
}

/* ---- what a name leads to */

static _Noreturn void refuse_below(int folder, const char *name, const char *why) {
    char link[64], path[PATH_MAX] = "", both[LONG_PATH + NAME_MAX];
    bool is_folder = !*name || !strcmp(name, ".");
    snprintf(link, sizeof link, "/proc/self/fd/%d", folder);
    ssize_t length = readlink(link, path, sizeof path - 1);
    snprintf(both, sizeof both, "%s%s%s", length > 0 ? path : "", is_folder ? "" : "/", is_folder ? "" : name);
    refuse(both, why);
}

static void must_below(bool done, int folder, const char *name) {
    if (!done) refuse_below(folder, name, strerror(errno));
}

static void look_at(int folder, const char *name, struct statx *told) {
    unsigned wanted = STATX_BASIC_STATS | STATX_BTIME | STATX_MNT_ID;
    must_below(!statx(folder, name, AT_SYMLINK_NOFOLLOW | AT_EMPTY_PATH | AT_NO_AUTOMOUNT, wanted, told), folder, name);
}

static struct identity identity_of(const struct statx *told) {
    return (struct identity){
        .device = (uint64_t)told->stx_dev_major << 32 | told->stx_dev_minor,
        .key = told_key(told),
    };
}

/* Looks at a name and refuses what is mounted there. A mount of the same file system shows only by its number, and a folder of another file system
   may be there without a mount. */
static void look_below(const struct tree *tree, int folder, const char *name, struct statx *told) {
    look_at(folder, name, told);
    if (told->stx_mnt_id != tree->mount) refuse_below(folder, name, "something is mounted here, below ROOT: nothing is emptied");
    if (S_ISDIR(told->stx_mode) && identity_of(told).device != tree->identity.device)
        refuse_below(folder, name, "another file system is here, below ROOT: nothing is emptied");
}

static bool is_folder(const struct tree *tree, int folder, const char *name) {
    struct statx told;
    look_below(tree, folder, name, &told);
    return S_ISDIR(told.stx_mode);
}

/* ---- folders */

void open_tree(struct tree *tree, const char *path) {
    struct statx told;
    struct stat itself;
    tree->folder = open(path, O_RDONLY | O_DIRECTORY | O_NOFOLLOW | O_CLOEXEC);
    if (tree->folder < 0 && errno == ENOTDIR && !lstat(path, &itself))
        refuse(path, S_ISLNK(itself.st_mode) ? "a symbolic link, and not a folder itself" : "not a folder");
    must(tree->folder >= 0, path);
    look_at(tree->folder, "", &told);
    if (!(told.stx_mask & STATX_MNT_ID)) refuse(path, "the system can't say what is mounted below it; Linux can since 5.8");
    errno = ENOTSUP;
    must(told.stx_mask & STATX_BTIME, path);
    tree->identity = identity_of(&told);
    tree->mount = told.stx_mnt_id;
}

int open_below(const struct tree *tree, int above, const char *name) {
    struct statx told;
    int folder = openat(above, name, O_RDONLY | O_DIRECTORY | O_NOFOLLOW | O_CLOEXEC);
    must_below(folder >= 0, above, name);
    look_below(tree, folder, "", &told);
    return folder;
}

DIR *names_below(const struct tree *tree, int above, const char *name) {
    DIR *names = fdopendir(open_below(tree, above, name));
    must_below(names, above, name);
    return names;
}

const char *next_name(DIR *names) {
    struct dirent *entry;
    do {
        errno = 0;
        entry = readdir(names);
    } while (entry && (!strcmp(entry->d_name, ".") || !strcmp(entry->d_name, "..")));
    must_below(entry || !errno, dirfd(names), "");
    return entry ? entry->d_name : NULL;
}

/* ---- all that is below */

/* A folder that can't be read is checked only when it is emptied. */
static void check_folder(const struct tree *tree, int above, const char *name) {
    DIR *names = names_below(tree, above, name);
    for (const char *below; (below = next_name(names));) {
        bool has_names = is_folder(tree, dirfd(names), below);
        if (has_names && !faccessat(dirfd(names), below, R_OK | X_OK, AT_EACCESS)) check_folder(tree, dirfd(names), below);
    }
    closedir(names);
}

void check_tree(const struct tree *tree) { check_folder(tree, tree->folder, "."); }

/* Makes a folder readable and writable, so that it can be emptied. */
static void make_open(const struct tree *tree, int above, const char *name) {
    char link[64];
    struct statx told;
    int folder = openat(above, name, O_PATH | O_DIRECTORY | O_NOFOLLOW | O_CLOEXEC);
    must_below(folder >= 0, above, name);
    look_below(tree, folder, "", &told);
    snprintf(link, sizeof link, "/proc/self/fd/%d", folder);
    if ((told.stx_mode & 0700) != 0700) must_below(!chmod(link, (told.stx_mode & 07777) | 0700), above, name);
    close(folder);
}

static void empty_folder(const struct tree *tree, int above, const char *name) {
    make_open(tree, above, name);
    DIR *names = names_below(tree, above, name);
    for (const char *below; (below = next_name(names));) {
        bool has_names = is_folder(tree, dirfd(names), below);
        if (has_names) empty_folder(tree, dirfd(names), below);
        must_below(!unlinkat(dirfd(names), below, has_names ? AT_REMOVEDIR : 0), dirfd(names), below);
    }
    closedir(names);
}

void empty_tree(const struct tree *tree) { empty_folder(tree, tree->folder, "."); }
