/* Finds the file or folder that a name means to the thread that uses it. */
#define _GNU_SOURCE
#include "supervisor.h"

#include <errno.h>
#include <linux/magic.h>
#include <linux/openat2.h>
#include <stdio.h>
#include <sys/vfs.h>

enum { MOST_LINKS = 40 };

/* ---- a folder, part by part of the path that leads to it */

/* A thread may have another root than the supervisor, and links of /proc lead each process elsewhere. Then the path is walked as the system does it
   for the thread: `..` stays at its root, an absolute link begins there, and `/proc/self` is its own folder. */
struct way {
    const struct thread *thread;
    int root, here; /* the thread's root, and the folder to which the way has led */
    unsigned links;
    char rest[PATH_MAX];
};

static bool is_at_root(const struct way *way) {
    struct statx root, here;
    if (statx(way->root, "", AT_EMPTY_PATH, STATX_INO | STATX_MNT_ID, &root)) return false;
    if (statx(way->here, "", AT_EMPTY_PATH, STATX_INO | STATX_MNT_ID, &here)) return false;
    return root.stx_ino == here.stx_ino && root.stx_mnt_id == here.stx_mnt_id;
}

static void go_to(struct way *way, int folder) {
    if (way->here >= 0) close(way->here);
    way->here = folder;
}

/* Reads where a link leads. The text is empty for a link of /proc that leads to a file by itself, and not by a name. */
static bool read_way(const struct way *way, const char *name, int link, char *text) {
    struct statfs system;
    struct stat folder;
    if (fstatfs(link, &system) || fstat(way->here, &folder)) return false;
    bool in_proc = system.f_type == PROC_SUPER_MAGIC, at_top = folder.st_ino == 1;
    *text = 0;
    if (in_proc && !at_top) return true;
    if (in_proc && !strcmp(name, "self")) return sprintf(text, "%d", way->thread->process);
    if (in_proc && !strcmp(name, "thread-self")) return sprintf(text, "%d/task/%d", way->thread->process, way->thread->number);
    ssize_t length = readlinkat(link, "", text, PATH_MAX - 1);
    text[length < 0 ? 0 : length] = 0;
    return length > 0;
}

static bool follow(struct way *way, const char *name, int link) {
    char text[PATH_MAX], rest[PATH_MAX];
    errno = ELOOP;
    if (++way->links > MOST_LINKS || !read_way(way, name, link, text)) return false;
    if (!*text) {
        go_to(way, openat(way->here, name, O_PATH | O_CLOEXEC));
        return way->here >= 0;
    }
    if (*text == '/') go_to(way, openat(way->root, ".", O_PATH | O_CLOEXEC));
    errno = ENAMETOOLONG;
    if (snprintf(rest, sizeof rest, "%s/%s", text, way->rest) >= PATH_MAX) return false;
    strcpy(way->rest, rest);
    return way->here >= 0;
}

/* Goes on by the first part of the rest. */
static bool step(struct way *way) {
    char name[NAME_MAX + 1];
    size_t slashes = strspn(way->rest, "/"), length = strcspn(way->rest + slashes, "/");
    struct stat told;
    errno = ENAMETOOLONG;
    if (length > NAME_MAX) return false;
    *(char *)mempcpy(name, way->rest + slashes, length) = 0;
    memmove(way->rest, way->rest + slashes + length, strlen(way->rest + slashes + length) + 1);
    if (!*name || !strcmp(name, ".") || (!strcmp(name, "..") && is_at_root(way))) return true;
    int next = openat(way->here, name, O_PATH | O_NOFOLLOW | O_CLOEXEC);
    if (next < 0 || fstat(next, &told)) return false;
    if (!S_ISLNK(told.st_mode)) return go_to(way, next), true;
    bool follows = follow(way, name, next);
    close(next);
    return follows;
}

static int root_of(const struct thread *thread) {
    char path[64];
    snprintf(path, sizeof path, "/proc/%d/root", thread->number);
    return open(path, O_PATH | O_DIRECTORY | O_CLOEXEC);
}

static int walk(const struct thread *thread, int from, const char *text) {
    struct way way = {.thread = thread, .root = root_of(thread)};
    way.here = openat(*text == '/' ? way.root : from, ".", O_PATH | O_CLOEXEC);
    snprintf(way.rest, sizeof way.rest, "%s", text);
    bool goes_on = way.root >= 0 && way.here >= 0;
    while (goes_on && *way.rest) goes_on = step(&way);
    int folder = goes_on ? openat(way.here, ".", O_PATH | O_DIRECTORY | O_CLOEXEC) : -1, error = errno;
    go_to(&way, -1);
    if (way.root >= 0) close(way.root);
    errno = error;
    return folder;
}

/* Whether this is a folder of /proc. */
static bool is_in_proc(const struct found *found) {
    static uint64_t device;
    static bool is_proc;
    struct statfs system;
    if (device != found->of_folder.device) is_proc = !fstatfs(found->folder, &system) && system.f_type == PROC_SUPER_MAGIC;
    device = found->of_folder.device;
    return is_proc;
}

/* The folder at which a relative name begins: the thread's current folder, or one of its descriptors. */
static int first_folder(struct call *call, int folder) {
    return folder == AT_FDCWD ? folder_of(call->thread) : hold(call, fetch(call->thread, folder));
}

/* ---- one step: the folder of a name, and what the name is there */

static bool is_folder_itself(const char *name) { return !*name || !strcmp(name, ".") || !strcmp(name, ".."); }

/* Cuts a path into the path of its folder and its last part, which is "." if the path leads to the folder itself. */
static bool split(char *path, const char **folder, struct found *found) {
    size_t length = strlen(path);
    found->ends_in_slash = false;
    while (length > 1 && path[length - 1] == '/') {
        path[--length] = 0;
        found->ends_in_slash = true;
    }
    char *slash = strrchr(path, '/'), *name = slash ? slash + 1 : path;
    if (strlen(name) > NAME_MAX) {
        errno = ENAMETOOLONG;
        return false;
    }
    strcpy(found->name, is_folder_itself(name) ? "." : name);
    *folder = path;
    if (is_folder_itself(name)) return true;
    *folder = !slash ? "." : slash == path ? "/" : path;
    if (slash && slash != path) *slash = 0;
    return true;
}

/* Opens a folder in one call. This fails with ELOOP if a link of /proc is on the way, and for a thread with another root with EXDEV if a relative name
   leads out of the folder in which it begins, or with EAGAIN if the system can't tell. */
static int open_at_once(struct call *call, int from, const char *text) {
    struct open_how how = {.flags = O_PATH | O_DIRECTORY | O_CLOEXEC, .resolve = RESOLVE_NO_MAGICLINKS};
    bool is_absolute = *text == '/', is_elsewhere = call->thread->is_elsewhere;
    if (is_elsewhere) how.resolve |= is_absolute ? RESOLVE_IN_ROOT : RESOLVE_BENEATH;
    if (is_elsewhere && is_absolute) from = hold(call, root_of(call->thread));
    return hold(call, (int)syscall(SYS_openat2, from, text, &how, sizeof how));
}

static bool look_at_folder(const struct call *call, struct found *found) {
    if (found->folder != call->thread->folder) return look_at(found->folder, "", AT_EMPTY_PATH, &found->of_folder);
    found->of_folder = call->thread->of_folder;
    return true;
}

static bool open_its_folder(struct call *call, int from, char *path, struct found *found) {
    const char *folder;
    if (!split(path, &folder, found)) return false;
    bool is_here = from >= 0 && !strcmp(folder, ".");
    found->folder = is_here ? from : open_at_once(call, from, folder);
    if (found->folder < 0 && errno != ELOOP && errno != EXDEV && errno != EAGAIN) return false;
    if (found->folder >= 0 && !look_at_folder(call, found)) return false;
    if (is_here || (found->folder >= 0 && !is_in_proc(found))) return true;
    found->folder = hold(call, walk(call->thread, from, folder));
    return found->folder >= 0 && look_at_folder(call, found);
}

/* Whether what exists is under the root. A folder, a file with several names, and a file that a mount shows are known by themselves. A file with
   one name is where its folder is. */
static bool is_inside_by_itself(struct call *call, struct found *found, int *file) {
    bool may_be = S_ISDIR(found->facts.file.key.mode) || found->facts.file.links > 1;
    if (*file < 0 && found->folder_is_inside) {
        bool is_mounted = found->facts.device != found->of_folder.device;
        if (!is_mounted) set_inside(&found->facts.file.key, true);
        return !is_mounted;
    }
    if (*file < 0 && may_be) *file = hold(call, openat(found->folder, found->name, O_PATH | O_NOFOLLOW | O_CLOEXEC));
    return *file >= 0 && is_inside(*file, &found->facts);
}

static void show(struct found *found, int file) {
    if (file >= 0 || !strcmp(found->name, ".")) {
        shown_path(file >= 0 ? file : found->folder, file >= 0 ? &found->facts : &found->of_folder, found->path);
        return;
    }
    size_t length = strlen(shown_path(found->folder, &found->of_folder, found->path));
    if (!strcmp(found->path, ".")) length = 0;
    if (length + strlen(found->name) + 2 < PATH_MAX) sprintf(found->path + length, "%s%s", length ? "/" : "", found->name);
}

static void decide(struct call *call, struct found *found, int file) {
    found->folder_is_inside = is_inside(found->folder, &found->of_folder);
    found->is_inside = found->exists ? is_inside_by_itself(call, found, &file) : found->folder_is_inside;
    if (found->is_inside || found->folder_is_inside) show(found, file);
}

static bool look_for(struct call *call, int folder, const char *text, bool follows, struct found *found) {
    char path[PATH_MAX], target[PATH_MAX];
    snprintf(path, sizeof path, "%s", text);
    int from = path[0] == '/' ? AT_FDCWD : first_folder(call, folder);
    if (path[0] != '/' && from < 0) return false;
    for (int links = 0; links <= MOST_LINKS; links++) {
        if (!open_its_folder(call, from, path, found)) return false;
        found->exists = look_at(found->folder, found->name, AT_SYMLINK_NOFOLLOW, &found->facts);
        if (!found->exists && errno != ENOENT) return false;
        bool is_link = found->exists && S_ISLNK(found->facts.file.key.mode) && (follows || found->ends_in_slash);
        if (!is_link) {
            decide(call, found, -1);
            return true;
        }
        if (is_in_proc(found)) { /* it may lead to a file without a name, which is known by its descriptor */
            int file = hold(call, openat(found->folder, found->name, O_PATH | O_CLOEXEC));
            if (file < 0 || !look_at(file, "", AT_EMPTY_PATH, &found->facts)) return false;
            decide(call, found, file);
            return true;
        }
        ssize_t length = readlinkat(found->folder, found->name, target, sizeof target - 1);
        if (length <= 0) return false;
        target[length] = 0;
        if (found->ends_in_slash && length < PATH_MAX - 2) strcat(target, "/");
        strcpy(path, target);
        from = found->folder;
    }
    errno = ELOOP;
    return false;
}

bool find_text(struct call *call, int folder, const char *text, bool follows, struct found *found) {
    *found = (struct found){.folder = -1};
    act_as(call->thread);
    bool is_found = look_for(call, folder, text, follows, found);
    if (!is_found) found->error = errno;
    act_as_self();
    return is_found;
}

static bool find(struct call *call, int folder, uint64_t name, bool follows, struct found *found) {
    char text[PATH_MAX];
    *found = (struct found){.folder = -1, .error = EFAULT};
    if (!read_text(call->thread, name, text, sizeof text)) return false;
    found->error = ENOENT;
    return *text && find_text(call, folder, text, follows, found);
}

void pass_by(struct call *call, const struct found *found) {
    bool leads_nowhere = found->error == ENOENT || found->error == ENOTDIR || found->error == ELOOP || found->error == ENAMETOOLONG;
    if (leads_nowhere && !call->thread->is_elsewhere) finish(call, -found->error);
    else go_on(call);
}

static int folder_argument(const struct call *call, unsigned number) { return number ? (int)argument(call, number) : AT_FDCWD; }

bool find_name(struct call *call, bool follows, struct found *found) {
    return find(call, folder_argument(call, call->row->folder), argument(call, call->row->path), follows, found);
}

bool find_other(struct call *call, bool follows, struct found *found) {
    return find(call, folder_argument(call, call->row->other_folder), argument(call, call->row->other_path), follows, found);
}

const char *path_to(const struct found *found, char *path) {
    snprintf(path, FOUND_PATH, "/proc/self/fd/%d/%s", found->folder, found->name);
    return path;
}

void place_of(const struct found *found, struct place *place) {
    place->seen = found->folder_is_inside;
    place->name = found->name;
    place->folder = found->of_folder.file.key;
}
